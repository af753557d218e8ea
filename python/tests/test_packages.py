"""Tests of the wheel, of the Debian package's content, of prefixes, of manual pages and completion, and of the one version."""
import importlib.util, os, re, shutil, signal, subprocess, sys, tempfile, unittest, urllib.request, zipfile
from common import ARCHIVE, ROOT, make_library
from sedgepick import VERSION, library

SQUARE = 'import sedgepick; print(sedgepick.__file__, len(sedgepick.run_front([(0,0),(1,0),(1,1),(0,1)], [(0,1,2),(0,2,3)], 1.0).quads), sedgepick.VERSION)'
COMMANDS = ('sedgepick-mesh', 'sedgepick-accept', 'sedgepick-desk')
SLAB = os.path.join(ROOT, 'examples', 'files', 'columns.msh')


def setUpModule():
    make_library()


def run(*words, **options):
    return subprocess.run(words, capture_output=True, text=True, **options)


def clean():
    """The environment without what leads Python to the checkout."""
    return {name: value for name, value in os.environ.items() if name not in ('PYTHONPATH', 'SEDGEPICK_LIBRARY', 'SEDGEPICK_ARCHIVE')}


def read(*path):
    with open(os.path.join(ROOT, *path)) as file:
        return file.read()


def backend():
    spec = importlib.util.spec_from_file_location('wheel_of_tree', os.path.join(ROOT, 'packaging', 'wheel_of_tree.py'))
    module = importlib.util.module_from_spec(spec)
    spec.loader.exec_module(module)
    return module


class Folder(unittest.TestCase):
    def setUp(self):
        self.folder = tempfile.mkdtemp()
        self.addCleanup(shutil.rmtree, self.folder)

    def good(self, *words, **options):
        ran = run(*words, **options)
        self.assertEqual(ran.returncode, 0, ran.stdout + ran.stderr)
        return ran.stdout

    def serve(self, words, environment):
        """Starts a desk, takes from it its page and each file that the page names, and ends it."""
        desk = subprocess.Popen([*words, '--no-browser', SLAB], stdout=subprocess.PIPE, stderr=subprocess.PIPE, text=True, env=environment, cwd=self.folder)
        self.addCleanup(desk.stdout.close)
        self.addCleanup(desk.stderr.close)
        self.addCleanup(desk.kill)
        found = re.search(r'http://\S+/', desk.stdout.readline())
        self.assertTrue(found, desk.poll() is not None and desk.stderr.read())
        take = lambda name: urllib.request.urlopen(found[0] + name, timeout=60).read()
        page = take('').decode()
        for name in {'desk.js', 'desk.css', *re.findall(r'(?:src|href)="([\w.-]+\.(?:js|css|svg))"', page)}:
            with self.subTest(name):
                self.assertTrue(take(name))
        desk.send_signal(signal.SIGTERM)
        self.assertEqual(desk.wait(60), 0)

    def listed(self, folder):
        return sorted(os.path.relpath(os.path.join(place, name), folder) for place, folders, names in os.walk(folder) for name in [*names, *folders])


class Version(unittest.TestCase):
    def test_one_version(self):
        """The header has it; all others say the same."""
        header = read('include', 'sedgepick.h')
        version = re.search('^#define SEDGEPICK_VERSION "(.*)"$', header, re.M)[1]
        self.assertEqual('.'.join(re.search('^#define SEDGEPICK_VERSION_%s (.*)$' % part, header, re.M)[1] for part in ('MAJOR', 'MINOR', 'PATCH')), version)
        self.assertEqual(VERSION, version)
        self.assertEqual(library.version(), version)
        self.assertEqual(re.search('^version = "(.*)"$', read('bindings', 'rust', 'Cargo.toml'), re.M)[1], version)
        self.assertEqual(backend().version(), version)
        self.assertEqual(re.search(r'^## (\d.*) - ', read('CHANGELOG.md'), re.M)[1], version)
        for folder in (('bindings', 'rust'), ('compare',), ('bench',)):
            locked = re.search('^name = "sedgepick"\nversion = "(.*)"$', read(*folder, 'Cargo.lock'), re.M)
            self.assertEqual(locked[1], version, folder)
        self.assertEqual(re.search('^#define SEDGEPICK_ABI (.*)$', header, re.M)[1], str(library.ABI))


class Wheel(Folder):
    def test_content(self):
        made = backend().build_wheel(self.folder)
        self.assertRegex(made, r'^sedgepick-%s-py3-none-manylinux_2_\d+_x86_64.whl$' % re.escape(VERSION))
        with zipfile.ZipFile(os.path.join(self.folder, made)) as wheel:
            names = wheel.namelist()
            record = wheel.read('sedgepick-%s.dist-info/RECORD' % VERSION).decode().splitlines()
            metadata = wheel.read('sedgepick-%s.dist-info/METADATA' % VERSION).decode()
        own = {os.path.relpath(os.path.join(place, name), os.path.join(ROOT, 'python')) for place, _, files in os.walk(os.path.join(ROOT, 'python', 'sedgepick')) for name in files if '__pycache__' not in place}
        self.assertEqual({name for name in names if name.startswith('sedgepick/')}, own | {'sedgepick/libsedgepick.so.2'})
        self.assertIn('sedgepick/py.typed', names)
        self.assertEqual([line.split(',')[0] for line in record], names)
        self.assertIn('\nRequires-Dist: numpy\n', metadata)
        self.assertIn("\nRequires-Dist: meshio; extra == 'formats'\n", metadata)
        with open(os.path.join(self.folder, made), 'rb') as file:
            first = file.read()
        backend().build_wheel(self.folder)
        with open(os.path.join(self.folder, made), 'rb') as file:
            self.assertEqual(file.read(), first)

    @unittest.skipUnless(shutil.which('cc'), 'cc is not installed')
    def test_tag(self):
        """The newest version among the functions taken decides; a function of another library is refused."""
        source, out = os.path.join(self.folder, 'one.c'), os.path.join(self.folder, 'one.so')
        for text, tag in (('int one(void) { return 1; }', 'manylinux_2_5_x86_64'), ('#include <math.h>\ndouble one(double x) { return pow(x, x); }', 'manylinux_2_29_x86_64')):
            with open(source, 'w') as file:
                file.write(text)
            self.good('cc', '-O0', '-nostartfiles', '-shared', '-fPIC', source, '-o', out, '-lm')
            self.assertEqual(backend().tag(out), tag)
        with open(source, 'w') as file:
            file.write('int two(void) { return 2; }')
        self.good('cc', '-shared', '-fPIC', source, '-o', os.path.join(self.folder, 'libtwo.so'))
        with open(source, 'w') as file:
            file.write('int two(void); int one(void) { return two(); }')
        self.good('cc', '-shared', '-fPIC', source, '-o', out, '-L' + self.folder, '-ltwo')
        with self.assertRaisesRegex(Exception, 'takes functions of libtwo.so'):
            backend().tag(out)

    @unittest.skipUnless(importlib.util.find_spec('pip') and importlib.util.find_spec('numpy'), 'pip or numpy is not installed')
    def test_pip(self):
        """In a venv: installed, used, taken away; then a link to the checkout."""
        venv = os.path.join(self.folder, 'venv')
        self.good(sys.executable, '-m', 'venv', '--system-site-packages', '--without-pip', venv, env=clean())
        python = os.path.join(venv, 'bin', 'python3')
        with open(os.path.join(venv, 'lib', 'python%d.%d' % sys.version_info[:2], 'site-packages', 'mine.py'), 'w'):  # pip takes away a folder that is empty
            pass
        before = self.listed(venv)
        pip = [sys.executable, '-m', 'pip', '--python', python, '--quiet', '--disable-pip-version-check', '--no-cache-dir']
        self.good(*pip, 'install', '--no-index', ROOT, env=clean(), cwd=self.folder)
        place, quads, version = self.good(python, '-c', SQUARE, env=clean(), cwd=self.folder).split()
        self.assertTrue(place.startswith(venv), place)
        self.assertEqual((quads, version), ('1', VERSION))
        self.assertIn('accepted', self.good(os.path.join(venv, 'bin', 'sedgepick-mesh'), SLAB, '-o', 'quads.msh', env=clean(), cwd=self.folder))
        self.assertIn('accepted', self.good(os.path.join(venv, 'bin', 'sedgepick-accept'), SLAB, 'quads.msh', env=clean(), cwd=self.folder))
        self.serve([os.path.join(venv, 'bin', 'sedgepick-desk')], clean())
        self.good(*pip, 'uninstall', '-y', 'sedgepick', env=clean(), cwd=self.folder)
        self.assertEqual(self.listed(venv), before)
        self.good(*pip, 'install', '--no-index', '-e', ROOT, env=clean(), cwd=self.folder)
        self.assertEqual(self.good(python, '-B', '-c', SQUARE, env=clean(), cwd=self.folder).split()[0], os.path.join(ROOT, 'python', 'sedgepick', '__init__.py'))
        self.good(*pip, 'uninstall', '-y', 'sedgepick', env=clean(), cwd=self.folder)
        self.assertEqual(self.listed(venv), before)


class Prefix(Folder):
    def install(self, prefix):
        self.good(os.path.join(ROOT, 'tools', 'install'), prefix, ARCHIVE)

    def test_removed(self):
        """Nothing stays but what was there."""
        prefix = os.path.join(self.folder, 'prefix')
        self.install(prefix)
        code = 'import sys; sys.path.insert(0, sys.argv[1]); ' + SQUARE
        self.good(sys.executable, '-c', code, os.path.join(prefix, 'lib', 'python3', 'dist-packages'), env=clean())  # it leaves bytecode
        self.install(prefix)
        self.good(os.path.join(ROOT, 'tools', 'install'), '--remove', prefix)
        self.assertFalse(os.path.exists(prefix))
        os.makedirs(os.path.join(prefix, 'lib'))
        os.makedirs(os.path.join(prefix, 'share', 'man'))
        self.install(prefix)
        with open(os.path.join(prefix, 'bin', 'mine'), 'w'):
            pass
        self.good(os.path.join(ROOT, 'tools', 'install'), '--remove', prefix)
        self.assertEqual(self.listed(prefix), ['bin', 'bin/mine', 'lib', 'share', 'share/man'])
        ran = run(os.path.join(ROOT, 'tools', 'install'), '--remove', prefix)
        self.assertEqual((ran.returncode, 'nothing is installed below' in ran.stderr), (1, True))

    def test_where_python_looks(self):
        """A venv as the prefix: its Python finds the package; so does the user's folder."""
        venv = os.path.join(self.folder, 'venv')
        self.good(sys.executable, '-m', 'venv', '--system-site-packages', '--without-pip', venv, env=clean())
        self.install(venv)
        place, quads, _ = self.good(os.path.join(venv, 'bin', 'python3'), '-c', SQUARE, env=clean(), cwd=self.folder).split()
        self.assertEqual((place.startswith(os.path.join(venv, 'lib', 'python3.')), quads), (True, '1'))
        home = os.path.join(self.folder, 'home')
        self.good(os.path.join(ROOT, 'tools', 'install'), os.path.join(home, '.local'), ARCHIVE, env=dict(clean(), HOME=home))
        if os.path.exists('/usr/bin/python3'):
            place, quads, _ = self.good('/usr/bin/python3', '-c', SQUARE, env=dict(clean(), HOME=home), cwd=self.folder).split()
            self.assertEqual((place.startswith(home), quads), (True, '1'))
        self.assertIn('accepted', self.good(os.path.join(home, '.local', 'bin', 'sedgepick-mesh'), SLAB, '-o', 'quads.msh', env=dict(clean(), HOME='/'), cwd=self.folder))
        self.serve([os.path.join(home, '.local', 'bin', 'sedgepick-desk')], dict(clean(), HOME='/'))


class Pages(Folder):
    def setUp(self):
        super().setUp()
        self.good(os.path.join(ROOT, 'tools', 'pages'), self.folder)

    def options(self, name):
        """The options that the command's usage lists."""
        usage = self.good(sys.executable, os.path.join(ROOT, 'python', name), '--help').split('\n\n')[0]
        return set(re.findall(r'(--[a-z][a-z-]*)', usage)) | {'sedgepick-mesh': {'--help', '--quiet', '--output'}, 'sedgepick-accept': {'--help', '--quiet'}, 'sedgepick-desk': {'--help'}}[name]

    def test_every_option(self):
        for name in COMMANDS:
            with open(os.path.join(self.folder, 'man/man1/%s.1' % name)) as file:
                page = file.read().replace('\\-', '-')
            listed = re.findall(r'^\.TP\n\.B (.*)\n(.+)$', page, re.M)
            found = {word for option, _ in listed for word in re.findall('--[a-z][a-z-]*', option)}
            self.assertTrue(self.options(name) <= found, self.options(name) - found)
            self.assertTrue(all(told.strip() for _, told in listed))
            self.assertIn('.SH EXIT STATUS', page)
            self.assertIn('sedgepick %s' % VERSION, page)

    @unittest.skipUnless(shutil.which('man'), 'man is not installed')
    def test_man_reads_it(self):
        for name in COMMANDS:
            ran = run('man', '--warnings', '-l', os.path.join(self.folder, 'man/man1/%s.1' % name), env=dict(os.environ, MANPAGER='cat', MANWIDTH='80', LC_ALL='C.UTF-8'))
            self.assertEqual((ran.returncode, ran.stderr), (0, ''))
            self.assertIn('EXIT STATUS', ran.stdout)

    @unittest.skipUnless(shutil.which('bash'), 'bash is not installed')
    def test_completion(self):
        path = os.path.join(self.folder, 'bash-completion/completions/sedgepick-mesh')
        complete = 'source %s; COMP_WORDS=(sedgepick-mesh "$1"); COMP_CWORD=1; _sedgepick_mesh; printf "%%s\\n" "${COMPREPLY[@]}"' % path
        self.assertEqual(self.good('bash', '-c', complete, '-', '--re').split(), ['--read-memory', '--read-seconds', '--report'])
        self.assertEqual(set(self.good('bash', '-c', complete, '-', '--').split()), self.options('sedgepick-mesh'))
        self.assertEqual(self.good('bash', '-c', complete, '-', 'pyproj', cwd=ROOT).split(), ['pyproject.toml'])


@unittest.skipUnless(shutil.which('dpkg-deb'), 'dpkg-deb is not installed')
class Deb(Folder):
    def test_content(self):
        """What a package manager sees; and unpacked it works where it lies."""
        made = self.good(os.path.join(ROOT, 'packaging', 'deb'), self.folder, env=dict(os.environ, SEDGEPICK_ARCHIVE=ARCHIVE)).strip()
        self.assertEqual(made, os.path.join(self.folder, 'sedgepick_%s_amd64.deb' % VERSION))
        field = lambda name: self.good('dpkg-deb', '--field', made, name).strip()
        self.assertEqual((field('Package'), field('Version'), field('Architecture'), field('Recommends')), ('sedgepick', VERSION, 'amd64', 'metis, python3-h5py'))
        self.assertEqual(re.sub(r' \(.*?\)', '', field('Depends')), 'libc6, python3, python3-numpy, python3-meshio')
        rows = [line.split(None, 5) for line in self.good('dpkg-deb', '--contents', made).splitlines()]
        self.assertEqual({row[1] for row in rows}, {'root/root'})
        names = {row[5].lstrip('.').split(' -> ')[0] for row in rows}
        package = '/usr/lib/python3/dist-packages/sedgepick/'
        for name in ('/usr/lib/libsedgepick.so.2', package + 'py.typed', package + 'zoom.js', package + 'desk/static/desk.html', '/usr/share/doc/sedgepick/copyright', '/usr/include/sedgepick.h',
                     *(place % name for name in COMMANDS for place in ('/usr/bin/%s', '/usr/share/man/man1/%s.1.gz', '/usr/share/bash-completion/completions/%s'))):
            self.assertIn(name, names)
        root = os.path.join(self.folder, 'root')
        self.good('dpkg-deb', '--extract', made, root)
        place, quads, _ = self.good(sys.executable, '-c', SQUARE, env=dict(clean(), PYTHONPATH=os.path.join(root, 'usr/lib/python3/dist-packages')), cwd=self.folder).split()
        self.assertEqual((place.startswith(root), quads), (True, '1'))
        for name in COMMANDS:
            with open(os.path.join(root, 'usr/bin', name)) as file:
                self.assertEqual((name, file.readline()), (name, '#!/usr/bin/python3\n'))


if __name__ == '__main__':
    unittest.main()
