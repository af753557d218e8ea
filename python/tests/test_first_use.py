"""Tests of ./sedgepick-mesh and tools/library in a copy of the tree, with a stand-in for rt that says what rt says and copies the proved archive."""
import os, re, shutil, subprocess, tempfile, unittest
from common import ARCHIVE, ROOT, make_library

RT = r'''#!/bin/sh
if [ "$1" = version ]; then
    cat "$RT_FOLDER/version"
    exit 0
fi
[ "$*" = lib ] && [ "${PWD##*/}" = library ] || exit 2
echo call >>"$RT_FOLDER/calls"
echo 'rt: chose --jobs 2 for one'
echo 'fn one::one: proved'
echo 'logic=proved functions=2 sum=0'
echo 'rt: chose --jobs 2 for two'
echo 'logic=proved functions=1 sum=0'
echo 'rt: chose --jobs 2 for library'
[ ! -f "$RT_FOLDER/fails" ] || { echo 'fn library::library: not proved: a hole'; echo 'logic=not-proved'; exit 1; }
echo 'logic=proved functions=1 target=x86_64-unknown-linux-gnu sum=0' >&2
mkdir -p out
cp "$RT_ARCHIVE" out/liblibrary.a
'''
CRATES = '# what is believed\none:\ntwo: one\nother: one\nlibrary staticlib: one two\n'


def setUpModule():
    make_library()


class FirstUse(unittest.TestCase):
    def setUp(self):
        self.folder = tempfile.mkdtemp()
        self.addCleanup(shutil.rmtree, self.folder)
        self.root, self.kit = os.path.join(self.folder, 'tree'), os.path.join(self.folder, 'kit')
        for name in ('tools', 'c', 'include', 'python/sedgepick', 'examples/files'):
            shutil.copytree(os.path.join(ROOT, name), os.path.join(self.root, name), ignore=shutil.ignore_patterns('__pycache__'))
        for name in ('sedgepick-mesh', 'python/sedgepick-mesh'):
            shutil.copy(os.path.join(ROOT, name), os.path.join(self.root, name))
        for name in ('one', 'two', 'other', 'library'):
            self.put('tree/crates/%s/src/lib.rt' % name, 'fn %s() {}\n' % name)
        self.put('tree/crates.txt', CRATES)
        self.put('kit/version', 'kit-1 logic 0\n')
        self.put('kit/rt', RT)
        os.chmod(os.path.join(self.kit, 'rt'), 0o755)
        self.put('hidden/meshio.py', 'raise ImportError("meshio is hidden", name="meshio")\n')
        self.environment = {name: value for name, value in os.environ.items() if name not in ('SEDGEPICK_ARCHIVE', 'SEDGEPICK_LIBRARY', 'DISPLAY', 'WAYLAND_DISPLAY')}
        self.environment.update(PATH=self.kit + os.pathsep + os.environ['PATH'], RT_FOLDER=self.kit, RT_ARCHIVE=ARCHIVE, SEDGEPICK_APT='no', PYTHONDONTWRITEBYTECODE='1',
                                PYTHONPATH=os.path.join(self.folder, 'hidden'))

    def put(self, name, text):
        path = os.path.join(self.folder, name)
        os.makedirs(os.path.dirname(path), exist_ok=True)
        with open(path, 'w') as file:
            file.write(text)

    def calls(self):
        with open(os.path.join(self.kit, 'calls')) as file:
            return len(file.readlines())

    def run_in(self, *words):
        return subprocess.run([os.path.join(self.root, words[0]), *words[1:]], capture_output=True, text=True, env=self.environment, cwd=self.folder)

    def good(self, *words):
        ran = self.run_in(*words)
        self.assertEqual(ran.returncode, 0, ran.stdout + ran.stderr)
        return ran

    def test_progress(self):
        """The crates that the library depends on are counted, those alone; nothing is proved twice."""
        lines = self.good('tools/library').stderr.splitlines()
        self.assertEqual([re.sub(r'(about )?\d+ min', 'N min', line) for line in lines[1:]],
                         ['proved: crate 1 of 3 (one), N min left', 'proved: crate 2 of 3 (two), N min left', 'proved: crate 3 of 3 (library), the archive is written, N min left'])
        self.assertIn('3 crates', lines[0])
        self.assertEqual((self.good('tools/library').stderr, self.calls()), ('', 1))

    def test_what_changes_is_proved(self):
        self.good('tools/library')
        changes = (lambda: self.put('tree/crates/two/src/lib.rt', 'fn two() { }\n'), lambda: self.put('tree/crates/two/proofs/new.antt', ''),
                   lambda: os.remove(os.path.join(self.root, 'crates/two/proofs/new.antt')), lambda: self.put('tree/crates.txt', CRATES + '#\n'), lambda: self.put('kit/version', 'kit-2 logic 0\n'),
                   lambda: os.truncate(os.path.join(self.root, 'target/staticlib/liblibrary.a'), 100), lambda: os.remove(os.path.join(self.root, 'target/staticlib/library.stamp')))
        for number, change in enumerate(changes, 2):
            change()
            self.good('tools/library')
            self.assertEqual(self.calls(), number)
            self.good('tools/library')
            self.assertEqual(self.calls(), number)
        library = os.path.join(self.root, 'target/shared/libsedgepick.so.2')
        before = os.stat(library).st_ino
        self.good('tools/library')
        self.assertEqual(os.stat(library).st_ino, before)
        with open(os.path.join(self.root, 'c/sedgepick_mesh.c'), 'a') as file:
            file.write('\n')
        self.good('tools/library')
        self.assertNotEqual(os.stat(library).st_ino, before)
        self.assertEqual(self.calls(), number)

    def test_not_proved(self):
        self.put('kit/fails', '')
        ran = self.run_in('sedgepick-mesh', '--demo')
        self.assertEqual(ran.returncode, 1)
        self.assertRegex(ran.stderr, 'not proved: a hole\n(?:.*\n)*.*target/library.log has all')
        self.assertFalse(os.path.exists(os.path.join(self.root, 'target/staticlib/library.stamp')))
        self.assertEqual(ran.stdout, '')

    def test_no_kit(self):
        os.remove(os.path.join(self.kit, 'rt'))
        self.environment['PATH'] = os.pathsep.join(place for place in self.environment['PATH'].split(os.pathsep) if not os.path.exists(os.path.join(place, 'rt')))
        ran = self.run_in('sedgepick-mesh', '--demo')
        self.assertEqual(ran.returncode, 1)
        self.assertIn('the kit, rt, is not on the PATH', ran.stderr)
        self.assertEqual(self.run_in('sedgepick-mesh', '--version').returncode, 0)

    def test_demo_without_meshio(self):
        """From nothing to a mesh and a report, and then a file of one's own."""
        ran = self.good('sedgepick-mesh', '--demo', os.path.join(self.folder, 'made'))
        self.assertRegex(ran.stdout, r'columns.msh: 642 triangles to 321 quads and 0 triangles \(100.0 % quads\).*accepted')
        self.assertEqual(sorted(os.listdir(os.path.join(self.folder, 'made'))), ['quads.vtu', 'report.html'])
        for name in ('quads.vtu', 'report.html'):
            self.assertIn(os.path.join(self.folder, 'made', name), ran.stdout)
        with open(os.path.join(self.folder, 'made', 'report.html')) as file:
            page = file.read()
        self.assertIn('<svg', page)
        self.assertIn('not installed; the file was read and written by the package itself', page)
        self.good('sedgepick-mesh', os.path.join(self.root, 'examples/files/l-slab-22.msh'), '-o', 'own.msh', '--report', 'own.html')
        self.assertTrue({'own.msh', 'own.html'} < set(os.listdir(self.folder)))
        self.assertEqual(self.calls(), 1)
        ran = self.run_in('sedgepick-mesh', os.path.join(self.root, 'examples/files/l-slab.inp'), '-o', 'own.msh')
        self.assertEqual((ran.returncode, 'abaqus files need meshio' in ran.stderr), (1, True))


class Needs(unittest.TestCase):
    def run_needs(self, *words, **environment):
        return subprocess.run([os.path.join(ROOT, 'tools', 'needs'), *words], capture_output=True, text=True, env={**os.environ, 'SEDGEPICK_APT': 'no', **environment})

    def with_apt(self, script, **environment):
        """Runs it as root would, on a machine without compiler and binutils whose apt-get is this script."""
        with tempfile.TemporaryDirectory() as folder:
            for name in ('sh', 'tr', 'timeout', 'sleep', 'touch', 'chmod'):
                os.symlink(shutil.which(name), os.path.join(folder, name))
            for name, text in (('id', 'echo 0'), ('apt-get', 'echo "$*" >>%s/said\n%s' % (folder, script.replace('FOLDER', folder)))):
                with open(os.path.join(folder, name), 'w') as file:
                    file.write('#!/bin/sh\n%s\n' % text)
                os.chmod(os.path.join(folder, name), 0o755)
            ran = self.run_needs('mesh', PATH=folder, SEDGEPICK_APT='yes', **environment)
            with open(os.path.join(folder, 'said')) as file:
                return ran, file.read()

    def test_installed(self):
        ran, said = self.with_apt('case "$*" in *install*) for name in cc objcopy; do touch FOLDER/$name; chmod +x FOLDER/$name; done ;; esac')
        self.assertEqual((ran.returncode, ran.stderr), (0, 'needs: installing gcc libc6-dev binutils\n'))
        self.assertRegex(said, '(?s)update\n.*install gcc libc6-dev binutils\n')

    def test_no_network(self):
        """It goes on with words where apt fails, or does not end."""
        for script in ('exit 100', 'exec sleep 60'):
            ran, _ = self.with_apt(script, SEDGEPICK_APT_SECONDS='1')
            self.assertEqual(ran.returncode, 1)
            self.assertIn('needs: missing are gcc libc6-dev binutils; type: apt install gcc libc6-dev binutils\n', ran.stderr)

    def test_nothing_is_missing(self):
        """The tests run, so what they need is there."""
        self.assertEqual((self.run_needs('mesh').returncode, self.run_needs('mesh').stderr), (0, ''))

    def test_the_line_to_type(self):
        with tempfile.TemporaryDirectory() as folder:
            for name in ('sh', 'tr', 'id', 'python3'):
                os.symlink(shutil.which(name), os.path.join(folder, name))
            ran = self.run_needs('mesh', PATH=folder)
        self.assertEqual(ran.returncode, 1)
        self.assertRegex(ran.stderr, '^needs: missing are gcc libc6-dev binutils; type: (sudo )?apt install gcc libc6-dev binutils\n$')

    def test_wrong_words(self):
        self.assertEqual(self.run_needs().returncode, 2)
        self.assertEqual(self.run_needs('tea').returncode, 2)


if __name__ == '__main__':
    unittest.main()
