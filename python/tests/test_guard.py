"""Tests of the layer in C between a caller and the proved library: the floating point, the stack, other versions, sanitizers."""
import ctypes, glob, os, pickle, shutil, subprocess, sys, tempfile, unittest
from common import ARCHIVE, PACKAGES, ROOT, grid, make_library
import sedgepick, stack_use
from sedgepick import library

SHARED = os.path.join(ROOT, 'target', 'shared')
SQUARE = [(0, 0), (1, 0), (1, 1), (0, 1)], [(0, 1, 2), (0, 2, 3)]


def setUpModule():
    make_library()


def run(*words, **options):
    return subprocess.run(words, capture_output=True, text=True, **options)


class Built(unittest.TestCase):
    def setUp(self):
        self.folder = tempfile.mkdtemp()
        self.addCleanup(shutil.rmtree, self.folder)

    def path(self, name):
        return os.path.join(self.folder, name)

    def built(self, *words):
        made = run('cc', '-Wall', '-Wextra', '-Werror', '-I' + os.path.join(ROOT, 'include'), '-o', self.path('out'), *words)
        self.assertEqual(made.returncode, 0, made.stderr)
        return self.path('out')


class Floats(Built):
    def test_modes_and_stack(self):
        """Meshes are the same under each rounding mode, FTZ, DAZ and traps; a call takes less stack than the header says."""
        test = os.path.join(ROOT, 'c', 'test_guard.c')
        ran = run(self.built(test, os.path.join(SHARED, 'libsedgepick.a'), '-lpthread'))
        self.assertEqual(ran.returncode, 0, ran.stdout)
        self.assertRegex(ran.stdout, r'^ok, \d+ bytes of stack\n$')
        with open(os.path.join(ROOT, 'include', 'sedgepick.h')) as file:
            self.assertIn('at most 20 KB of stack', file.read())

    @unittest.skipUnless(shutil.which('objdump'), 'objdump is not installed')
    def test_stack_of_the_code(self):
        """No proved function calls itself or what it is handed, so the frames along the deepest path bound the stack on every input."""
        found = stack_use.deepest(ARCHIVE)
        self.assertIn('sedgepick_run_front_with', found)
        self.assertGreater(found['sedgepick_run_front_with'], 1000)
        self.assertLess(max(found.values()), 19 * 1024)  # a KB is left for the layer around it and the C library

    def test_bare(self):
        """The same test fails on the bare archive: it can tell."""
        test = os.path.join(ROOT, 'c', 'test_guard.c')
        ran = run(self.built(test, os.path.join(ROOT, 'c', 'sedgepick_mesh.c'), ARCHIVE, '-lpthread'))
        self.assertNotEqual(ran.returncode, 0)
        for words in ('same(&mesh, &usual[i])', 'sized == SEDGEPICK_BAD_SIZE'):
            self.assertIn(words, ran.stdout)

    def test_python(self):
        """From Python: the whole process under another mode, set by the C library."""
        points, triangles = grid(9, 9, 0.125)
        points = [(x + 0.04 * ((7 * i) % 11 - 5) / 5, y + 0.04 * ((5 * i) % 13 - 6) / 6) if 0 < x < 1.1 and 0 < y < 1.1 else (x, y) for i, (x, y, _) in enumerate(points)]
        maths, mesh = ctypes.CDLL('libm.so.6'), sedgepick.run_front(points, triangles, 0.125)
        judged = lambda: repr(sedgepick.accept(points, triangles, mesh.points, mesh.quads.nodes, mesh.triangles))
        usual, verdict = repr(mesh), judged()
        for mode in (0x400, 0x800, 0xc00):
            before = maths.fegetround()
            self.assertEqual(maths.fesetround(mode), 0)
            try:
                found, again, after = sedgepick.run_front(points, triangles, 0.125), judged(), maths.fegetround()
            finally:
                maths.fesetround(before)
            self.assertEqual((repr(found), again, after), (usual, verdict, mode))


STUB = """#include <stddef.h>
const char *sedgepick_version(void) { return "%s"; }
size_t sedgepick_abi(void) { return %s; }
size_t sedgepick_run_front_with(void) { *(volatile int *)0 = 0; return 0; }
size_t sedgepick_job(void) { return 0; }
size_t sedgepick_preview(void) { return 0; }
size_t sedgepick_replay(void) { return 0; }
size_t sedgepick_sheet(void) { return 0; }
size_t sedgepick_accept(void) { return 0; }
size_t sedgepick_filing_order(void) { return 0; }
size_t sedgepick_small_mesh(void) { return 0; }
"""


class Versions(Built):
    def stub(self, words):
        with open(self.path('stub.c'), 'w') as file:
            file.write(words)
        made = run('cc', '-shared', '-fPIC', self.path('stub.c'), '-o', self.path('stub.so'))
        self.assertEqual(made.returncode, 0, made.stderr)
        code = ('import sys; sys.path.insert(0, %r); import sedgepick\ntry:\n    print(sedgepick.run_front(%r, %r, 1.0))\nexcept sedgepick.NoLibrary as fault:\n    print(fault)'
                % (PACKAGES, *SQUARE))
        return run(sys.executable, '-c', code, env=dict(os.environ, SEDGEPICK_LIBRARY=self.path('stub.so')))

    def test_another_library_is_refused(self):
        for version, abi in (('0.1.0', library.ABI), (library.VERSION, library.ABI - 1), (library.VERSION, library.ABI + 1), ('9.0', library.ABI)):
            ran = self.stub(STUB % (version, abi))
            self.assertEqual(ran.returncode, 0, ran.stderr)
            self.assertIn('is sedgepick %s with interface %d, and this package is' % (version, abi), ran.stdout)
        ran = self.stub(STUB.replace('sedgepick_abi', 'nothing') % (library.VERSION, 2))
        self.assertEqual(ran.returncode, 0, ran.stderr)
        self.assertIn('of an unknown version', ran.stdout)
        self.assertLess(self.stub(STUB % (library.VERSION, library.ABI)).returncode, 0)  # the stub of the right numbers is called, and ends

    def test_what_the_library_says(self):
        self.assertEqual((library.version(), library.abi()), (library.VERSION, library.ABI))
        self.assertRegex(library.build(), '^archive [0-9a-f]{64}, ')
        with open(os.path.join(ROOT, 'include', 'sedgepick.h')) as file:
            self.assertIn('#define SEDGEPICK_ABI %d\n' % library.ABI, file.read())

    def test_exports(self):
        """The shared library has the functions of the headers and no others."""
        found = run('nm', '-D', '--defined-only', os.path.join(SHARED, library.SONAME))
        if found.returncode:
            self.skipTest('nm is not installed')
        names = {line.split()[-1] for line in found.stdout.splitlines()}
        headers = ''
        for name in glob.glob(os.path.join(ROOT, 'include', '*.h')) + glob.glob(os.path.join(ROOT, 'c', '**', '*.h'), recursive=True):
            with open(name) as file:
                headers += file.read()
        self.assertEqual([name for name in names if not name.startswith('sedgepick_') or name + '(' not in headers], [])

    def test_an_export_without_its_guard(self):
        """An archive and a layer that have other functions make no library."""
        with open(self.path('more.c'), 'w') as file:
            file.write('#include <stddef.h>\nsize_t sedgepick_more(void) { return 0; }\n')
        self.assertEqual(run('cc', '-c', self.path('more.c'), '-o', self.path('more.o')).returncode, 0)
        shutil.copy(ARCHIVE, self.path('liblibrary.a'))
        self.assertEqual(run('ar', 'rs', self.path('liblibrary.a'), self.path('more.o')).returncode, 0)
        made = run(os.path.join(ROOT, 'tools', 'shared'), self.path('liblibrary.a'), self.folder)
        self.assertEqual(made.returncode, 1)
        self.assertIn('differ: sedgepick_more', made.stderr)


class Sanitizers(Built):
    def test_sanitizers(self):
        """The functions in c/ under the sanitizers of the compiler: their own memory, and arithmetic without meaning."""
        flags = ['-g', '-fsanitize=address,undefined', '-fno-sanitize-recover=all']
        with open(self.path('nothing.c'), 'w') as file:
            file.write('int main(void) { return 0; }\n')
        if run('cc', *flags, self.path('nothing.c'), '-o', self.path('nothing')).returncode:
            self.skipTest('the compiler has no sanitizers')
        sources = [os.path.join(ROOT, 'c', name) for name in ('test_mesh.c', 'sedgepick_mesh.c', 'sedgepick_guard.c')]
        names, renamed = self.path('names'), self.path('bare.a')
        with open(sources[2]) as file, open(names, 'w') as out:
            out.writelines('{0} bare_{0}\n'.format(line[6:line.index(',')]) for line in file if line.startswith('GUARD('))
        self.assertEqual(run('objcopy', '--redefine-syms=' + names, ARCHIVE, renamed).returncode, 0)
        ran = run(self.built(*flags, *sources, renamed, '-lm', '-lpthread'), env=dict(os.environ, ASAN_OPTIONS='detect_leaks=1'))
        self.assertEqual((ran.returncode, ran.stdout), (0, 'ok\n'), ran.stdout + ran.stderr)


class Pickled(unittest.TestCase):
    def test_refused(self):
        for refused in (sedgepick.Refused(5), sedgepick.Refused(14, 'words of its own')):
            again = pickle.loads(pickle.dumps(refused))
            self.assertEqual((type(again), again.number, again.words, str(again)), (sedgepick.Refused, refused.number, refused.words, str(refused)))


if __name__ == '__main__':
    unittest.main()
