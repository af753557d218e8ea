"""Tests of docs/LIBRARY.md: its lines for the C compiler as they stand there, and each example in C by the line that is its own."""
import glob, os, re, shutil, subprocess, tempfile, unittest
from common import ARCHIVE, ROOT, make_library

PAGE = os.path.join(ROOT, 'docs', 'LIBRARY.md')


def setUpModule():
    make_library()


def lines():
    """(the line with the bare archive, those with an installed library)"""
    with open(PAGE) as file:
        found = re.findall(r'^    (cc .*)$', file.read(), re.M)
    return [line for line in found if 'liblibrary.a' in line], [line for line in found if 'PREFIX' in line]


@unittest.skipUnless(shutil.which('cc') and shutil.which('pkg-config'), 'a C compiler or pkg-config is not installed')
class Page(unittest.TestCase):
    @classmethod
    def setUpClass(cls):
        """A folder that has what the lines name, as in a checkout where the library is built and installed."""
        cls.folder = tempfile.mkdtemp()
        cls.addClassCleanup(shutil.rmtree, cls.folder)
        for name in ('include', 'examples'):
            os.symlink(os.path.join(ROOT, name), os.path.join(cls.folder, name))
        os.makedirs(os.path.join(cls.folder, 'target', 'staticlib'))
        os.symlink(ARCHIVE, os.path.join(cls.folder, 'target', 'staticlib', 'liblibrary.a'))
        made = subprocess.run([os.path.join(ROOT, 'tools', 'install'), os.path.join(cls.folder, 'PREFIX'), ARCHIVE], capture_output=True, text=True)
        assert made.returncode == 0, made.stderr

    def ran(self, line):
        done = subprocess.run(line, shell=True, cwd=self.folder, capture_output=True, text=True)
        self.assertEqual((done.returncode, done.stderr), (0, ''), line)
        self.assertTrue(done.stdout, line)

    def test_lines(self):
        bare, installed = lines()
        self.assertEqual((len(bare), len(installed)), (1, 2))
        for line in bare + installed:
            self.ran(line)

    def test_examples(self):
        """Each example by one of the lines, with its name in the place of the other: by the installed library where it calls what is there alone."""
        (bare,), (installed, _) = lines()
        for path in sorted(glob.glob(os.path.join(ROOT, 'examples', 'c', '*.c'))):
            name = os.path.splitext(os.path.basename(path))[0]
            with open(path) as file:
                own = installed.replace('trace', name) if 'sedgepick_mesh.h' in file.read() else bare.replace('square', name)
            with self.subTest(name):
                self.ran(own)

    def test_the_page_says_which(self):
        """Examples that the page names before the line with the bare archive link with it; it names those that do not."""
        with open(PAGE) as file:
            page = file.read()
        before, behind = page.split(lines()[0][0], 1)
        named = set(re.findall(r'examples/c/(\w+)\.c', before))
        self.assertGreaterEqual(named, {'square', 'job', 'filing', 'small'})
        for name in named:
            self.ran(lines()[0][0].replace('square', name))
        told = behind.split('call functions of include/sedgepick_mesh.h', 1)[0]
        for path in glob.glob(os.path.join(ROOT, 'examples', 'c', '*.c')):
            with open(path) as file:
                if 'sedgepick_mesh.h' in file.read():
                    self.assertIn(os.path.basename(path), told)


if __name__ == '__main__':
    unittest.main()
