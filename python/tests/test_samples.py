"""Tests that the commands print what docs/COMMAND.md says that they print; seconds are left out."""
import os, re, shutil, subprocess, sys, unittest
from case import Case, set_up
from common import FILES, PACKAGES, ROOT

SECONDS = re.compile(r'(, | +)\d+\.\d( s)?$', re.M)
OUTPUT = re.compile(r'^    (?:(?:columns|quads)\.msh: |file  |(?:joints|nothing|columns)\.msh  |3 files: ).*\n', re.M)


def setUpModule():
    set_up()


def without_seconds(lines):
    return [re.sub(' +', ' ', SECONDS.sub('', line)).strip() for line in lines]


class Samples(Case):
    def setUp(self):
        super().setUp()
        os.symlink(os.path.join(ROOT, 'examples'), self.path('examples'))
        shutil.copy(os.path.join(FILES, 'columns.msh'), self.path('columns.msh'))
        shutil.copy(os.path.join(FILES, 'columns.msh'), self.path('slab.msh'))
        shutil.copy(os.path.join(ROOT, 'examples', 'joints.msh'), self.path('joints.msh'))
        with open(os.path.join(ROOT, 'docs', 'COMMAND.md')) as file:
            self.page = file.read()

    def printed(self, name, *words):
        """The lines on standard output of a command in a folder that has the examples."""
        ran = subprocess.run([sys.executable, os.path.join(PACKAGES, name), *words], capture_output=True, text=True, cwd=self.folder)
        self.assertIn(ran.returncode, (0, 1), ran.stderr)
        return without_seconds(ran.stdout.splitlines())

    def test_every_line(self):
        """Each line of output on the page is printed, by the command above it where there is one."""
        printed = self.printed('sedgepick-mesh', 'columns.msh', '-o', 'quads.msh')
        printed += self.printed('sedgepick-mesh', 'joints.msh', 'nothing.msh', 'columns.msh', '-o', '*.vtu')
        commands = re.findall(r'^    (sedgepick-\w+) (.*)\n(?=    (?:columns|quads)\.msh: )', self.page, re.M)
        self.assertEqual(len(commands), 3)
        for name, words in commands:
            printed += self.printed(name, *words.split())
        told = without_seconds(OUTPUT.findall(self.page))
        self.assertEqual(len(told), 9)
        for line in told:
            self.assertIn(line, printed)


if __name__ == '__main__':
    unittest.main()
