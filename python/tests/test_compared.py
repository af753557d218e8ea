"""The commands of CONTRIBUTING.md that compare and time the library, on few meshes; they need cargo and the proved archive."""
import os
import re
import shutil
import subprocess
import unittest

ROOT = os.path.dirname(os.path.dirname(os.path.dirname(os.path.abspath(__file__))))
ARCHIVE = os.path.join(ROOT, 'target', 'staticlib', 'liblibrary.a')


@unittest.skipUnless(shutil.which('cargo') and os.path.exists(ARCHIVE), 'cargo or target/staticlib/liblibrary.a is missing')
class Compared(unittest.TestCase):
    def run_program(self, name: str, *words: str) -> str:
        """What the program of the folder `name` prints; it has to end with status 0."""
        command = ['cargo', 'run', '--offline', '--locked', '--quiet', '--release', '--manifest-path', name + '/Cargo.toml', '--', *words]
        ran = subprocess.run(command, cwd=ROOT, stdout=subprocess.PIPE, stderr=subprocess.PIPE, text=True)
        self.assertEqual(ran.returncode, 0, ran.stdout + ran.stderr)
        return ran.stdout

    def test_modes(self):
        """Each mode that CONTRIBUTING.md lists runs and finds no difference."""
        with open(os.path.join(ROOT, 'CONTRIBUTING.md'), encoding='utf-8') as file:
            modes = re.findall(r'^\| `(\w+) 1 \d+` \|', file.read(), re.M)
        self.assertGreaterEqual(len(modes), 6)
        self.assertTrue(self.run_program('compare', '1', '20'))
        for mode in modes:
            with self.subTest(mode):
                self.assertTrue(self.run_program('compare', mode, '1', '20'))

    def test_bench(self):
        self.assertIn('port / Rust', self.run_program('bench', 'filing'))


if __name__ == '__main__':
    unittest.main()
