"""Tests of tools/python-tests: a failure, a crash and a module that does not load are failures; what is skipped is named."""
import os, shutil, subprocess, sys, tempfile, unittest
from common import ROOT

MODULES = {
    'common': 'def make_library():\n    pass\n',
    'test_good': 'import unittest\nclass Good(unittest.TestCase):\n    def test_one(self):\n        print("words of a test")\n    @unittest.skip("no such program")\n    def test_two(self):\n        pass\n'
                 'class Other(unittest.TestCase):\n    def test_three(self):\n        pass\n',
    'test_bad': 'import unittest\nclass Bad(unittest.TestCase):\n    def test_four(self):\n        self.assertEqual(1, 2)\nclass Fine(unittest.TestCase):\n    def test_five(self):\n        pass\n',
    'test_crash': 'import os, unittest\nclass Crash(unittest.TestCase):\n    def test_six(self):\n        os._exit(0)\n',
    'test_broken': 'import nothing_of_this_name\n',
    'test_off': 'import unittest\ndef setUpModule():\n    raise unittest.SkipTest("meshio is missing")\nclass Off(unittest.TestCase):\n    def test_seven(self):\n        pass\n',
}


class Runner(unittest.TestCase):
    def setUp(self):
        self.folder = tempfile.mkdtemp()
        self.addCleanup(shutil.rmtree, self.folder)
        for name in ('tools', 'python/tests', 'target'):
            os.makedirs(os.path.join(self.folder, name))
        shutil.copy(os.path.join(ROOT, 'tools', 'python-tests'), os.path.join(self.folder, 'tools'))
        for name, text in MODULES.items():
            with open(os.path.join(self.folder, 'python', 'tests', name + '.py'), 'w') as file:
                file.write(text)

    def run_tests(self, *names):
        ran = subprocess.run([sys.executable, '-B', os.path.join(self.folder, 'tools', 'python-tests'), *names], capture_output=True, text=True)
        return ran.returncode, ran.stdout, ran.stderr

    def test_all(self):
        status, words, _ = self.run_tests()
        self.assertEqual(status, 1)
        self.assertIn('skipped:\n  setUpModule (test_off): meshio is missing\n  test_good.Good.test_two: no such program\n', words)
        self.assertRegex(words, r'\npython tests: 6 ran, 2 skipped, failed: (?=.*test_bad.Bad)(?=.*test_crash.Crash)(?=.*test_broken._FailedTest)(?!.*test_good)(?!.*Fine)(?!.*Off).*\n$')
        for said in ('AssertionError: 1 != 2', 'exit status 0', 'nothing_of_this_name'):
            self.assertIn(said, words)

    def test_names(self):
        self.assertEqual(self.run_tests('test_good', 'test_bad.Fine')[0], 0)
        status, words, _ = self.run_tests('test_good.Good.test_one')
        self.assertEqual((status, 'python tests: 1 ran, 0 skipped, all passed' in words), (0, True))
        self.assertEqual(self.run_tests('test_bad')[0], 1)
        for name in ('test_none', 'test_good.None', 'test_good.Good.test_none'):
            status, _, words = self.run_tests(name)
            self.assertNotEqual(status, 0, name)
        self.assertEqual(self.run_tests('test_off')[0], 0)


if __name__ == '__main__':
    unittest.main()
