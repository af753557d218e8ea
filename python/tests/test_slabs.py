"""Tests of sedgepick-mesh --job: several files under one attempt allowance."""
import os, re, unittest
from common import FILES, grid
import test_command
from test_command import Case

setUpModule = test_command.setUpModule
ACCOUNT = re.compile(r'share (\d+), entitled to (\d+) attempts, limit (\d+), charged (\d+), leaves (\d+)')


def given(*names):
    return [os.path.join(FILES, name) for name in names]


class Job(Case):
    def setUp(self):
        super().setUp()
        self.out = self.path('out')
        os.mkdir(self.out)
        self.report = self.path('report.txt')

    def accounts(self):
        """Each file's share, entitlement, limit, charge and what it leaves, from the report's list."""
        with open(self.report) as file:
            listed = file.read().split('\nFiles\n')[1].split('\n\n')[0]
        return [tuple(map(int, found)) for found in ACCOUNT.findall(listed)]

    def quads(self, path):
        return self.mesh(path)[1]

    def test_three_files(self):
        page = self.path('report.html')
        names = ('l-slab-41.msh', 'columns.msh', 'footing.msh')
        ran = self.good('--job', '3002', *given(*names), '-o', self.out, '--report', self.report, '--report', page)
        self.assertEqual(sorted(os.listdir(self.out)), sorted(names))
        accounts, left = self.accounts(), 0
        self.assertEqual(len(accounts), 3)
        for share, entitled, limit, charged, leaves in accounts:
            self.assertEqual((share, entitled, limit, leaves), (1000, 1000 + left, entitled, entitled - charged))
            self.assertGreater(charged, 0)
            left = leaves
        total = sum(charged for *_, charged, _ in accounts)
        self.assertIn('job: %d of 3002 attempts charged in 3 files, each with a share of 1000' % total, ran.stdout)
        self.assertLessEqual(total, 3002)
        with open(page) as file:
            text = file.read()
        drawn = text.count('<svg') - text.count('<figure><svg')  # but for the worst cells near by
        self.assertEqual((drawn, text.count('<h1>')), (6, 4))  # a picture and a histogram a file
        self.assertEqual([tuple(map(int, found)) for found in ACCOUNT.findall(text)][:3], accounts)

    def test_its_quads_are_the_first_ones(self):
        name, words = given('l-slab-41.msh'), ('--size', '0.6', '--keep-nodes', '--raw')
        alone = self.path('alone.msh')
        self.good(*name, '-o', alone, *words)
        whole, most = self.quads(alone), []
        for allowance in (1, 20, 60):
            ran = self.good('--job', str(allowance), *name, '-o', self.out, *words, '--report', self.report, status=3)
            self.assertIn('l-slab-41.msh: warning: its limit of %d attempts in the job ended the run early' % allowance, ran.stderr)
            self.assertEqual(self.accounts(), [(allowance, allowance, allowance, allowance, 0)])
            quads = self.quads(os.path.join(self.out, 'l-slab-41.msh'))
            self.assertEqual(quads, whole[:len(quads)])
            most.append(len(quads))
        self.assertTrue(most[0] < most[1] < most[2] < len(whole))

    def test_a_file_of_several_parts_is_refused_and_the_job_goes_on(self):
        large = self.stored(*[(points, [('triangle', cells)]) for points, cells in [grid(50, 42, 0.1)]][0], name='large.vtk')
        with self.subTest('by itself it is run in parts'):
            self.good(large, '-o', self.path('large.msh'), '--size', '0')
        ran = self.good('--job', '2000', large, *given('l-slab-41.msh'), '-o', self.out, '--report', self.report, status=1)
        self.assertIn('refused with 1: over 4,096', ran.stderr)
        self.assertEqual(os.listdir(self.out), ['l-slab-41.msh'])
        first, second = self.accounts()
        self.assertEqual((first, second[:3]), ((1000, 1000, 1000, 0, 1000), (1000, 2000, 2000)))
        with open(self.report) as file:
            self.assertIn('nothing is written: refused with 1', file.read())

    def test_a_fault_of_a_file_comes_before_the_first_run(self):
        for bad, words in ((self.path('nothing.msh'), 'nothing.msh: there is no such file'), (given('second-order.msh')[0], 'second-order.msh: .*second order')):
            ran = self.good('--job', '2000', *given('l-slab-41.msh'), bad, '-o', self.out, status=1)
            self.assertRegex(ran.stderr, words)
            self.assertEqual((ran.stdout, os.listdir(self.out)), ('', []))
        ran = self.good('--job', '2000', *given('l-slab-41.msh', 'columns.msh'), '-o', self.out, '--grid', status=1)
        self.assertIn('l-slab-41.msh: --grid: node', ran.stderr)
        ran = self.good('--job', '2000', *given('l-slab-41.msh', 'columns.msh'), '-o', self.out, '--size', '1e9', status=1)
        self.assertIn('--size 1e+09 is out of range', ran.stderr)
        self.assertEqual(os.listdir(self.out), [])

    def test_pictures_of_a_page(self):
        """Each picture is cut at windows of its own."""
        self.good('--job', '2000', *given('l-slab-41.msh', 'columns.msh'), '-o', self.out, '--report', self.path('job.html'))
        with open(self.path('job.html')) as file:
            names = re.findall(r'<clipPath id="([^"]+)"', file.read())
        self.assertEqual(len(names), 2)
        self.assertEqual(len(set(names)), 2)

    def test_names(self):
        slab = given('l-slab-41.msh')
        self.good('--job', '2000', *slab, '-o', os.path.join(self.out, '*-quads.vtu'))
        self.assertEqual(os.listdir(self.out), ['l-slab-41-quads.vtu'])
        for words, out in (('it is a folder that is there', self.path('no')), ('would be written twice', os.path.join(self.out, '*.vtu')), ('there is no folder', self.path('no/*.vtu'))):
            ran = self.good('--job', '2000', *slab, *(slab if 'twice' in words else []), '-o', out, status=1)
            self.assertIn(words, ran.stderr)
        copy = self.stored(*[(points, [('triangle', cells)]) for points, cells in [grid(2, 2)]][0], name='in.vtk')
        ran = self.good('--job', '2000', copy, '-o', self.folder, status=1)
        self.assertIn('would be written over', ran.stderr)

    def test_options(self):
        slab = given('l-slab-41.msh')
        for words, said in ((['--job', '0', *slab], 'out of range'), (['--job', '1000001', *slab], 'out of range'), (['--job', '1.5', *slab], 'whole number'),
                            (['--job', '9', *slab * 17], 'at most 16 files, not 17'), (['--job', '9', *slab, '-', '--from', 'gmsh'], 'give it by itself'),
                            (['--job', '9', *slab, '--node-map', 'map'], 'takes no --node-map'), (['--job', '9', *slab, '--jobs', '2'], 'takes no --jobs'),
                            (['--job', '9', *slab, '--most-attempts', '5'], 'takes no --most-attempts'), (['--job', '9', *slab, '--cluster', 'tcp://x'], 'takes no --cluster')):
            ran = self.run_command(*words, '-o', self.out)
            self.assertEqual((ran.returncode, os.listdir(self.out)), (2, []), ran.stderr)
            self.assertIn(said, ran.stderr)


if __name__ == '__main__':
    unittest.main()
