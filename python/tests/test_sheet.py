"""Tests of the quality sheet: of the package, and of what sedgepick-mesh writes of it."""
import csv, os, re, shutil, subprocess, sys, tempfile, unittest
from common import FILES, PACKAGES, grid, make_library
import sedgepick
from sedgepick import sheets

try:
    import meshio
except ImportError:
    meshio = None

# a square, and a parallelogram whose corners have the sine 0.5 / 0.5 ** 0.5
POINTS = [(0, 0), (1, 0), (1, 1), (0, 1), (1.5, 0.5), (0.5, 0.5)]
SQUARE, LEANING, TURNED = (0, 1, 2, 3), (0, 1, 4, 5), (3, 2, 1, 0)


def setUpModule():
    make_library()


class Package(unittest.TestCase):
    def test_known_quads(self):
        found = sedgepick.sheet(POINTS, [SQUARE, TURNED, LEANING, LEANING])
        values = [tuple(map(float, row)) for row in found.metrics]
        self.assertEqual(values[:2], [(1.0, 0.0), (0.0, 0.0)])
        self.assertAlmostEqual(values[2][0], 0.5 ** 0.5, places=15)
        self.assertEqual(values[2], values[3])
        self.assertEqual((found.steps[9], found.steps[7], sum(found.steps), found.without_metrics), (1, 2, 3, 1))
        self.assertEqual(found.jacobian, sedgepick.Worst(2, values[2][0]))
        self.assertEqual(found.cosine, sedgepick.Worst(2, values[2][1]))

    def test_no_worst(self):
        for quads in ([], [TURNED], [TURNED, (0, 0, 1, 2)]):
            found = sedgepick.sheet(POINTS, quads)
            self.assertEqual((found.jacobian, found.cosine, found.without_metrics), (None, None, len(quads)))
            self.assertIn('none', sheets.text(found, 'x'))

    def test_our_mesh(self):
        mesh = sedgepick.run_front(*grid(9, 7, 0.5), 0.4)
        found = sedgepick.sheet(mesh.points, mesh.quads)
        self.assertEqual((sum(found.steps), found.without_metrics), (len(mesh.quads), 0))
        self.assertGreaterEqual(found.jacobian.value, 0.3)
        self.assertLessEqual(found.cosine.value, sedgepick.Quality().largest_cosine)

    def test_refused(self):
        for number, points, quads in ((5, POINTS, [(0, 1, 2, 6)]), (5, POINTS, [(0, 1, 2, -1)]), (7, [(8.5, 0)], []), (1, [(8.5, 0)] * 8193, []), (1, POINTS, [SQUARE] * 16385)):
            with self.assertRaises(sedgepick.Refused) as refused:
                sedgepick.sheet(points, quads)
            self.assertEqual(refused.exception.number, number)

    def test_joined(self):
        parts = [[TURNED], [SQUARE], [], [LEANING, SQUARE], [LEANING]]
        both = sheets.join([sedgepick.sheet(POINTS, part) for part in parts])
        whole = sedgepick.sheet(POINTS, sum(parts, []))
        self.assertEqual((both.steps, both.without_metrics, both.jacobian, both.cosine), (whole.steps, whole.without_metrics, whole.jacobian, whole.cosine))
        self.assertEqual([tuple(row) for row in both.metrics], [tuple(row) for row in whole.metrics])

    def test_written(self):
        found = sedgepick.sheet(POINTS, [SQUARE, TURNED, LEANING])
        rows = list(csv.DictReader(sheets.table(found, [SQUARE, TURNED, LEANING]).splitlines()))
        self.assertEqual([(float(row['scaled_jacobian']), float(row['cosine'])) for row in rows], [tuple(row) for row in found.metrics])
        self.assertEqual([row['n2'] for row in rows], ['2', '1', '4'])
        text = sheets.text(found, 'a slab')
        self.assertRegex(text, r'0\.9 and above +1 #+\n')
        self.assertRegex(text, r'worst scaled Jacobian +0\.707107, quad 3\n')
        self.assertEqual(sheets.draw(found).count('<rect'), 11)


@unittest.skipIf(meshio is None, 'numpy and meshio are not installed')
class Command(unittest.TestCase):
    def setUp(self):
        self.folder = tempfile.mkdtemp()
        self.addCleanup(shutil.rmtree, self.folder)

    def path(self, name):
        return os.path.join(self.folder, name)

    def test_files_and_report(self):
        names = [self.path(name) for name in ('out.msh', 'sheet.csv', 'sheet.txt', 'report.txt', 'report.html')]
        out, table, text, report, page = names
        ran = subprocess.run([sys.executable, os.path.join(PACKAGES, 'sedgepick-mesh'), os.path.join(FILES, 'l-slab-41.msh'), '-o', out, '--sheet', table, '--sheet', text,
                              '--report', report, '--report', page], capture_output=True, text=True)
        self.assertEqual(ran.returncode, 0, ran.stderr)
        with open(table) as file:
            rows = list(csv.DictReader(file))
        self.assertEqual(len(rows), 73)
        mesh = meshio.read(out, file_format='gmsh')
        written = {tuple(sorted(int(node) + 1 for node in cell)) for block in mesh.cells if block.type == 'quad' for cell in block.data}
        self.assertEqual({tuple(sorted(int(row['n%d' % k]) for k in range(4))) for row in rows}, written)
        self.assertGreaterEqual(min(float(row['scaled_jacobian']) for row in rows), 0.3)
        for path in (text, report):
            with open(path) as file:
                counts = [int(n) for n in re.findall(r'(?:below 0\.1|0\.\d to 0\.\d|0\.9 and above|without metrics) +(\d+)', file.read())]
            self.assertEqual((len(counts), sum(counts), counts[-1]), (11, 73, 0))
        with open(page) as file:
            self.assertIn('class="sheet"', file.read())


if __name__ == '__main__':
    unittest.main()
