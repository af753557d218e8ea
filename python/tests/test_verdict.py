"""Tests of the finished mesh and its verdict: what sedgepick-mesh writes, and what sedgepick-accept says of any two files."""
import json, os, re, shutil, subprocess, sys, unittest
from case import Case, meshio, set_up
from common import FILES, PACKAGES, ROOT, grid

if meshio:
    import numpy
    from sedgepick import files, matching, quality, verdicts
    from sedgepick.surfaces import Fault

JUDGE = os.path.join(PACKAGES, 'sedgepick-accept')
NOT_ASKED = 'not asked, the given triangles are thinner'
SLAB = os.path.join(FILES, 'l-slab-41.msh')


def setUpModule():
    set_up()


def open_text(path):
    with open(path) as file:
        return file.read()


class Judging(Case):
    def judge(self, given, judged, *words, status=0):
        ran = subprocess.run([sys.executable, JUDGE, given, judged, *words], capture_output=True, text=True)
        self.assertEqual(ran.returncode, status, ran.stdout + ran.stderr)
        self.assertNotIn('Traceback', ran.stderr)
        return ran

    def changed(self, change, name='changed.vtk', source=None):
        """The file that was written, with its points and cells changed."""
        mesh, quads, triangles = self.mesh(source)
        points, cells = numpy.array(mesh.points), {'quad': [list(q) for q in quads], 'triangle': [list(t) for t in triangles]}
        found = change(points, cells)
        points = points if found is None else found
        return self.stored(points, [(kind, rows) for kind, rows in cells.items() if rows], name)


class Finished(Judging):
    def test_summary_report_and_page(self):
        page, text = self.path('r.html'), self.path('r.txt')
        ran = self.good(SLAB, '-o', self.out, '--report', page, '--report', text)
        self.assertRegex(ran.stdout, r'146 triangles to 73 quads and 0 triangles \(100.0 % quads\), least angle of quads \d+\.\d degrees, 0 nodes added, 0 nodes dropped, accepted, ')
        with open(text) as file:
            said = file.read()
        for words in (r'\nVerdict\n +accepted +yes', r'\nFinishing\n +run_front gave +\d+ quads, \d+ triangles; \d+ nodes added, \d+ dropped', r'taken in +\d+;', r'taken back +\d+;',
                      r'paired at 0.5 +\d+;', r'walked at 0.3 +\d+;', "quads of run_front's own +\\d+ of the 73"):
            self.assertRegex(said, words)
        with open(page) as file:
            self.assertRegex(file.read(), r"run_front&#x27;s own quad \(\d+ of 73\)|run_front's own quad \(\d+ of 73\)")

    def test_raw(self):
        ran = self.good(SLAB, '-o', self.out, '--raw')
        self.assertRegex(ran.stdout, r'68 quads and 10 triangles \(87\.2 % quads\), least angle of quads .* least angle of triangles .* nodes? dropped, accepted, ')

    def test_no_node_is_dropped(self):
        for name in ('columns.msh', 'footing.msh', 'l-slab-41.msh'):
            given = os.path.join(FILES, name)
            self.good(given, '-o', self.out)
            before, after = self.mesh(given)[0], self.mesh()[0]
            used = lambda mesh: {tuple(map(float, mesh.points[node])) for block in mesh.cells if block.type in ('triangle', 'quad') for node in numpy.unique(block.data)}
            self.assertEqual(used(before), used(after))
            self.judge(given, self.out)

    def test_the_given_mesh_is_thin(self):
        """A triangle of 1 degree that nothing can pair."""
        given = self.stored([(0, 0, 0), (2, 0, 0), (1, 0.0175, 0)], [('triangle', [(0, 1, 2)])])
        self.assertRegex(self.good(given, '-o', self.out, status=3).stderr, r'warning: triangle 1 is too thin: node 1 at .*the given triangles go down to 1 degrees themselves')
        rows = lambda: dict(re.findall(r'^  (no triangle is too thin|least angle asked of triangles) +(.*)$', open_text(text), re.M))
        text = self.path('r.txt')
        for thin, status, clause, asked in (('10', 3, NOT_ASKED, NOT_ASKED), ('0.5', 0, 'yes', '0.5 degrees'), ('0', 0, 'not asked', 'not asked')):
            self.good(given, '-o', self.out, '--thin', thin, '--report', text, status=status)
            self.assertEqual(rows(), {'no triangle is too thin': clause, 'least angle asked of triangles': asked})

    def test_thin_is_not_accepted(self):
        """Asked for more than there is, of a mesh whose own triangles have it: nothing is written, and what was there stays."""
        points, triangles = grid(3, 1)
        given = self.stored(points, [('triangle', triangles[:5])])
        with open(self.out, 'w') as file:
            file.write('before')
        ran = self.run_command(given, '-o', self.out, '--thin', '50')
        self.assertEqual((ran.returncode, 'the given triangles go down to 45' in ran.stderr), (3, True))
        with open(self.out, 'w') as file:
            file.write('before')
        found = verdicts.accept
        self.addCleanup(setattr, verdicts, 'accept', found)
        self.assertEqual(self.not_accepted(given), 1)
        with open(self.out) as file:
            self.assertEqual((file.read(), sorted(os.listdir(self.folder))), ('before', ['in.vtk', 'out.msh']))

    def not_accepted(self, given):
        """The command's status where a judge, here one that takes the last cell away, does not accept."""
        from sedgepick import command
        found = verdicts.accept
        verdicts.accept = lambda a, b, c, quads, left, **more: found(a, b, c, quads[:-1], left, **more)
        with files.quiet() as said:
            status = command.main([given, '-o', self.out])
        self.assertIn('not accepted: the cells at the edge between node', said.getvalue())
        self.assertIn('Nothing is written', said.getvalue())
        return status

    def test_over_each_other(self):
        points = [(0, 0, 0), (2, 0, 0), (0, 2, 0), (0.5, 2, 0)]
        given = self.stored(points, [('triangle', [(0, 1, 2), (0, 1, 3)])])
        self.assertIn("lie over each other", self.good(given, '-o', self.out, status=3).stderr)

    def test_even_rule(self):
        given = os.path.join(FILES, 'columns.msh')
        self.good(given, '-o', self.out, '--stop', '1', '--least-jacobian', '0.8')
        left = numpy.array(self.mesh()[2])
        self.assertGreater(len(left), 0)
        self.assertFalse((numpy.bincount(quality.components(left)) % 2).any())

    def test_same_bytes_whatever_the_jobs(self):
        points, triangles = grid(60, 60)
        given = self.stored([(x + 0.2 * ((3 * x + y) % 1.7) * (0 < x < 60), y + 0.2 * ((x + 2 * y) % 1.3) * (0 < y < 60), 0) for x, y, _ in points], [('triangle', triangles)])
        written = []
        for jobs in ('1', '2', '5'):
            self.good(given, '-o', self.out, '--jobs', jobs)
            with open(self.out, 'rb') as file:
                written.append(file.read())
        self.assertEqual(len(set(written)), 1)

    def test_clockwise(self):
        points, triangles = grid(4, 4)
        given = self.stored(points, [('triangle', [t[::-1] for t in triangles])])
        self.good(given, '-o', self.out)
        self.judge(given, self.out)

    def test_far_from_zero(self):
        points, triangles = grid(6, 5)
        given = self.stored([(3e5 + x / 3, 7e5 + y / 3, 0) for x, y, _ in points], [('triangle', triangles)])
        self.good(given, '-o', self.out)
        self.judge(given, self.out)


class Accept(Judging):
    def setUp(self):
        super().setUp()
        self.good(SLAB, '-o', self.out, '--raw')

    def test_accepted(self):
        ran = self.judge(SLAB, self.out)
        self.assertRegex(ran.stdout, r'^out.msh: accepted; 68 quads and 10 triangles \(87.2 % quads\), least angle of quads')

    def test_clauses(self):
        """Each with its first offender, by its number and its place in the file."""
        def clockwise(points, cells):
            cells['quad'][4].reverse()

        def missing(points, cells):
            cells['quad'].pop()

        def twice(points, cells):
            cells['triangle'].append(cells['triangle'][0])

        def flat(points, cells):
            a, b, c = cells['triangle'][0]
            cells['triangle'].append([a, b, len(points)])
            return numpy.vstack([points, [2 * points[b] - points[a]]])

        for change, words in ((clockwise, r'quads turn left at each node: no; quad 5, cell 5 of the file, does not turn left at each node: node \d+ at \(.*node'), (missing, 'each place is covered as often as by the given triangles: no'),
                              (twice, 'each place is covered as often as by the given triangles: no; the cells at the edge between node'), (flat, 'triangles have an area: no; triangle 11, cell 79 of the file, has no area')):
            with self.subTest(change.__name__):
                self.assertRegex(self.judge(SLAB, self.changed(change), status=1).stdout, words)

    def test_limits(self):
        mesh, quads, triangles = self.mesh()
        least = quality.least_angles(mesh.points, numpy.array(quads)).min(), quality.least_angles(mesh.points, numpy.array(triangles)).min()
        self.judge(SLAB, self.out, '--least-angle', '%.3f' % (least[0] - 0.01), '--thin', '%.3f' % (least[1] - 0.01))
        self.assertIn('no corner of a quad is too sharp: no; quad', self.judge(SLAB, self.out, '--least-angle', '%.3f' % (least[0] + 0.01), status=1).stdout)
        self.assertIn('no triangle is too thin: no; triangle', self.judge(SLAB, self.out, '--thin', '%.3f' % (least[1] + 0.01), status=1).stdout)

    def test_lines(self):
        given = os.path.join(FILES, 'columns.msh')
        self.good(given, '-o', self.out, '--raw', '--free', status=3)
        self.assertRegex(self.judge(given, self.out, status=1).stdout, 'lines and borders are kept: no; the edge between node .* is lost')
        self.judge(given, self.out, '--free', '--thin', '0')

    def test_moved_nodes(self):
        """A node that is moved is an added one, and the given one is dropped; one of the boundary may not be."""
        mesh, quads, _ = self.mesh()
        inner = numpy.setdiff1d(numpy.array(quads), self.boundary(SLAB))[0]

        def move(node, far):
            def change(points, cells):
                points[node, :2] += far
            return self.changed(change)
        self.assertIn('1 node added', self.judge(SLAB, move(inner, 1e-9)).stdout)
        self.judge(SLAB, move(quads[0][0], 1e-9), status=1)
        ran = self.judge(SLAB, move(quads[0][0], 1e-9), '--near', '1e-8')
        self.assertIn('1 nodes lie up to 1e-08 off their given ones, and are judged as changed.vtk has them', ran.stdout)
        self.assertIn('--near 10 is too far', self.judge(SLAB, self.out, '--near', '10', status=2).stderr)

    def boundary(self, path):
        edges, counts = numpy.unique(quality.keys(quality.sides(numpy.array(self.mesh(path)[2]))), return_counts=True)
        places = {tuple(point): node for node, point in enumerate(self.mesh()[0].points[:, :2].tolist())}
        nodes = numpy.unique(numpy.concatenate([edges[counts == 1] >> 32, edges[counts == 1] & 0xffffffff]))
        return [places[tuple(point)] for point in self.mesh(path)[0].points[nodes, :2].tolist() if tuple(point) in places]

    def test_rounding_formats(self):
        """Twelve digits, as a .bdf has fewer."""
        out = self.path('out.bdf')
        points, triangles = grid(5, 5)
        given = self.stored([(x / 3, y / 7, 0) for x, y, _ in points], [('triangle', triangles)])
        report = self.path('r.txt')
        ran = self.good(given, '-o', out, '--report', report)
        if 'rounds' in ran.stderr:
            with open(report) as file:
                self.assertRegex(file.read(), r'rounded by the format, and judged as it has them')
            self.judge(given, out, status=1)
        self.judge(given, out, '--near', '1e-4')

    def test_json_and_report(self):
        page, text = self.path('v.html'), self.path('v.txt')
        found = json.loads(self.judge(SLAB, self.out, '--json', '--report', page).stdout)
        self.assertEqual((found['accepted'], found['quads'], found['triangles'], len(found['clauses']), all(clause['holds'] for clause in found['clauses'])), (True, 68, 10, 8, True))
        bad = self.changed(lambda points, cells: cells['triangle'].append(cells['triangle'][0]))
        found = json.loads(self.judge(SLAB, bad, '--json', '--report', text, status=1).stdout)
        self.assertEqual([clause['name'] for clause in found['clauses'] if not clause['holds']], ['each place is covered as often as by the given triangles'])
        with open(page) as file:
            self.assertIn('<h1>sedgepick-accept: out.msh against l-slab-41.msh</h1>', file.read())
        with open(text) as file:
            self.assertRegex(file.read(), r'accepted +no\n')

    def test_refused(self):
        self.assertIn('there is no such file', self.judge(SLAB, '/nowhere.msh', status=2).stderr)
        self.assertIn('second order', self.judge(os.path.join(FILES, 'second-order.msh'), self.out, status=2).stderr)
        self.assertIn('cells of type triangle6', self.judge(SLAB, os.path.join(FILES, 'second-order.msh'), status=2).stderr)
        self.judge(SLAB, self.out, '--thin', '61', status=2)
        far = self.changed(lambda points, cells: numpy.vstack([points, [[1e300, 5e-324, 0]]]))
        self.assertIn('cannot be judged exactly', self.judge(SLAB, far, status=2).stderr)

    @unittest.skipUnless(shutil.which('gmsh'), 'Gmsh is not installed')
    def test_gmsh_recombination(self):
        """Of the same triangles, by a program that knows nothing of the judge."""
        given, made, script = self.path('given.msh'), self.path('made.msh'), self.path('r.geo')
        subprocess.run(['gmsh', '-2', '-v', '0', '-format', 'msh22', os.path.join(ROOT, 'examples', 'kinds', 'l-slab.geo'), '-o', given], check=True)
        with open(script, 'w') as file:
            file.write('Merge "%s";\nMesh.RecombinationAlgorithm = 1;\nRecombineMesh;\nMesh.MshFileVersion = 2.2;\nMesh.SaveAll = 1;\nSave "%s";\n' % (given, made))
        subprocess.run(['gmsh', script, '-', '-v', '0'], check=True)
        ran = subprocess.run([sys.executable, JUDGE, given, made], capture_output=True, text=True)
        self.assertIn(ran.returncode, (0, 1), ran.stderr)
        self.assertRegex(ran.stdout, r'made.msh: (not )?accepted; \d+ quads')


class Matching(unittest.TestCase):
    def test_bits(self):
        given = numpy.array([(0.0, 0), (1, 0), (1, 1), (1, 1)])
        match = matching.by_bits(given, numpy.array([(1.0, 1), (0.5, 0), (0, 0), (1, 1), (1, 1)]))
        self.assertEqual((match.number.tolist(), match.added), ([2, 4, 0, 3, 5], 2))

    def test_near(self):
        given = numpy.array([(0.0, 0), (1, 0), (1, 1)])
        match = matching.near(given, numpy.array([(1.001, 1), (-0.001, 0), (1, 0), (3, 3)]), 0.01)
        self.assertEqual((match.number.tolist(), match.added, match.moved), ([2, 0, 1, 3], 1, 2))
        for judged in ([(0.5, 0.0)], [(0.0, 0), (0.1, 0)]):
            with self.assertRaises(Fault):
                matching.near(given, numpy.array(judged), 0.6)


if __name__ == '__main__':
    unittest.main()
