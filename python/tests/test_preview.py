"""Tests of the preview: of the package, and of what sedgepick-mesh draws of it."""
import ctypes, math, os, random, re, shutil, subprocess, sys, tempfile, unittest
import xml.etree.ElementTree as xml
from common import FILES, PACKAGES, ROOT, grid, make_library
import sedgepick
from sedgepick import front, library, previews

try:
    import meshio, numpy
    from sedgepick import files, insertions, parts, preview_edges, preview_picture, quality
except ImportError:
    meshio = None

SQUARE = [(0.0, 0.0), (1.0, 0.0), (1.0, 1.0), (0.0, 1.0)]
HALVES = [(0, 1, 2), (0, 2, 3)]
COUNTS = list(previews.KINDS)


def setUpModule():
    make_library()


def shaken(seed, columns=8, rows=6, by=0.3):
    """A grid whose inner points are moved and whose squares are cut either way."""
    draw = random.Random(seed)
    points, triangles = grid(columns, rows, 0.5)
    inner = lambda x, y: 0 < x < 0.5 * columns and 0 < y < 0.5 * rows
    points = [(x + by * (draw.random() - 0.5), y + by * (draw.random() - 0.5)) if inner(x, y) else (x, y) for x, y, _ in points]
    cells = []
    for (a, b, c), (_, _, d) in zip(triangles[::2], triangles[1::2]):
        cells += [(a, b, c), (a, c, d)] if draw.random() < 0.5 else [(a, b, d), (b, c, d)]
    return points, cells


def disc(seed, sides=9, rings=3):
    """Rings of points around a middle one, moved a little."""
    draw = random.Random(seed)
    points, triangles = [(0.0, 0.0)], [(0, 1 + i, 1 + (i + 1) % sides) for i in range(sides)]
    for ring in range(1, rings + 1):
        for i in range(sides):
            turn, far = 2 * math.pi * (i + 0.3 * draw.random()) / sides, 0.6 * ring + 0.2 * draw.random()
            points.append((far * math.cos(turn), far * math.sin(turn)))
    for ring in range(rings - 1):
        for i in range(sides):
            a, b = 1 + sides * ring + i, 1 + sides * ring + (i + 1) % sides
            triangles += [(a, a + sides, b + sides), (a, b + sides, b)]
    return points, triangles


def boundary(triangles):
    """The edges with one triangle, ascending."""
    every = [tuple(sorted((t[i - 1], t[i]))) for t in triangles for i in range(3)]
    return sorted(edge for edge in every if every.count(edge) == 1)


def trials():
    """Meshes and options of many kinds: (points, triangles, options)."""
    for seed in range(12):
        points, triangles = shaken(seed, by=0.1 + 0.05 * (seed % 7))
        for size in (0.0, 0.15, 0.35, 0.5, 1.1):
            yield points, triangles, dict(size=size, stop=seed % 2)
        yield points, triangles, dict(size=0.4, quality=sedgepick.Quality(least_jacobian=0.85, pairs=2))
        yield points, triangles, dict(size=0.4, joints=[tuple(sorted((t[0], t[1]))) for t in triangles[::3]])
        yield points, triangles[1:], dict(size=0.4, stop=1)  # an odd component
        yield *disc(seed), dict(size=0.15 + 0.05 * seed)


class Package(unittest.TestCase):
    def test_square(self):
        shown = sedgepick.preview(SQUARE, HALVES, (0, 1), 1.0)
        self.assertEqual(shown.quad, ((0, 1, 2, 3), (0, 1), 1, 2))
        self.assertEqual((shown.off_front, shown.refused, shown.insertions, shown.flips), (False, None, 0, 0))
        self.assertEqual(str(shown), 'quad 0 1 2 3 in place of 2 triangles; no insertion, no flip')
        self.assertEqual(shown, sedgepick.preview(SQUARE, HALVES, (1, 0), 1.0))
        self.assertEqual(sedgepick.preview(SQUARE, HALVES, (0, 3), 1.0).quad.nodes, (3, 0, 1, 2))

    def test_off_the_front(self):
        for edge in ((0, 2), (2, 0), (1, 3), (1, 1), (0, 4), (0, 2 ** 32 - 1), (-1, 0), (2 ** 40, 1), (2 ** 70, 0)):
            shown = sedgepick.preview(SQUARE, HALVES, edge, 1.0)
            self.assertTrue(shown.off_front, edge)
            self.assertEqual((shown, str(shown)), (sedgepick.Preview(), 'not on the front'))
        self.assertTrue(sedgepick.preview(SQUARE, HALVES + HALVES, (0, 1), 1.0).off_front)  # two triangles have it
        self.assertTrue(sedgepick.preview([], [], (0, 1), 0.0).off_front)
        for edge in ((0,), (0, 1, 2), (0, 0.5)):
            with self.assertRaises(ValueError):
                sedgepick.preview(SQUARE, HALVES, edge, 1.0)

    def test_joint(self):
        shown = sedgepick.preview(SQUARE, HALVES, (0, 1), 1.0, joints=[(2, 0)])
        self.assertEqual((shown.quad, shown.refused, shown.off_front), (None, 'region', False))
        self.assertEqual(str(shown), 'refused, region: the triangles inside the quad do not fill it, or a joint is inside it; no insertion, no flip')

    def test_whole_front(self):
        for points, triangles, options in trials():
            found = sedgepick.preview_front(points, triangles, **options)
            self.assertEqual(list(found), boundary(triangles))
            for edge in list(found)[::5]:
                self.assertEqual(found[edge], sedgepick.preview(points, triangles, edge[::-1], **options))
        self.assertEqual(sedgepick.preview_front([], [], 0.0), {})

    def test_first_attempt(self):
        """A run of one attempt ends as the preview of its edge, and every kind of refusal is met."""
        kinds = set()
        for points, triangles, options in trials():
            found = sedgepick.preview_front(points, triangles, **options)
            mesh = sedgepick.Job(1, 1).run(points, triangles, **options).mesh
            counts, added = mesh.counts, len(mesh.points) - len(points)
            if len(mesh.quads):
                shown = found[mesh.quads[0].edge]
                self.assertEqual((shown.quad, shown.insertions), (mesh.quads[0], added))
            else:
                (kind,) = [name for name in COUNTS if getattr(counts, name)]
                self.assertIn((kind, added), {(shown.refused, shown.insertions) for shown in found.values()})
            for shown in found.values():
                kinds.add(shown.refused)
                self.assertFalse(shown.off_front)
                self.assertLessEqual(shown.insertions, 2)
                if shown.quad:
                    self.assertEqual(sum(node >= len(points) for node in shown.quad.nodes), shown.insertions)
        self.assertEqual(kinds, {None, *COUNTS})

    def test_forms(self):
        points, triangles = shaken(3)
        usual = sedgepick.preview_front(points, triangles, 0.35)
        kept, front.numpy = front.numpy, None
        try:
            self.assertEqual(sedgepick.preview_front(points, triangles, 0.35), usual)
        finally:
            front.numpy = kept
        if front.numpy is not None:
            self.assertEqual(sedgepick.preview_front(front.numpy.array(points), front.numpy.array(triangles), 0.35), usual)
            self.assertEqual(sedgepick.preview(points, triangles, front.numpy.array([0, 1]), 0.35), usual[0, 1])

    def test_refused(self):
        off = [(0.1, 0.0)] + SQUARE[1:]
        for number, points, triangles, options in (
                (1, [(0.0, 0.0)] * 4097, HALVES, {}), (1, SQUARE, HALVES * 2049, {}), (2, SQUARE, HALVES, dict(size=9.0)), (2, SQUARE, HALVES, dict(size=math.nan)),
                (3, SQUARE, HALVES, dict(stop=2)), (5, SQUARE, [(0, 1, 4)], {}), (5, SQUARE, [(0, 1, -1)], {}), (6, SQUARE, [(0, 1, 1)], {}), (7, [(8.5, 0.0)] + SQUARE[1:], HALVES, {}),
                (13, SQUARE, HALVES, dict(joints=[(0, 0)])), (13, SQUARE, HALVES, dict(joints=[(0, 1)] * 257)), (15, SQUARE, HALVES, dict(grid=True)), (15, off, HALVES, dict(grid=True, size=0.0))):
            options = {'size': 1.0, **options}
            for call in (lambda: sedgepick.preview(points, triangles, (0, 1), **options), lambda: sedgepick.preview(points, triangles, (0, 0), **options),
                         lambda: sedgepick.preview_front(points, triangles, **options)):
                with self.assertRaises(sedgepick.Refused) as caught:
                    call()
                self.assertEqual(caught.exception.number, number)
        with self.assertRaises(sedgepick.Refused) as caught:
            sedgepick.preview(SQUARE, HALVES, (0, 1), 1.0, quality=sedgepick.Quality(pairs=65))
        self.assertEqual(caught.exception.number, 14)

    def test_lent_memory(self):
        """All but the work slices is as it was; these are zero."""
        for size, refused in ((0.35, False), (9.0, True)):
            points, triangles = shaken(5)
            looking = previews.Looking(points, triangles, size, 0, sedgepick.Quality(), (), False)
            slices = [word for word in looking.memory.slices if isinstance(word, ctypes.Array)]
            for memory in slices[3:]:
                memory[:] = [7] * len(memory)
            slices[0][3 * len(points):] = [0.5] * 6
            before = [list(memory) for memory in slices]
            for edge in boundary(triangles)[::3]:
                if refused:
                    with self.assertRaises(sedgepick.Refused):
                        looking.shown(*edge)
                else:
                    looking.shown(*edge)
                after = [list(memory) for memory in slices]
                self.assertEqual(after[:6], before[:6])
                self.assertEqual(set(after[6] + after[7]), {7} if refused else {0})

    def test_short_answer(self):
        """It is refused as 4, behind 1, 2, 3 and 14, and stays as it was."""
        for length, size, number in ((11, 1.0, 4), (0, 1.0, 4), (11, 9.0, 2), (12, 1.0, 0), (13, 1.0, 0)):
            looking = previews.Looking(SQUARE, HALVES, size, 0, sedgepick.Quality(), (), False)
            answer = (ctypes.c_size_t * 13)(*[9] * 13)
            self.assertEqual(library.load().sedgepick_preview(*looking.memory.slices, *looking.memory.stated, 0, 1, answer, length), number)
            self.assertEqual(list(answer), [9] * 13 if number else [1, 0, 0, 0, 0, 1, 2, 3, 0, 1, 1, 2, 9])


@unittest.skipIf(meshio is None, 'numpy and meshio are not installed')
class Insertions(unittest.TestCase):
    def test_where_a_run_has_them(self):
        """Bit for bit, of runs whose first attempt inserts."""
        met = set()
        for seed in range(60):
            points, triangles = disc(seed, 7 + seed % 5)
            for size in (0.1, 0.15, 0.2, 0.3, 0.4):
                mesh = sedgepick.Job(1, 1).run(points, triangles, size).mesh
                if len(mesh.quads) and len(mesh.points) > len(points):
                    quad = mesh.quads[0]
                    found = insertions.find_inserted(numpy.array(points), numpy.array(triangles), quad.nodes, size)
                    self.assertEqual(found.tolist(), [list(map(float, p))[:2] for p in mesh.points[len(points):]])
                    met.add(tuple(node >= len(points) for node in quad.nodes[2:]))
        self.assertEqual(met, {(False, True), (True, False), (True, True)})


@unittest.skipIf(meshio is None, 'numpy and meshio are not installed')
class Command(unittest.TestCase):
    def setUp(self):
        self.folder = tempfile.mkdtemp()
        self.addCleanup(shutil.rmtree, self.folder)
        self.svg, self.html, self.out = (os.path.join(self.folder, 'front' + suffix) for suffix in ('.svg', '.html', '.msh'))

    def ran(self, *words, status=0):
        ran = subprocess.run([sys.executable, os.path.join(PACKAGES, 'sedgepick-mesh'), *words], capture_output=True, text=True)
        self.assertEqual(ran.returncode, status, ran.stderr)
        self.assertNotIn('Traceback', ran.stderr)
        return ran

    def stored(self, points, cells):
        path = os.path.join(self.folder, 'in.vtk')
        with files.quiet():
            meshio.write(path, meshio.Mesh(numpy.array(points, dtype=float), [(kind, numpy.array(rows)) for kind, rows in cells]), file_format='vtk')
        return path

    def read(self, path):
        with open(path, encoding='utf-8') as file:
            return file.read()

    def words(self, path=None):
        """What the picture says of each edge."""
        return re.findall(r'<g class="edge" tabindex="0"><title>(.*?)</title>', self.read(path or self.svg))

    def legend(self):
        """Words and counts of the legend."""
        return [(label, int(count)) for label, count in re.findall(r'<text [^>]*>([^<]*)</text><text [^>]*text-anchor="end"[^>]*>(\d+)</text>', self.read(self.svg))]

    def test_picture_and_page(self):
        ran = self.ran(os.path.join(FILES, 'columns.msh'), '--least-jacobian', '0.8', '--preview', self.svg, '--preview', self.html)
        self.assertEqual(ran.stdout, 'columns.msh: 36 front edges, each tried first: 25 give a quad, 11 refused (invalid quad 8, recovery 1, region 2)\n')
        self.assertEqual(sorted(os.listdir(self.folder)), ['front.html', 'front.svg'])
        xml.fromstring(self.read(self.svg))
        page = self.read(self.html)
        self.assertNotIn('http', page.replace('http://www.w3.org/2000/svg', ''))
        self.assertIn(self.read(self.svg).strip(), page)
        for words in ('so its quads are not these all together', 'id="says"', 'Preview of columns.msh'):
            self.assertIn(words, page)
        for words in (r'<td>locked edges</td><td>18</td>', r'<td>size</td><td>auto: 0\.\d+</td>', r'scaled Jacobian at least 0\.8,', r'<td>give a quad</td><td>25</td>'):
            self.assertRegex(page, words)
        words = self.words()
        self.assertEqual((len(words), words), (36, self.words(self.html)))
        self.assertEqual(sum(' a quad of the nodes ' in line for line in words), 25)
        for line in words:
            self.assertRegex(line, r'^Edge \d+ to \d+: (a quad of the nodes .*; scaled Jacobian 0\.\d{4}; it replaces \d triangles|refused, (invalid quad|recovery|region): .*); '
                                   r'(no insertion|1 insertion|2 insertions), (no flip|1 flip|\d+ flips)$')

    def test_legend(self):
        self.ran(os.path.join(FILES, 'columns.msh'), '--least-jacobian', '0.8', '--preview', self.svg)
        rows = dict(self.legend())
        self.assertEqual((rows['Front edges, each tried first'], rows['A quad, by scaled Jacobian'], rows['Refused']), (36, 25, 11))
        kinds = [preview_picture.REFUSED[kind][0] for kind in previews.KINDS]
        self.assertEqual([rows[label] for label in kinds], [0, 8, 1, 2, 0])
        self.assertEqual(sum(count for label, count in rows.items() if re.match(r'0\.\d to', label)), 25)
        self.assertEqual(list(previews.KINDS), list(preview_picture.REFUSED))
        for column in (1, 2):
            self.assertEqual(len({row[column] for row in preview_picture.REFUSED.values()}), 5)

    def test_same_as_the_run(self):
        """The size that auto finds, the joints and the first quad are the run's."""
        given, text = os.path.join(ROOT, 'examples', 'joints.msh'), os.path.join(self.folder, 'r.txt')
        self.ran(given, '--preview', self.html)
        alone = self.words(self.html)
        self.ran(given, '-o', self.out, '--report', text, '--preview', self.html)
        self.assertEqual(self.words(self.html), alone)
        page, report = self.read(self.html), self.read(text)
        size = re.search(r'\n  size +(auto: .*)\n', report)[1]
        self.assertIn('<td>size</td><td>%s</td>' % size, page)
        self.assertEqual(re.search(r'kept by +(\d+) locked', report)[1], re.search(r'<td>locked edges</td><td>(\d+)</td>', page)[1])
        self.ran(given, '--free', '--preview', self.html)
        self.assertIn('<td>locked edges</td><td>0</td>', self.read(self.html))

    def test_units_and_scores(self):
        """Nodes by the file's numbers, new ones where they lie in its units, scores as the quads have them."""
        points, triangles = shaken(2)
        far = [(1000 * x + 7e5, 1000 * y - 3e5, 0.0) for x, y in points]
        self.ran(self.stored(far, [('triangle', triangles)]), '--size', '200', '--preview', self.svg)
        fresh = 0
        for line in self.words():
            found = re.match(r'Edge (\d+) to (\d+): a quad of the nodes (.*); scaled Jacobian (\S+);', line)
            if found:
                names = re.findall(r'\([^)]*\)|\d+', found[3])
                corners = [tuple(map(float, name[1:-1].split(', '))) if name[0] == '(' else far[int(name) - 1][:2] for name in names]
                fresh += sum(name[0] == '(' for name in names)
                self.assertTrue({found[1], found[2]} <= set(names))
                self.assertAlmostEqual(float(quality.scaled_jacobians(numpy.array(corners), numpy.array([[0, 1, 2, 3]]))[0]), float(found[4]), 2)
        self.assertGreater(fresh, 0)
        self.assertIn('>700500<', self.read(self.svg))  # a tick of the axis

    def test_clockwise(self):
        points, triangles = shaken(2)
        self.ran(self.stored([(*p, 0.0) for p in points], [('triangle', [t[::-1] for t in triangles])]), '--preview', self.svg)
        nodes = [[int(n) - 1 for n in re.findall(r'\d+', line.split(';')[0])][2:] for line in self.words() if 'a quad' in line and 'new' not in line]
        self.assertTrue((quality.areas(numpy.array(points), numpy.array(nodes)) < 0).all())

    def test_parts(self):
        """Edges between parts are front edges of both."""
        points, triangles = (numpy.array(rows) for rows in grid(60, 40, 0.1))
        plan = parts.planned(points, triangles, None)
        found = preview_edges.looked(plan, 0, sedgepick.Quality())
        self.assertGreater(plan.count(), 1)
        a, b, _ = quality.neighbours(triangles)
        cuts = int((plan.part[a] != plan.part[b]).sum())
        self.assertEqual(len(found.edges), 200 + 2 * cuts)
        self.assertEqual(len(found.quads()), sum(found.sheet.steps))
        self.assertRegex(self.ran(self.stored(points, [('triangle', triangles)]), '--preview', self.svg).stdout, r'in \d parts, each tried first')

    def test_slits(self):
        """Lines that are too many to lock are slit, and are front edges on either side."""
        points, triangles = grid(18, 18, 0.3)
        rows = [(19 * j + i, 19 * j + i + 1) for j in range(1, 18) for i in range(18)]
        ran = self.ran(self.stored(points, [('triangle', triangles), ('line', rows)]), '--preview', self.svg)
        self.assertIn('it is slit along them', ran.stderr)
        self.assertIn(' %d front edges' % (72 + 2 * len(rows)), ran.stdout)

    def test_profile_and_stop(self):
        points, triangles = grid(6, 6, 500.0)
        path = self.stored(points, [('triangle', triangles)])
        self.ran(path, '--grid', '--stop', '1', '--preview', self.html)
        self.assertRegex(self.read(self.html), r'<td>profile</td><td>grid</td>.*<td>size</td><td>0</td>.*<td>stop rule</td><td>1</td>')
        ran = self.ran(self.stored([*SQUARE[:3]], [('triangle', [(0, 1, 2)])]), '--stop', '1', '--preview', self.html, status=3)
        self.assertIn('odd number of triangles', ran.stderr)
        self.assertIn('class="warning"', self.read(self.html))

    def test_wrong_options(self):
        given = os.path.join(FILES, 'l-slab-41.msh')
        for pattern, *words in (('required: -o/--output \\(or --preview, or --steps\\)', given), ('ends in .svg', given, '--preview', 'front.png'),
                                ('--report is of a run', given, '--preview', self.svg, '--report', 'r'), ('--node-map is of a run', given, '--preview', self.svg, '--node-map', 'm'),
                                ('--job takes no --preview', given, '--job', '9', '-o', self.folder, '--preview', self.svg)):
            with self.subTest(words):
                self.assertRegex(self.ran(*words, status=2).stderr, pattern)
        self.assertIn('there is no folder', self.ran(given, '--preview', os.path.join(self.folder, 'no', 'front.svg'), status=1).stderr)
        self.assertIn('out of range: for this mesh', self.ran(given, '--size', '100', '--preview', self.svg, status=1).stderr)
        self.assertFalse(os.path.exists(self.svg))


if __name__ == '__main__':
    unittest.main()
