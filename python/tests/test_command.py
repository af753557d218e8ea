"""Tests of sedgepick-mesh with files that Gmsh and meshio wrote (examples/files), and of what it says of bad ones."""
import glob, os, re, shutil, subprocess, sys, unittest
import xml.etree.ElementTree as xml
from importlib.util import find_spec
from case import COMMAND, Case, meshio, set_up
from common import FILES, PACKAGES, ROOT, grid

if meshio:
    import numpy
    from sedgepick import evening, files, fitting, joints, losses, parts, quality, slits, surfaces

HDF = find_spec('h5py') is not None  # which meshio needs for MED, and to write XDMF


def setUpModule():
    set_up()


class Formats(Case):
    def test_every_stored_file(self):
        """The same slab in seventeen forms gives the same quads."""
        names = [name for name in sorted(os.listdir(FILES)) if name.startswith('l-slab')]
        self.assertEqual(len(names), 17)
        if not HDF:
            names.remove('l-slab-meshio.med')
        for name in names:
            with self.subTest(name):
                self.good(os.path.join(FILES, name), '-o', self.out)
                _, quads, triangles = self.mesh()
                self.assertEqual((len(quads), len(triangles)), (73, 0))

    def test_written_forms(self):
        for suffix in ('msh', 'vtk', 'vtu', 'inp', 'obj', 'bdf', 'mesh', 'vol.gz') + ('med', 'xdmf') * HDF:
            with self.subTest(suffix):
                out = self.path('out.' + suffix)
                self.good(os.path.join(FILES, 'l-slab-41.msh'), '-o', out, '--raw')
                _, quads, triangles = self.mesh(out, files.form_of(out, None))
                self.assertEqual((len(quads), len(triangles)), (68, 10))

    def test_forms_without_quads(self):
        for suffix in ('stl', 'off'):
            out = self.path('out.' + suffix)
            self.refused('Formats that take quads', os.path.join(FILES, 'l-slab-41.msh'), '-o', out)
            self.assertFalse(os.path.exists(out))

    def test_coordinates_bit_for_bit(self):
        points, triangles = grid(6, 6)
        points = [(3e5 + x / 3, 7.1e-3 * y, 4.25) for x, y, _ in points]
        path = self.stored(points, [('triangle', triangles)])
        self.good(path, '-o', self.out)
        mesh, quads, _ = self.mesh()
        self.assertTrue(set(map(tuple, mesh.points)) <= set(points))

    def test_abaqus_types(self):
        out = self.path('out.inp')
        self.good(os.path.join(FILES, 'columns.msh'), '-o', out, '--raw', '--beams')
        with open(out) as file:
            text = file.read()
        self.assertEqual(re.findall(r'TYPE=(\w+)', text), ['S4', 'S3', 'B31'])
        self.assertIn('ELSET=wall', text)

    @unittest.skipUnless(shutil.which('gmsh'), 'Gmsh is not installed')
    def test_gmsh_writes_and_reads(self):
        for geometry in glob.glob(os.path.join(ROOT, 'examples', 'kinds', '*.geo')):
            with self.subTest(os.path.basename(geometry)):
                given = self.path('given.msh')
                subprocess.run(['gmsh', '-2', '-v', '0', '-clscale', '2', '-format', 'msh41', geometry, '-o', given], check=True)
                self.good(given, '-o', self.out)
                ran = subprocess.run(['gmsh', self.out, '-check', '-'], capture_output=True, text=True)
                self.assertEqual(ran.returncode, 0)
                self.assertNotIn('Error', ran.stdout + ran.stderr)


class Options(Case):
    def test_nodes_without_cells(self):
        given = os.path.join(FILES, 'columns.msh')
        table = self.path('map.csv')
        self.good(given, '-o', self.out, '--node-map', table, '--raw')
        mesh, quads, triangles = self.mesh()
        self.assertEqual(set(range(len(mesh.points))), {node for cell in quads + triangles for node in cell})
        before = self.mesh(given)[0].points
        with open(table) as file:
            rows = [line.strip().split(',') for line in file][1:]
        self.assertEqual(len(rows), len(mesh.points))
        for node, origin in rows:
            if origin:
                self.assertTrue((mesh.points[int(node) - 1] == before[int(origin) - 1]).all())
        self.good(given, '-o', self.out, '--keep-nodes', '--raw')
        self.assertGreater(len(self.mesh()[0].points), len(rows))

    def test_size_and_stop(self):
        given = os.path.join(FILES, 'l-slab-41.msh')
        self.good(given, '-o', self.out, '--size', '0.6', '--stop', '1')
        self.good(given, '-o', self.out, '--size', '0')
        os.remove(self.out)
        self.refused('out of range: for this mesh it is 0, auto or from', given, '-o', self.out, '--size', '100')
        ran = self.run_command(given, '-o', self.out, '--size', 'small')
        self.assertEqual((ran.returncode, ran.stderr.splitlines()), (2, ["sedgepick-mesh: error: argument --size: 'small' is no size: a length in the units of the file, 0 or auto",
                                                                         'sedgepick-mesh --help lists every option']))
        self.assertEqual(self.run_command(given, '-o', self.out, '--stop', '2').returncode, 2)

    def test_quality(self):
        given = os.path.join(FILES, 'l-slab-41.msh')
        report = self.path('r.txt')
        for words, cosine, sine in ((['--least-angle', '55'], 0.5736, 0.3), (['--least-jacobian', '0.9'], 0.9064, 0.9), (['--largest-cosine', '0.5'], 0.5, 0.3)):
            with self.subTest(words):
                self.good(given, '-o', self.out, '--report', report, *words)
                mesh, quads, _ = self.mesh()
                quads = numpy.array(quads)
                self.assertGreater(len(quads), 0)
                self.assertGreaterEqual(quality.scaled_jacobians(mesh.points, quads).min(), sine - 1e-9)
                self.assertGreaterEqual(quality.least_angles(mesh.points, quads).min(), numpy.degrees(numpy.arccos(cosine + 1e-4)))
                with open(report) as file:
                    self.assertRegex(file.read(), r'quality +scaled Jacobian at least .* pairs\n')
        self.good(given, '-o', self.out, '--report', report, '--least-angle', '25', '--pairs', '8')
        _, quads, triangles = self.mesh()
        self.assertEqual((len(quads), len(triangles)), (73, 0))
        with open(report) as file:
            self.assertIn('(the standard set)', file.read())

    def test_quality_out_of_range(self):
        given = os.path.join(FILES, 'l-slab-41.msh')
        for pattern, *words in (('--least-jacobian: 1.5 is out of range: from 0 to 1', '--least-jacobian', '1.5'),
                                ('--least-angle: 61 is out of range: from 8.11 to 60 degrees', '--least-angle', '61'),
                                ('--least-angle: 8.1 is out of range', '--least-angle', '8.1'),
                                ('--largest-cosine: nan is out of range: from 0.5 to 0.99', '--largest-cosine', 'nan'),
                                ('--pairs: 65 is out of range: from 1 to 64', '--pairs', '65'), ("--pairs: '8.5' is not a whole number", '--pairs', '8.5'),
                                ('--side-low 3 is above --side-high 2.2', '--side-low', '3'), ('not allowed with', '--least-angle', '30', '--largest-cosine', '0.8')):
            with self.subTest(words):
                ran = self.run_command(given, '-o', self.out, *words)
                self.assertEqual(ran.returncode, 2)
                self.assertRegex(ran.stderr, pattern)
                self.assertFalse(os.path.exists(self.out))

    def test_version_and_help(self):
        self.assertRegex(self.good('--version').stdout, r'sedgepick-mesh \d')
        self.assertIn('--size', self.good('--help').stdout)

    def test_clockwise(self):
        points, triangles = grid(4, 4)
        path = self.stored(points, [('triangle', [t[::-1] for t in triangles])])
        self.assertIn('clockwise', self.good(path, '-o', self.out).stderr)
        mesh, quads, _ = self.mesh()
        self.assertTrue((quality.areas(mesh.points, numpy.array(quads)) < 0).all())

    def test_report(self):
        page, text = self.path('r.html'), self.path('r.txt')
        self.good(os.path.join(FILES, 'columns.msh'), '-o', self.out, '--free', '--report', page, '--report', text, status=3)
        with open(page) as file:
            content = file.read()
        xml.fromstring(content[content.index('<svg'):content.index('</svg>') + 6])
        self.assertNotIn('http', content.replace('http://www.w3.org/2000/svg', ''))
        with open(text) as file:
            said = file.read()
        for words in ('least scaled Jacobian', 'least angle', 'nodes in no cell', 'points (column)', 'before', 'commit', 'attempts', 'components'):
            self.assertIn(words, content)
            self.assertIn(words, said)


class Kept(Case):
    def test_lines_points_and_borders(self):
        for name in ('columns.msh', 'footing.msh'):
            self.good(os.path.join(FILES, name), '-o', self.out)
        self.good(os.path.join(FILES, 'columns.msh'), '-o', self.out)
        mesh, quads, triangles = self.mesh()
        self.assertEqual(sum(len(block.data) for block in mesh.cells if block.type == 'vertex'), 12)
        self.assertEqual(set(mesh.field_data), {'column', 'wall', 'slab'})

    def test_lost_ones_are_listed(self):
        ran = self.good(os.path.join(FILES, 'columns.msh'), '-o', self.out, '--free', status=3)
        self.assertRegex(ran.stderr, r'warning: line edges \(wall\): \d+ of \d+ lost; the first is from \(')

    def test_groups_come_back(self):
        self.good(os.path.join(FILES, 'footing.msh'), '-o', self.out)
        mesh, quads, triangles = self.mesh()
        before = self.mesh(os.path.join(FILES, 'footing.msh'))[0]

        def area(mesh, tag):
            return sum(quality.areas(mesh.points, block.data[tags == tag]).sum() for block, tags in zip(mesh.cells, mesh.cell_data['gmsh:physical'])
                       if block.type in ('quad', 'triangle'))
        for tag in (1, 2):
            self.assertAlmostEqual(area(mesh, tag), area(before, tag), 9)

    def test_a_joint_and_a_wall(self):
        given = os.path.join(ROOT, 'examples', 'joints.msh')
        report = self.path('r.txt')
        self.assertIn('line edges (joint): all 15 stand; line edges (wall): all 10 stand', self.good(given, '-o', self.out, '--report', report).stdout)
        with open(report) as file:
            said = file.read()
        for words in (r'line edges \(joint\) +all 15 stand', r'line edges \(wall\) +all 10 stand', r'kept by +25 locked edges\n'):
            self.assertRegex(said, words)
        mesh, quads, _ = self.mesh()
        joint = lambda y: 3.5 + y / 6
        middles = [mesh.points[list(quad)].mean(axis=0) for quad in quads]
        left = sum(x < joint(y) for x, y, _ in middles)
        self.assertGreater(min(left, len(quads) - left), 50)
        for quad in quads:  # none lies across the joint
            sides = [float(mesh.points[node][0]) - joint(float(mesh.points[node][1])) for node in quad]
            self.assertTrue(max(sides) < 1e-3 or min(sides) > -1e-3)
        ran = self.good(given, '-o', self.out, '--free', status=3)
        self.assertRegex(ran.stderr, r'line edges \(joint\): \d+ of 15 lost')

    def lined(self, side, lines):
        """A grid with a line for each pair."""
        points, triangles = grid(side, side, 6.0 / side)
        return self.stored(points, [('triangle', triangles), ('line', lines)])

    def stand(self, lines):
        mesh, quads, triangles = self.mesh()
        edges = quality.edge_keys(numpy.array(quads), numpy.array(triangles).reshape(-1, 3))
        places = {tuple(map(float, point)): node for node, point in enumerate(mesh.points)}
        return [pair for pair in lines if pair[0] in places and pair[1] in places and quality.keys([[places[pair[0]], places[pair[1]]]])[0] in edges]

    def test_a_single_edge_stands(self):
        line = [(5 * 11 + 5, 6 * 11 + 6)]
        path = self.lined(10, line)
        points = [tuple(map(float, p)) for p in self.mesh(path, 'vtk')[0].points]
        self.good(path, '-o', self.out)
        self.assertEqual(len(self.stand([(points[a], points[b]) for a, b in line])), 1)

    def test_more_than_can_be_locked(self):
        """Rows of a grid, 18 of 18 edges each: slit, said, and none is lost."""
        rows = [(19 * j + i, 19 * j + i + 1) for j in range(1, 18) for i in range(18)]
        path = self.lined(18, rows)
        points = [tuple(map(float, p)) for p in self.mesh(path, 'vtk')[0].points]
        ran = self.good(path, '-o', self.out)
        self.assertRegex(ran.stderr, r'note: the mesh has 306 edges .* and 256 can be locked: it is slit along them')
        self.assertEqual(len(self.stand([(points[a], points[b]) for a, b in rows])), len(rows))

    def test_loss_is_an_error_unless_allowed(self):
        """Diagonals apart from each other, which no slit opens, more than can be locked."""
        alone = [(43 * j + i, 43 * (j + 1) + i + 1) for j in range(1, 41, 2) for i in range(1, 41, 2)]
        path = self.lined(42, alone)
        self.refused(r'line edges \(no group\): \d+ of 400 lost; the first is from \(.*Nothing is written; --allow-loss', path, '-o', self.out, '--size', '0', '--raw')
        ran = self.good(path, '-o', self.out, '--size', '0', '--raw', '--allow-loss', status=3)
        self.assertRegex(ran.stderr, r'warning: line edges \(no group\): \d+ of 400 lost')
        self.assertIn('all 400 stand', self.good(path, '-o', self.out).stdout)  # the finishing pass locks any number

    def test_the_edges_that_are_locked(self):
        points, triangles = (numpy.array(rows) for rows in grid(4, 4))
        every = numpy.arange(len(points))
        hard = joints.Hard(quality.keys([(10, 11), (11, 12), (0, 1), (0, 24)]), numpy.array([12, 17, 4]))
        locked = {tuple(sorted(map(int, pair))) for pair in joints.of_part(points, triangles, every, hard)}
        self.assertEqual(locked & {(10, 11), (11, 12), (0, 1)}, {(10, 11), (11, 12)})  # the boundary stands anyway
        self.assertEqual(len(locked), 3)                                              # and one edge for node 17
        self.assertTrue(any(17 in pair for pair in locked))

    def test_slit_gives_each_side_its_nodes(self):
        points, triangles = (numpy.array(rows) for rows in grid(4, 4))
        hard = quality.keys([(10, 11), (11, 12), (12, 13)])
        origin, opened = slits.open_slits(triangles, hard)
        self.assertEqual(len(origin), len(points) + 3)  # the line begins at the boundary
        self.assertTrue((origin[opened] == triangles).all())


class Grid(Case):
    def slab(self, step=1.0, far=0.0, move=0.0):
        """A shaken grid in whole millimetres, 4,800 across."""
        points, triangles = grid(12, 12, 400.0)
        points = [(x + (37 * i % 101 if 0 < x < 4800 and 0 < y < 4800 else 0), y + (53 * i % 97 if 0 < x < 4800 and 0 < y < 4800 else 0), z)
                  for i, (x, y, z) in enumerate(points)]
        points = [(step * x + far, step * y + far, z) for x, y, z in points]
        points[100] = (points[100][0] + move, *points[100][1:])
        return points, triangles

    def test_millimetres(self):
        report = self.path('r.txt')
        for far in (0.0, 7e6):
            points, triangles = self.slab(far=far)
            self.good(self.stored(points, [('triangle', triangles)]), '-o', self.out, '--grid', '--report', report)
            mesh, quads, left = self.mesh()
            self.assertGreater(len(quads), 0)
            self.assertTrue(set(map(tuple, mesh.points)) <= set(points))  # none is added
            area = sum(abs(int(losses.twice([[int(c - far) for c in mesh.points[node][:2]] for node in cell]))) for cell in quads + left)
            self.assertEqual(area, 2 * 4800 ** 2)
            with open(report) as file:
                said = file.read()
            self.assertRegex(said, r'profile +grid\n')
            self.assertIn('%d halves of squares of 0.5, before and after, exactly' % (4 * 2 * 4800 ** 2), said)

    def test_off_the_grid(self):
        for move, words in ((0.3, r'node 101 at \(.*\) is off the grid \(1 such\): x is no multiple of 0\.5, .*it lies between \d+ and \d+\.5\. Draw it'), (1e-9, 'node 101')):
            points, triangles = self.slab(move=move)
            self.refused(words, self.stored(points, [('triangle', triangles)]), '-o', self.out, '--grid')
            self.good(self.stored(points, [('triangle', triangles)]), '-o', self.out)
            os.remove(self.out)
        points, triangles = self.slab(step=0.1)
        self.refused('off the grid', self.stored(points, [('triangle', triangles)]), '-o', self.out, '--grid')

    def test_size(self):
        points, triangles = self.slab()
        path = self.stored(points, [('triangle', triangles)])
        self.good(path, '-o', self.out, '--grid', '--size', '0')
        ran = self.run_command(path, '-o', self.out, '--grid', '--size', '400')
        self.assertEqual(ran.returncode, 2)
        self.assertIn('--grid takes no --size but 0', ran.stderr)


class Parts(Case):
    def check(self, cutter):
        points, triangles = grid(70, 70, 0.1)
        points, triangles = numpy.array(points), numpy.array(triangles)
        inner = (points[:, :2].min(axis=1) > 0) & (points[:, :2].max(axis=1) < 6.95)
        points[inner, :2] += 0.03 * numpy.sin(numpy.arange(2 * inner.sum()).reshape(-1, 2) ** 2)
        self.assertGreater(len(triangles), 2 * 4096)
        surface = surfaces.Surface('grid', points, surfaces.Marked(triangles), surfaces.Marked(numpy.zeros((0, 2), int)), surfaces.Marked(numpy.zeros((0, 1), int)))
        result = parts.run(points, triangles, None, 0)
        self.assertRegex(result.cutter, cutter)
        self.assertGreater(len(result.sizes), 2)
        every = numpy.concatenate([points, numpy.column_stack([result.added, numpy.zeros(len(result.added))])])
        _, _, cuts = losses.verify(surface, every, result)
        self.assertGreater(cuts, 50)
        self.assertGreater(len(result.quads), 0.4 * len(triangles))

    def test_bisection(self):
        which, shutil.which = shutil.which, lambda name: None
        try:
            self.check('bisection')
        finally:
            shutil.which = which

    @unittest.skipUnless(shutil.which('gpmetis'), 'METIS is not installed')
    def test_metis(self):
        self.check(r'METIS \d+\.\d+')

    def test_even_parts(self):
        """Under rule 1 the parts of an even mesh are even, however it is cut; those of an odd component are so but for one."""
        points, triangles = map(numpy.array, grid(60, 70, 0.1))
        for cut in (lambda x: x // 901, lambda x: x // 701, lambda x: (x % 97 > 40) + 2 * (x // 3000), lambda x: (x * 7919) % 5):
            part = numpy.unique(cut(numpy.arange(len(triangles))), return_inverse=True)[1]
            odd = lambda part, cells: sum(parts.odd_components(cells[part == which]) for which in numpy.unique(part))
            made = evening.make_even(triangles, part)
            if cut(1) != cut(2):  # crumbs of a triangle or two: not all can be
                self.assertLess(odd(made, triangles), odd(part, triangles) / 4)
                continue
            self.assertGreater(odd(part, triangles), 0)
            self.assertEqual(odd(made, triangles), 0)
            self.assertLess((made != part).sum(), 200)
            self.assertEqual(odd(evening.make_even(triangles[1:], part[1:]), triangles[1:]), 1)

    def test_rule_1(self):
        """A mesh in parts gets about as many quads under rule 1 as without it."""
        points, triangles = map(numpy.array, grid(75, 61, 0.1))
        found = [len(parts.run(points, triangles, 0.1, stop).quads) for stop in (0, 1)]
        self.assertGreater(found[1], 0.9 * found[0])


class Bad(Case):
    SQUARE = [(0, 0, 0), (1, 0, 0), (1, 1, 0), (0, 1, 0)]

    def test_files(self):
        given = lambda name: os.path.join(FILES, name)
        self.refused('no triangles; the file has 36 cells of type line', given('lines-only.msh'), '-o', self.out)
        self.refused('second order .*ElementOrder', given('second-order.msh'), '-o', self.out)
        self.refused('unknown format gmesh', given('l-slab-41.msh'), '--from', 'gmesh', '-o', self.out)
        self.refused('TetGen', given('l-slab-41.msh'), '-o', self.path('out.node'))
        with open(self.path('half.node'), 'w') as file:
            file.write('4 2 0 0\n')
        self.refused('TetGen', self.path('half.node'), '-o', self.out)
        self.refused('unknown format nothing', given('l-slab-41.msh'), '-o', self.out, '--to', 'nothing')

    def test_meshes(self):
        bad = lambda points, cells: self.stored(points, cells)
        self.refused('not plane: .*--flatten', bad(self.SQUARE[:3] + [(0, 1, 0.5)], [('triangle', [(0, 1, 2), (0, 2, 3)])]), '-o', self.out)
        self.refused('triangle 2 has no area', bad(self.SQUARE + [(2, 2, 0)], [('triangle', [(0, 1, 3), (0, 2, 4)])]), '-o', self.out)
        self.refused('has no area', bad(self.SQUARE, [('triangle', [(0, 1, 1)])]), '-o', self.out)
        self.refused('cells of type tetra beside', bad(self.SQUARE + [(0, 0, 1)], [('triangle', [(0, 1, 2)]), ('tetra', [(0, 1, 2, 4)])]), '-o', self.out)
        self.refused('an edge has 3 triangles', bad(self.SQUARE + [(0.5, -1, 0)], [('triangle', [(0, 1, 2), (0, 1, 3), (1, 0, 4)])]), '-o', self.out)
        self.refused(r'node 1 of 4 lies at \(nan, 0, 0\), which is not finite', bad([(float('nan'), 0, 0)] + self.SQUARE[1:], [('triangle', [(0, 1, 2)])]), '-o', self.out)

    def test_odd_component(self):
        path = self.stored(self.SQUARE, [('triangle', [(0, 1, 2)])])
        ran = self.good(path, '-o', self.out, '--stop', '1', status=3)
        self.assertIn('odd number of triangles', ran.stderr)
        self.assertIn('use --stop 0', ran.stderr)

    def test_no_library(self):
        ran = subprocess.run([sys.executable, COMMAND, os.path.join(FILES, 'l-slab-41.msh'), '-o', self.out], capture_output=True, text=True,
                             env=dict(os.environ, SEDGEPICK_LIBRARY='/nowhere/lib.so'))
        self.assertEqual(ran.returncode, 1)
        self.assertIn('/nowhere/lib.so', ran.stderr)


class Imports(Case):
    """What is not asked for is not imported."""

    def loaded(self, *words, before=''):
        """Of some modules those that a call of the command imports, and what it says."""
        code = ('import sys; sys.path.insert(0, %r); %s\nfrom sedgepick import command\ntry:\n    status = command.main(sys.argv[1:])\nexcept SystemExit as end:\n    status = end.code\n'
                'print([name for name in ("meshio", "distributed", "sedgepick.finishing") if sys.modules.get(name)], status)' % (PACKAGES, before))
        ran = subprocess.run([sys.executable, '-B', '-c', code, *words], capture_output=True, text=True)
        return ran.stdout.splitlines()[-1], ran.stderr

    def test_help(self):
        self.assertEqual(self.loaded('--help')[0], '[] 0')

    def test_a_run(self):
        self.assertEqual(self.loaded(os.path.join(FILES, 'l-slab-41.msh'), '-o', self.out)[0], "['meshio', 'sedgepick.finishing'] 0")

    def test_no_dask(self):
        found, said = self.loaded(os.path.join(FILES, 'l-slab-41.msh'), '-o', self.out, '--cluster', 'tcp://127.0.0.1:9', before='sys.modules["distributed"] = None')
        self.assertTrue(found.endswith(' 1'), found)
        self.assertIn('--cluster needs the Python module distributed: install it', said)
        self.assertFalse(os.path.exists(self.out))


class Fits(unittest.TestCase):
    def test_exact(self):
        draw = numpy.random.default_rng(1)
        for _ in range(300):
            middle = draw.normal(size=2) * 10.0 ** draw.integers(-6, 7)
            points = numpy.column_stack([middle + draw.normal(size=(50, 2)) * 10.0 ** draw.integers(-4, 5), numpy.zeros(50)])
            placed = fitting.fit(points)
            self.assertLessEqual(abs(placed.there(points)).max(), 8.0)
            self.assertEqual(placed.rounded(points), 0)


if __name__ == '__main__':
    unittest.main()
