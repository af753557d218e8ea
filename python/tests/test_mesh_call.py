"""Tests of sedgepick.mesh, the one call for a slab: judged by fractions, compared with the command and with run_front."""
import doctest, os, pickle, subprocess, sys, unittest
from concurrent.futures import ProcessPoolExecutor
from case import Case, meshio, set_up
from common import FILES, PACKAGES, grid
import exact_judge

if meshio:
    import numpy
    import sedgepick
    from sedgepick import files, meshing, quality, verdicts


def setUpModule():
    set_up()


def shaken(columns, rows, step=1.0, share=0.25):
    """A grid whose inner nodes are moved."""
    points, triangles = map(numpy.array, grid(columns, rows))
    inner = (points[:, :2].min(axis=1) > 0) & (points[:, 0] < columns) & (points[:, 1] < rows)
    points[inner, :2] += share * numpy.sin(numpy.arange(2 * inner.sum()).reshape(-1, 2) ** 2)
    return step * points[:, :2], triangles


def edges(mesh):
    return {frozenset((int(a), int(b))) for cell in [*mesh.quads.tolist(), *mesh.triangles.tolist()] for a, b in zip(cell, cell[1:] + cell[:1])}


class Call(unittest.TestCase):
    def judged(self, mesh, points, triangles, lines=()):
        """That it is accepted by the verdict, and by fractions."""
        self.assertTrue(mesh.accepted, str(mesh))
        self.assertIs(type(mesh.verdict), sedgepick.Verdict)
        numpy.testing.assert_array_equal(mesh.points[:len(points)], points)
        self.assertEqual(exact_judge.faults(mesh.points, triangles.tolist(), mesh.quads.tolist(), mesh.triangles.tolist(), lines), [])

    def test_example(self):
        found = doctest.testmod(meshing)
        self.assertGreater(found.attempted, 0)
        self.assertEqual(found.failed, 0)

    def test_any_unit(self):
        """A slab of 30 m by 20 m in micrometres, millimetres, metres and kilometres; run_front refuses most of them."""
        for step in (1e6, 1e3, 1.0, 1e-3, 1e-9):
            points, triangles = shaken(30, 20, step)
            mesh = sedgepick.mesh(points, triangles)
            self.judged(mesh, points, triangles)
            self.assertGreater(mesh.share_of_quads, 0.97)
            self.assertEqual((mesh.nodes_added, mesh.nodes_dropped, mesh.points.shape), (0, 0, points.shape))
        with self.assertRaises(sedgepick.Refused):
            sedgepick.run_front(shaken(30, 20, 1e3)[0], triangles, 1.0)

    def test_far_from_zero(self):
        points, triangles = shaken(12, 9, 1.0)
        points = points + numpy.array([3500000.0, 5400000.0])  # metres of a map
        self.judged(sedgepick.mesh(points, triangles), points, triangles)

    def test_size_is_in_the_units_given(self):
        points, triangles = shaken(12, 9, 1000.0)
        mesh = sedgepick.mesh(points, triangles, size=900)
        self.assertEqual(mesh.sizes, (900.0,))
        with self.assertRaisesRegex(sedgepick.Fault, r'^size 1e\+09 is out of range: for this mesh it is 0, auto or from'):
            sedgepick.mesh(points, triangles, size=1e9)

    def test_the_command_writes_the_same(self):
        """The mesh of a file's arrays is that which the command writes of the file, bit for bit."""
        for name in ('columns.msh', 'l-slab-41.msh'):
            surface = files.read(os.path.join(FILES, name))
            kept = numpy.concatenate([surface.vertices.cells[:, 0], *surface.hard.values()])
            given = surface.triangles.cells.copy()
            used, lines = numpy.unique(given), surface.lines.cells
            lines = lines[numpy.isin(quality.keys(lines), quality.keys(quality.sides(given)))]
            mesh = sedgepick.mesh(surface.points, given, lines=lines, points_kept=numpy.intersect1d(kept, used))
            case = Case()
            case.setUp()
            self.addCleanup(case.doCleanups)
            case.good(os.path.join(FILES, name), '-o', case.out)
            written, quads, left = case.mesh()
            places = lambda points, cells: [[tuple(points[node]) for node in cell] for cell in cells]
            self.assertEqual(places(mesh.points.tolist(), mesh.quads), places(written.points.tolist(), quads))
            self.assertEqual(places(mesh.points.tolist(), mesh.triangles), places(written.points.tolist(), left))

    def test_parts(self):
        """A mesh over the library's limits, the same whatever the threads."""
        points, triangles = shaken(70, 60, 0.4)
        seen = []
        mesh = sedgepick.mesh(points, triangles, jobs=1, progress=lambda done, count: seen.append((done, count)))
        self.judged(mesh, points, triangles)
        self.assertGreater(len(mesh.sizes), 1)
        self.assertEqual(seen[-1], (len(mesh.sizes), len(mesh.sizes)))
        again = sedgepick.mesh(points, triangles, jobs=3)
        numpy.testing.assert_array_equal(mesh.quads, again.quads)
        numpy.testing.assert_array_equal(mesh.triangles, again.triangles)

    def test_metis_missing_is_told(self):
        points, triangles = shaken(60, 50)
        before = os.environ['PATH']
        os.environ['PATH'] = os.devnull
        try:
            mesh = sedgepick.mesh(points, triangles)
        finally:
            os.environ['PATH'] = before
        self.assertEqual(mesh.cutter, 'bisection')
        self.assertRegex('\n'.join(mesh.notes), 'the parts are cut by bisection, since METIS is not installed.*the mesh is another then')
        self.assertIn('note: the parts are cut by bisection', str(mesh))

    def test_lines_and_points_are_kept(self):
        points, triangles = shaken(16, 12)
        line = [(17 * 5 + x, 17 * 5 + x + 1) for x in range(3, 12)] + [(17 * y + 8, 17 * (y + 1) + 9) for y in (7, 8)]
        free = sedgepick.mesh(points, triangles)
        self.assertTrue(any(frozenset(pair) not in edges(free) for pair in line))  # the test can fail
        mesh = sedgepick.mesh(points, triangles, lines=numpy.array(line)[:, ::-1], points_kept=[20, 30], raw=True)
        self.assertTrue(all(frozenset(pair) in edges(mesh) for pair in line))
        self.assertTrue({20, 30} <= {node for edge in edges(mesh) for node in edge})
        mesh = sedgepick.mesh(points, triangles, line, [20, 30])
        self.judged(mesh, points, triangles, line)
        self.assertEqual({(loss.what, loss.total, len(loss.lost)) for loss in mesh.kept}, {('line edges (given)', 11, 0), ('points (given)', 2, 0)})

    def test_groups(self):
        points, triangles = shaken(10, 8)
        middles = points[triangles].mean(axis=1)
        groups = numpy.where(middles[:, 0] + 0.3 * middles[:, 1] < 6, 4, -7)
        mesh = sedgepick.mesh(points, triangles, groups=groups)
        self.judged(mesh, points, triangles)
        area = lambda cells: abs(quality.areas(points, cells)).sum()
        for group in (4, -7):
            made = area(mesh.quads[mesh.quad_groups == group]) + area(mesh.triangles[mesh.triangle_groups == group])
            self.assertAlmostEqual(made, area(triangles[groups == group]), 9)
        self.assertEqual(len(mesh.quad_groups), len(mesh.quads))

    def test_raw_is_run_front(self):
        points, triangles = shaken(7, 6)
        plain = sedgepick.run_front(points, triangles, 0.75, stop=1)
        mesh = sedgepick.mesh(points, triangles, size=0.75, stop=1, raw=True)
        numpy.testing.assert_array_equal(mesh.quads, plain.quads.nodes)
        numpy.testing.assert_array_equal(mesh.triangles, plain.triangles)
        numpy.testing.assert_array_equal(mesh.points, plain.points[:, :2])
        self.assertEqual(mesh.counts, plain.counts)
        used = {int(node) for cell in [*plain.quads.nodes, *plain.triangles] for node in cell}
        self.assertEqual((mesh.nodes_added, mesh.nodes_dropped), (len(plain.points) - len(points), len(plain.points) - len(used)))

    def test_even_and_quality(self):
        points, triangles = shaken(12, 10)
        strict = sedgepick.Quality(least_jacobian=0.8)
        mesh = sedgepick.mesh(points, triangles, stop=1, quality=strict)
        self.judged(mesh, points, triangles)
        self.assertGreater(len(mesh.triangles), 0)
        self.assertEqual(mesh.verdict.odd, 0)
        self.assertGreaterEqual(quality.scaled_jacobians(mesh.points, mesh.quads).min(), 0.8 - 1e-9)

    def test_grid_profile(self):
        points, triangles = map(numpy.array, grid(8, 6, 250.0))
        points[20:25, :2] += 37
        mesh = sedgepick.mesh(points, triangles, grid=True)
        self.judged(mesh, points, triangles)
        points[30, 0] += 0.3
        with self.assertRaisesRegex(sedgepick.Fault, '^grid: node 31 at .* is off the grid'):
            sedgepick.mesh(points, triangles, grid=True)
        with self.assertRaisesRegex(ValueError, 'the grid profile takes none but 0'):
            sedgepick.mesh(points, triangles, size=250, grid=True)

    def test_three_coordinates_and_clockwise(self):
        points, triangles = shaken(6, 5)
        high = numpy.column_stack([points, numpy.full(len(points), 3.5)])
        mesh = sedgepick.mesh(high, triangles[:, ::-1])
        self.assertTrue(mesh.accepted)
        self.assertEqual(mesh.points.shape, (len(points), 3))
        self.assertTrue((quality.areas(mesh.points, mesh.quads) < 0).all())
        self.assertIn('clockwise', mesh.notes[0])
        plain = sedgepick.mesh(points, triangles)
        self.assertEqual(sorted(map(sorted, mesh.quads.tolist())), sorted(map(sorted, plain.quads.tolist())))

    def test_a_plane_in_any_position(self):
        """A slab that leans: the quads are those of the slab that lies, its nodes stay bit for bit."""
        points, triangles = shaken(9, 7)
        along, across = numpy.array([0.6, 0.64, 0.48]), numpy.array([-0.8, 0.48, 0.36])
        leaning = points[:, :1] * along + points[:, 1:] * across + numpy.array([5.0, -3.0, 11.0])
        mesh = sedgepick.mesh(leaning, triangles, lines=[(12, 13)])
        self.assertTrue(mesh.accepted)
        numpy.testing.assert_array_equal(mesh.points, leaning)
        self.assertEqual(exact_judge.faults(points, triangles.tolist(), mesh.quads.tolist(), mesh.triangles.tolist(), [(12, 13)]), [])
        raw = sedgepick.mesh(leaning, triangles, size=0.4, raw=True)
        normal = numpy.cross(along, across)
        self.assertGreater(raw.nodes_added, 0)
        self.assertLess(abs((raw.points - leaning[0]) @ normal).max(), 1e-9)

    def test_several_planes(self):
        """A slab and a wall on it, which share a row of nodes: one mesh, the nodes under their numbers."""
        points, triangles = shaken(8, 6)
        slab = numpy.column_stack([points, numpy.zeros(len(points))])
        wall = numpy.column_stack([points[:, 0], numpy.full(len(points), 6.0), points[:, 1]])
        number = numpy.where(points[:, 1] == 0, numpy.arange(len(points)) + 9 * 6, numpy.arange(len(points)) + len(points) - 9)
        both = numpy.concatenate([slab, wall[9:]])
        mesh = sedgepick.mesh(both, numpy.concatenate([triangles, number[triangles]]))
        self.assertTrue(mesh.accepted, str(mesh))
        numpy.testing.assert_array_equal(mesh.points, both)
        shared = {frozenset((54 + x, 55 + x)) for x in range(8)}
        for own in ({node for node in range(63)}, set(number.tolist())):
            cells = [cell for cell in [*mesh.quads.tolist(), *mesh.triangles.tolist()] if set(cell) <= own]
            sides = {frozenset(side) for cell in cells for side in zip(cell, cell[1:] + cell[:1])}
            self.assertTrue(shared <= sides)

    def test_lists_do_as_well(self):
        points, triangles = shaken(5, 4)
        mesh = sedgepick.mesh(points.tolist(), [tuple(cell) for cell in triangles.tolist()], [(6, 7)], [9])
        numpy.testing.assert_array_equal(mesh.quads, sedgepick.mesh(points, triangles, [(6, 7)], [9]).quads)

    def test_arguments_stay_as_they_are(self):
        points, triangles = shaken(6, 5)
        given, cells = points.copy(), triangles[:, ::-1].copy()
        before = cells.copy()
        sedgepick.mesh(points, cells)
        numpy.testing.assert_array_equal(points, given)
        numpy.testing.assert_array_equal(cells, before)


class Bounded(unittest.TestCase):
    def test_attempts(self):
        points, triangles = shaken(20, 15)
        whole = sedgepick.mesh(points, triangles)
        ample = sedgepick.mesh(points, triangles, most_attempts=10 ** 6)
        numpy.testing.assert_array_equal(whole.quads, ample.quads)
        few = sedgepick.mesh(points, triangles, most_attempts=40)
        self.assertGreater(whole.counts.attempts, 100)
        self.assertEqual((few.counts.attempts, few.counts.limit), (41, 1))  # the one that the limit stops is counted
        self.assertTrue(few.accepted)  # the finishing pass closes the rest
        self.assertIn('the limit of 40 attempts ended the run early; a larger most_attempts may help', few.notes)

    def test_attempts_of_all_parts(self):
        points, triangles = shaken(60, 50)
        mesh = sedgepick.mesh(points, triangles, most_attempts=100)
        count = len(mesh.sizes)
        self.assertGreater(count, 1)
        self.assertLessEqual(mesh.counts.attempts - mesh.counts.limit, 100)
        with self.assertRaisesRegex(sedgepick.Fault, '^most_attempts 1 is less than one for each of the'):
            sedgepick.mesh(points, triangles, most_attempts=1)


class Faults(unittest.TestCase):
    def says(self, kind, words, *arguments, **more):
        with self.assertRaisesRegex(kind, words) as caught:
            sedgepick.mesh(*arguments, **more)
        again = pickle.loads(pickle.dumps(caught.exception))
        self.assertEqual((type(again), str(again)), (type(caught.exception), str(caught.exception)))

    def test_shapes(self):
        points, triangles = shaken(3, 3)
        self.says(ValueError, 'points have 2 or 3 coordinates', points[:, :1], triangles)
        self.says(ValueError, 'triangles have 3 whole numbers', points, triangles[:, :2])
        self.says(ValueError, 'triangles have 3 whole numbers', points, triangles.astype(float))
        self.says(ValueError, 'triangles: row 2 names node 99, and there are the nodes 0 to 15', points, [(0, 1, 5), (0, 5, 4), (1, 2, 99)])
        self.says(ValueError, 'lines: row 0 names node -1', points, triangles, [(-1, 2)])
        self.says(ValueError, 'points_kept: row 1 names node 16', points, triangles, None, [3, 16])
        self.says(ValueError, 'groups have a whole number for each of the 18 triangles', points, triangles, groups=[1, 2])
        self.says(ValueError, "size is 'large'", points, triangles, size='large')
        self.says(ValueError, 'size is -1', points, triangles, size=-1)
        self.says(ValueError, 'size is nan', points, triangles, size=float('nan'))
        self.says(ValueError, 'stop is 2', points, triangles, stop=2)

    def test_meshes(self):
        points, triangles = shaken(3, 3)
        self.says(sedgepick.Fault, 'there are no triangles', points, [])
        self.says(sedgepick.Fault, 'line 1, from node 0 to node 15, is no edge of the triangles', points, triangles, [(0, 1), (0, 15)])
        self.says(sedgepick.Fault, 'node 3 is to be kept and is none of the triangles', points, triangles[:2], None, [3])
        self.says(sedgepick.Fault, 'point 4 is not finite', [*points[:4].tolist(), (0, float('inf')), *points[5:].tolist()], triangles)
        self.says(sedgepick.Fault, r'triangle 1 has no area .*counted from 1', [(0, 0), (1, 0), (2, 0)], [(0, 1, 2)])
        self.says(sedgepick.Fault, 'not plane', [(0, 0, 0), (1, 0, 0), (1, 1, 0), (0, 1, 0.5)], [(0, 1, 2), (0, 2, 3)])
        self.says(sedgepick.Fault, 'an edge has 3 triangles', [(0, 0), (1, 0), (1, 1), (0, 1), (0.5, -1)], [(0, 1, 2), (0, 1, 3), (1, 0, 4)])

    def test_not_accepted(self):
        """A judge that does not accept, here one that takes the last quad away: the mesh says so."""
        points, triangles = shaken(6, 5)
        found = verdicts.accept
        verdicts.accept = lambda a, b, c, quads, left, **more: found(a, b, c, quads[:-1], left, **more)
        try:
            mesh = sedgepick.mesh(points, triangles)
        finally:
            verdicts.accept = found
        self.assertEqual((mesh.accepted, bool(mesh)), (False, False))
        self.assertRegex(mesh.warnings[-1], 'not accepted: the cells at the edge between node')
        self.assertTrue(str(mesh).startswith('NOT ACCEPTED: 60 triangles'))
        self.assertIn('not accepted', repr(mesh))

    def test_numbers_from_0(self):
        """The node that a verdict names is that of the arrays."""
        mesh = sedgepick.mesh([(0, 0), (2, 0), (1, 0.0175)], [(0, 1, 2)])
        self.assertTrue(mesh.accepted)
        self.assertRegex(mesh.warnings[0], r'triangle 0 is too thin: node 0 at \(0, 0\), node 1 at .*go down to 1 degrees themselves, so it is accepted all the same \(thin 10\)')


class Elsewhere(unittest.TestCase):
    def test_pickled(self):
        points, triangles = shaken(5, 4)
        mesh = sedgepick.mesh(points, triangles)
        again = pickle.loads(pickle.dumps(mesh))
        numpy.testing.assert_array_equal(mesh.quads, again.quads)
        self.assertEqual((mesh.verdict, str(mesh)), (again.verdict, str(again)))

    def test_a_process_pool(self):
        """Meshes and refusals of a pool of processes come back, and the pool goes on."""
        points, triangles = shaken(5, 4)
        with ProcessPoolExecutor(1) as pool:
            refused = pool.submit(sedgepick.run_front, 1000 * points, triangles, 1.0)
            fault = pool.submit(sedgepick.mesh, points, triangles, size=1e9)
            good = pool.submit(sedgepick.mesh, points, triangles)
            self.assertEqual(refused.exception().number, 7)
            self.assertIsInstance(fault.exception(), sedgepick.Fault)
            self.assertTrue(good.result().accepted)

    def test_without_meshio(self):
        code = ('import sys; sys.modules["meshio"] = None; sys.path.insert(0, %r); import sedgepick; '
                'print(repr(sedgepick.mesh([(0, 0), (1, 0), (1, 1), (0, 1)], [(0, 1, 2), (0, 2, 3)])))' % PACKAGES)
        ran = subprocess.run([sys.executable, '-B', '-c', code], capture_output=True, text=True)
        self.assertEqual(ran.stdout, 'Mesh(4 points, 1 quads, 0 triangles, accepted)\n', ran.stderr)

    def test_without_numpy(self):
        """The rest of the package works, and the call says what it needs."""
        code = ('import sys; sys.modules["numpy"] = None; sys.path.insert(0, %r); import sedgepick; '
                'print(len(sedgepick.run_front([(0, 0), (1, 0), (1, 1), (0, 1)], [(0, 1, 2), (0, 2, 3)], 1.0).quads)); sedgepick.mesh' % PACKAGES)
        ran = subprocess.run([sys.executable, '-B', '-c', code], capture_output=True, text=True)
        self.assertEqual(ran.stdout, '1\n')
        self.assertIn('sedgepick.mesh needs numpy', ran.stderr)

    def test_names(self):
        for name in sedgepick.__all__:
            self.assertTrue(hasattr(sedgepick, name), name)
        with self.assertRaises(AttributeError):
            sedgepick.nothing


if __name__ == '__main__':
    unittest.main()
