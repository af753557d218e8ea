"""Tests of planes in any position, of several in one file, of --flatten and of quads that are in the file already."""
import math, os, subprocess, sys, unittest
from case import Case, meshio, set_up
from common import PACKAGES, ROOT, grid

if meshio:
    import numpy
    from sedgepick import files, planes, quality

JUDGE = 'sedgepick-accept'


def setUpModule():
    set_up()


def turned(points, angle, axis=1, other=0.0):
    """Points turned about an axis, then about z."""
    c, s = math.cos(angle), math.sin(angle)
    first = {0: [[1, 0, 0], [0, c, -s], [0, s, c]], 1: [[c, 0, s], [0, 1, 0], [-s, 0, c]]}[axis]
    second = [[math.cos(other), -math.sin(other), 0], [math.sin(other), math.cos(other), 0], [0, 0, 1]]
    return numpy.asarray(points, dtype=float) @ numpy.array(first).T @ numpy.array(second).T


def waved(points):
    """Inner nodes of a grid moved a little, so that it is no grid."""
    points = numpy.array(points, dtype=float)
    inner = ((points[:, :2] > points[:, :2].min(axis=0)) & (points[:, :2] < points[:, :2].max(axis=0))).all(axis=1)
    points[inner, :2] += 0.12 * numpy.sin(numpy.arange(inner.sum())[:, None] * [3.1, 1.7])
    return points


def area(points, cells):
    """Of cells in space."""
    total = 0.0
    for cell in cells:
        a, *rest = (numpy.asarray(points[node]) for node in cell)
        total += sum(numpy.linalg.norm(numpy.cross(b - a, c - a)) / 2 for b, c in zip(rest, rest[1:]))
    return total


class Base(Case):
    def ran(self, points, triangles, *more, **options):
        """(points, quads, triangles) of the output, which is conforming: no edge has more cells than it had triangles."""
        path = self.stored(points, [('triangle', triangles)])
        self.said = self.good(path, '-o', self.out, *more, **options).stderr
        mesh, quads, left = self.mesh()
        return mesh.points, quads, left

    def places(self, points):
        return {tuple(point) for point in numpy.asarray(points).tolist()}


class Planes(Base):
    def test_words_without_dust(self):
        """Where the plane lies is said without what rounding leaves of a zero, and without -0."""
        frame = planes.Frame(numpy.array([0.0, 8.4e-15, -1.1e-14]), numpy.array([1.0, 0, 0]), numpy.array([-0.0, 0.8, 0.6]), extent=6.0)
        self.assertEqual(frame.words(), 'x along x and y along (0, 0.8, 0.6) from (0, 0, 0)')
        frame = planes.Frame(numpy.array([0.0, 8.4e-15, -1.1e-14]), numpy.array([1.0, 0, 0]), numpy.array([0.0, 0.8, 0.6]), extent=6e-14)
        self.assertEqual(frame.words(), 'x along x and y along (0, 0.8, 0.6) from (0, 8.4e-15, -1.1e-14)')

    def test_positions(self):
        """A slab in any position: every given node comes back bit for bit, and the area is that of the slab."""
        flat, triangles = grid(7, 5, 0.5)
        flat = waved(flat)
        want = area(flat, triangles)
        upright = lambda order: flat[:, order] + [10.0, 20.0, 30.0]
        for name, points in (('level', flat + [0, 0, 3.0]), ('leaning', turned(flat, 0.1)), ('steep', turned(flat, 1.2, 0, 0.7) + [100.0, -50.0, 7.0]), ('from below', turned(flat, math.pi, 0)),
                             ('xz', upright([0, 2, 1])), ('yz', upright([2, 0, 1])), ('zx', upright([1, 2, 0])), ('far', turned(flat, 0.9, 1, 2.0) + [5e6, 4e6, 800.0])):
            with self.subTest(name):
                found, quads, left = self.ran(points, triangles)
                self.assertEqual(self.places(found), self.places(points))
                self.assertEqual((len(quads), len(left)), (35, 0))
                self.assertAlmostEqual(area(found, quads) / want, 1, delta=1e-9 if name == 'far' else 1e-13)
                normal = lambda points, cell: numpy.cross(points[cell[1]] - points[cell[0]], points[cell[2]] - points[cell[0]])
                self.assertGreater(normal(found, quads[0]) @ normal(points, triangles[0]), 0)  # seen from the same side
                self.assertEqual('written where it lies' in self.said, name not in ('level', 'from below'))

    def test_the_mesh_is_that_of_the_plane(self):
        """A slab upright in xz has the cells that it has level: its coordinates are taken as they are."""
        flat, triangles = grid(8, 6, 0.5)
        flat = waved(flat)
        level = self.ran(flat, triangles)
        upright = self.ran(flat[:, [0, 2, 1]] * [1, 1, 1], triangles)
        self.assertEqual(level[1:], upright[1:])

    def test_added_nodes(self):
        """With --raw a node is added here: it lies in the plane."""
        with files.quiet():
            mesh = meshio.read(os.path.join(ROOT, 'examples', 'slab.msh'))
        flat, triangles = mesh.points, mesh.cells_dict['triangle']
        points = turned(flat, 0.8, 0, 0.4)
        found, quads, left = self.ran(points, triangles, '--raw', '--size', '0.5')
        added = self.places(found) - self.places(points)
        self.assertTrue(added, 'no node was added')
        normal = turned([(0, 0, 1)], 0.8, 0, 0.4)[0]
        self.assertLess(abs(numpy.array(list(added)) @ normal - points[0] @ normal).max(), 1e-14)
        self.assertAlmostEqual(area(found, quads) + area(found, left), area(flat, triangles), delta=1e-9)

    def test_judged_alone(self):
        """sedgepick-accept takes the two files as they lie."""
        flat, triangles = grid(7, 5, 0.5)
        self.ran(turned(waved(flat), 0.9, 1, 0.3), triangles)
        words = [sys.executable, os.path.join(PACKAGES, JUDGE), self.path('in.vtk'), self.out]
        ran = subprocess.run(words, capture_output=True, text=True)
        self.assertEqual(ran.returncode, 0, ran.stdout + ran.stderr)
        self.assertIn('0 nodes added, 0 nodes dropped', ran.stdout)

    def test_formats(self):
        """Formats that round hold the mesh all the same, and say so."""
        flat, triangles = grid(5, 5, 0.5)
        path = self.stored(turned(waved(flat), 0.7, 1, 0.3) + [10.0, 20.0, 30.0], [('triangle', triangles)])
        self.assertIn('rounds', self.good(path, '-o', self.path('a.bdf')).stderr)
        self.good(path, '-o', self.path('a.inp'))

    def test_the_report_says_what_is_judged(self):
        flat, triangles = grid(5, 5, 0.5)
        for points, words in ((waved(flat), None), (waved(flat)[:, [0, 2, 1]], 'in the plane, by two of the coordinates as they are'),
                              (turned(waved(flat), 0.7), 'in the plane, turned into the xy-plane, which rounds coordinates')):
            self.ran(points, triangles, '--report', self.path('report.txt'))
            with open(self.path('report.txt')) as file:
                row = [line for line in file if line.startswith('  judged ')]
            self.assertEqual(len(row), int(words is not None))
            self.assertIn(words or '', ''.join(row))

    def test_curved(self):
        flat, triangles = grid(8, 8, 0.25)
        bent = [(x, y, 0.2 * x * x + 0.1 * x * y * y) for x, y, _ in flat]
        self.refused(r'not plane: node \d+ at \(.*\) lies 0\.\d+ off .*--flatten', self.stored(bent, [('triangle', triangles)]), '-o', self.out)


class Flatten(Base):
    def test_leaning_loses_nothing(self):
        """A slab that leans by 0.1 rad keeps its area with --flatten: there is nothing to flatten."""
        flat, triangles = grid(7, 5, 0.5)
        points = turned(waved(flat), 0.1)
        found, quads, left = self.ran(points, triangles, '--flatten')
        self.assertAlmostEqual(area(found, quads) + area(found, left), 3.5 * 2.5, delta=1e-12)
        self.assertEqual(self.places(found), self.places(points))
        self.assertNotIn('moved', self.said)

    def test_nearly_flat(self):
        """What is moved, how far and what becomes of the area is said; x and y of a level slab stay as they are."""
        flat, triangles = grid(7, 5, 0.5)
        rough = waved(flat)
        rough[:, 2] = 3 + 0.01 * numpy.sin(7.0 * numpy.arange(len(rough)))
        path = self.stored(rough, [('triangle', triangles)])
        self.refused('not plane', path, '-o', self.out)
        found, quads, left = self.ran(rough, triangles, '--flatten')
        self.assertEqual(self.places(found[:, :2]), self.places(rough[:, :2]))
        self.assertEqual(len(set(found[:, 2])), 1)
        words = self.said.split('--flatten moved ', 1)[1]
        told = [float(word) for word in words.replace(';', ' ').replace(',', ' ').split() if word.replace('.', '').replace('-', '').replace('+', '').replace('e', '').isdigit()]
        self.assertEqual(told[:2], [len(rough), len(rough)])
        self.assertAlmostEqual(told[2], abs(rough[:, 2] - found[0, 2]).max(), delta=1e-7)
        self.assertIn('the area changes from %.10g to %.10g, by %+.3g %%' % (area(rough, triangles), 8.75, 100 * (8.75 / area(rough, triangles) - 1)), words)

    def test_nearly_flat_and_leaning(self):
        flat, triangles = grid(7, 5, 0.5)
        rough = waved(flat)
        rough[:, 2] = 0.01 * numpy.sin(7.0 * numpy.arange(len(rough)))
        found, quads, left = self.ran(turned(rough, 0.5, 1, 0.3), triangles, '--flatten')
        self.assertAlmostEqual(area(found, quads) + area(found, left), 8.75, delta=1e-4)
        self.assertLess(numpy.linalg.svd(found - found.mean(axis=0))[1][2], 1e-14)
        self.assertRegex(self.said, r'--flatten moved 48 of 48 nodes onto their plane, by up to 0\.01\d* \(node \d+ at .*\); the area changes from 8\.7\d+ to 8\.7\d+, by -0\.\d+ %')

    def test_not_nearly_flat(self):
        flat, triangles = grid(8, 8, 0.25)
        bent = [(x, y, 0.4 * x * x + 0.2 * x * y * y) for x, y, _ in flat]
        self.refused('not nearly flat: --flatten would move node', self.stored(bent, [('triangle', triangles)]), '-o', self.out, '--flatten')


class Several(Base):
    def room(self):
        """A slab with a wall across it, on an edge inside, and another wall along its edge: one numbering."""
        flat, triangles = grid(6, 6, 0.5)
        points, cells = [tuple(point) for point in waved_but_middle(flat).tolist()], list(triangles)
        for along in (range(21, 28), range(0, 7)):  # the row y = 1.5, and y = 0
            rows = [list(along)]
            for level in (0.5, 1.0):
                rows.append([len(points) + i for i in range(7)])
                points += [(points[node][0], points[node][1], level) for node in along]
            for low, high in zip(rows, rows[1:]):
                for i in range(6):
                    cells += [(low[i], low[i + 1], high[i + 1]), (low[i], high[i + 1], high[i])]
        return numpy.array(points), cells

    def test_room(self):
        points, cells = self.room()
        found, quads, left = self.ran(points, cells, '--report', self.path('report.txt'))
        with open(self.path('report.txt')) as file:
            self.assertRegex(file.read(), r'given +120 triangles, %d nodes(.|\n)*judged +in the planes, turned' % len(points))
        self.assertEqual(self.places(found), self.places(points))
        self.assertEqual((len(found), len(quads), len(left)), (len(points), 36 + 12 + 12, 0))
        self.assertAlmostEqual(area(found, quads), area(points, cells), delta=1e-12)
        self.assertIn('the surface has 3 planes', self.said)
        where = {tuple(place): i for i, place in enumerate(found.tolist())}
        edges, counts = numpy.unique(quality.keys(quality.sides(numpy.array(quads))), return_counts=True)
        given, before = numpy.unique(quality.keys(quality.sides(numpy.array(cells))), return_counts=True)
        named = lambda key: quality.keys([[where[tuple(points[key >> 32])], where[tuple(points[key & 0xffffffff])]]])[0]
        for key, count in zip(given[before == 3], before[before == 3]):  # the wall across the slab: three cells at each edge
            self.assertEqual(counts[edges == named(key)].tolist(), [3])
        self.assertEqual(((before == 3).sum(), (counts == 3).sum(), (counts > 3).sum()), (6, 6, 0))

    def test_groups_lines_and_free(self):
        """Groups and lines of several planes come back; --free does not tear the planes apart."""
        points, cells = self.room()
        tags = [1] * 72 + [2] * 48
        top = [(len(points) - 7 + i, len(points) - 6 + i) for i in range(6)]
        mesh = meshio.Mesh(points, [('triangle', numpy.array(cells)), ('line', numpy.array(top))], cell_data={name: [numpy.array(tags), numpy.full(6, 3)] for name in ('gmsh:physical', 'gmsh:geometrical')},
                           field_data={'slab': numpy.array([1, 2]), 'wall': numpy.array([2, 2]), 'top': numpy.array([3, 1])})
        with files.quiet():
            meshio.write(self.path('in.msh'), mesh, file_format='gmsh22', binary=False)
        for more in ((), ('--free',)):
            self.good(self.path('in.msh'), '-o', self.path('out.inp'), '--beams', *more)
            found = meshio.read(self.path('out.inp'))
            self.assertEqual({block.type: len(block.data) for block in found.cells}, {'quad': 60, 'line': 6})
            with open(self.path('out.inp')) as file:
                sets = files.abaqus.read_sets(file, [len(block.data[0]) for block in found.cells])
            self.assertEqual({name: sum(map(len, own)) for name, own in sets[0].items()}, {'slab': 36, 'wall': 24, 'top': 6})
            self.assertEqual(len(found.points), len(points))
            self.assertEqual({tuple(found.points[node]) for node in sets[1]['top']}, {tuple(points[node]) for node in range(len(points) - 7, len(points))})

    def test_node_map(self):
        points, cells = self.room()
        found, quads, left = self.ran(points, cells, '--node-map', self.path('map.csv'))
        with open(self.path('map.csv')) as file:
            rows = [line.strip().split(',') for line in file][1:]
        self.assertEqual(len(rows), len(points))
        for out, given in rows:
            self.assertEqual(tuple(found[int(out) - 1]), tuple(points[int(given) - 1]))

    def test_cube(self):
        """Six faces of two triangles each: six quads."""
        corners = [(x, y, z) for z in (0.0, 1.0) for y in (0.0, 1.0) for x in (0.0, 1.0)]
        faces = [(0, 2, 3, 1), (4, 5, 7, 6), (0, 1, 5, 4), (2, 6, 7, 3), (0, 4, 6, 2), (1, 3, 7, 5)]
        found, quads, left = self.ran(corners, [cell for a, b, c, d in faces for cell in ((a, b, c), (a, c, d))])
        self.assertEqual((len(found), len(quads), len(left)), (8, 6, 0))
        self.assertEqual(sorted(tuple(sorted(tuple(found[node]) for node in quad)) for quad in quads), sorted(tuple(sorted(corners[node] for node in face)) for face in faces))


def waved_but_middle(flat):
    """A grid with its inner nodes moved, but for the row y = 1.5."""
    points = waved(flat)
    row = numpy.array(flat)[:, 1] == 1.5
    points[row] = numpy.array(flat)[row]
    return points


class Quads(Base):
    def test_kept(self):
        """Quads of the file come back as they are, with their groups, and the cells around fit them."""
        flat, triangles = grid(6, 6, 0.5)
        points = waved(flat)
        own = [(14, 15, 22, 21), (15, 16, 23, 22), (0, 1, 8, 7)]  # two inside, one at a corner
        rest = [cell for cell in triangles if not any(set(cell) <= set(quad) for quad in own)]
        mesh = meshio.Mesh(points, [('triangle', numpy.array(rest)), ('quad', numpy.array(own))],
                           cell_data={name: [numpy.full(len(rest), 1), numpy.array([2, 2, 1])] for name in ('gmsh:physical', 'gmsh:geometrical')},
                           field_data={'slab': numpy.array([1, 2]), 'pad': numpy.array([2, 2])})
        with files.quiet():
            meshio.write(self.path('in.msh'), mesh, file_format='gmsh22', binary=False)
        said = self.good(self.path('in.msh'), '-o', self.out).stderr
        self.assertIn('3 quads of the file are kept as they are', said)
        found, quads, left = self.mesh()
        placed = lambda points, cells: [tuple(tuple(points[node]) for node in cell) for cell in cells]
        self.assertEqual(placed(found.points, quads)[-3:], placed(points, own))
        self.assertEqual(self.places(found.points), self.places(points))
        self.assertEqual(2 * (len(quads) - 3) + len(left), len(rest))
        self.assertAlmostEqual(area(found.points, quads) + area(found.points, left), 9, delta=1e-12)
        counts = numpy.unique(quality.edge_keys(numpy.array(quads), numpy.array(left, dtype=int).reshape(-1, 3)), return_counts=True)[1]
        self.assertEqual((counts.max(), (counts == 1).sum()), (2, 24))  # conforming: the boundary alone has one cell
        tags = numpy.concatenate([found.cell_data['gmsh:physical'][i] for i, block in enumerate(found.cells) if block.type == 'quad'])
        self.assertEqual((tags[-3:].tolist(), set(tags[:-3].tolist())), ([2, 2, 1], {1}))

    def test_quads_on_an_edge_inside(self):
        """Quads that stand on edges inside the triangles: these edges are kept, with --free and --raw too."""
        flat, triangles = grid(6, 6, 0.5)
        points = waved_but_middle(flat).tolist()
        along = range(21, 28)
        top = [len(points) + i for i in range(7)]
        points += [(points[node][0], points[node][1], 0.5) for node in along]
        wall = [(21 + i, 22 + i, top[i + 1], top[i]) for i in range(6)]
        path = self.stored(points, [('triangle', triangles), ('quad', wall)])
        for more in ((), ('--free',), ('--raw', '--size', '0.8')):
            self.good(path, '-o', self.out, *more)
            found, quads, left = self.mesh()
            where = {tuple(place): i for i, place in enumerate(found.points.tolist())}
            edges, counts = numpy.unique(quality.edge_keys(numpy.array(quads), numpy.array(left, dtype=int).reshape(-1, 3)), return_counts=True)
            for i in range(6):
                key = quality.keys([[where[tuple(points[21 + i])], where[tuple(points[22 + i])]]])
                self.assertEqual(counts[edges == key].tolist(), [3], more)

    def test_other_cells_are_refused(self):
        cube = [(0, 0, 0), (1, 0, 0), (1, 1, 0), (0, 1, 0), (0, 0, 1)]
        self.refused('1 cells of type tetra beside', self.stored(cube, [('triangle', [(0, 1, 2)]), ('tetra', [(0, 1, 2, 4)])]), '-o', self.out)


if __name__ == '__main__':
    unittest.main()
