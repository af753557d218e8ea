"""Tests of the Python package: run_front, its memory, quality sets, refusals, threads."""
import math, os, random, subprocess, sys, threading, time, unittest
from common import PACKAGES, grid, make_library
import sedgepick
from sedgepick import front, library

SQUARE = [(0.0, 0.0, 0.0), (1.0, 0.0, 0.0), (1.0, 1.0, 0.0), (0.0, 1.0, 0.0)]
HALVES = [(0, 1, 2), (0, 2, 3)]


def setUpModule():
    make_library()


def plain(rows):
    return [tuple(int(value) for value in row) for row in rows]


def shaken(seed, columns=12, rows=12):
    """A grid whose inner points are moved."""
    draw = random.Random(seed)
    points, triangles = grid(columns, rows, 0.5)
    inner = lambda x, y: 0 < x < 0.5 * columns and 0 < y < 0.5 * rows
    return [(x + 0.2 * (draw.random() - 0.5), y + 0.2 * (draw.random() - 0.5), z) if inner(x, y) else (x, y, z) for x, y, z in points], triangles


def content(mesh):
    return [tuple(map(float, p)) for p in mesh.points], list(mesh.quads), plain(mesh.triangles), [int(n) for n in mesh.components], mesh.counts


class Runs(unittest.TestCase):
    def test_square(self):
        mesh = sedgepick.run_front(SQUARE, HALVES, 1.0, 0)
        self.assertEqual(list(mesh.quads), [((0, 1, 2, 3), (0, 1), 1, 2)])
        self.assertEqual((mesh.quads[-1].nodes, mesh.quads[0].edge, mesh.quads[0].round, mesh.quads[0].replaced), ((0, 1, 2, 3), (0, 1), 1, 2))
        self.assertEqual((len(mesh.triangles), len(mesh.points), len(mesh.components), mesh.counts.attempts, mesh.counts.trials), (0, 4, 0, 1, 1))

    def test_nothing(self):
        mesh = sedgepick.run_front([], [], 0.0, 0)
        self.assertEqual((len(mesh.points), len(mesh.quads), mesh.counts.front_empty), (0, 0, 1))

    def test_two_coordinates_and_z_carried(self):
        mesh = sedgepick.run_front([p[:2] for p in SQUARE], HALVES, 1.0)
        self.assertEqual([float(p[2]) for p in mesh.points], [0.0] * 4)
        mesh = sedgepick.run_front([(x, y, 7.5) for x, y, _ in SQUARE], HALVES, 1.0)
        self.assertEqual([float(p[2]) for p in mesh.points], [7.5] * 4)

    def test_account(self):
        points, triangles = shaken(3)
        mesh = sedgepick.run_front(points, triangles, 0.5)
        c = mesh.counts
        self.assertEqual(c.attempts, len(mesh.quads) + c.placement + c.invalid_quad + c.recovery + c.region + c.odd_region + c.limit)
        with_pairs = len(mesh.quads) + c.recovery + c.region + c.odd_region
        self.assertTrue(with_pairs <= c.trials <= 8 * with_pairs)
        self.assertEqual(len(mesh.points), len(points) + c.mismatch_insertions)
        self.assertEqual([tuple(map(float, p)) for p in mesh.points[:len(points)]], points)
        self.assertEqual(sum(int(n) for n in mesh.components), len(mesh.triangles))
        self.assertGreater(len(mesh.quads), 10)
        self.assertEqual([quad.edge for quad in mesh.quads], [tuple(sorted(quad.nodes[:2])) for quad in mesh.quads])
        self.assertEqual([quad.round for quad in mesh.quads], list(range(1, len(mesh.quads) + 1)))
        self.assertEqual(len(mesh.triangles) + sum(quad.replaced for quad in mesh.quads), len(triangles) + 2 * c.mismatch_insertions)

    def test_columns(self):
        mesh = sedgepick.run_front(*shaken(3), 0.5)
        rows = zip(plain(mesh.quads.nodes), plain(mesh.quads.edges), map(int, mesh.quads.rounds), map(int, mesh.quads.replaced))
        self.assertEqual(list(mesh.quads), list(rows))
        self.assertEqual((mesh.quads[2:5], len(mesh.quads[:0])), ([mesh.quads[2], mesh.quads[3], mesh.quads[4]], 0))
        self.assertEqual(mesh.quads, sedgepick.run_front(*shaken(3), 0.5).quads)
        self.assertNotEqual(mesh.quads, sedgepick.run_front(*shaken(4), 0.5).quads)
        with self.assertRaises(IndexError):
            mesh.quads[len(mesh.quads)]

    def test_memory_grows_and_changes_nothing(self):
        for seed in range(4):
            points, triangles = shaken(seed)
            ample = sedgepick.run_front(points, triangles, 0.45, 0, capacity=8192, slots=16384)
            scarce = sedgepick.run_front(points, triangles, 0.45, 0, capacity=len(points), slots=len(triangles))
            self.assertEqual(content(ample), content(scarce))

    def test_without_numpy(self):
        points, triangles = shaken(1)
        usual = content(sedgepick.run_front(points, triangles, 0.5))
        kept, front.numpy = front.numpy, None
        try:
            mesh = sedgepick.run_front(points, triangles, 0.5)
        finally:
            front.numpy = kept
        self.assertIsInstance(mesh.points, list)
        self.assertEqual(content(mesh), usual)

    @unittest.skipIf(front.numpy is None, 'numpy is not installed')
    def test_arrays(self):
        points, triangles = shaken(1)
        mesh = sedgepick.run_front(front.numpy.array(points), front.numpy.array(triangles), 0.5)
        self.assertEqual(str(mesh.points.dtype), 'float64')
        self.assertEqual(content(mesh), content(sedgepick.run_front(points, triangles, 0.5)))


def corners(mesh):
    """Cosine and sine at each corner of the quads."""
    points = [tuple(map(float, p)) for p in mesh.points]
    for quad in plain(mesh.quads.nodes):
        for i in range(4):
            here, after, before = (points[quad[j % 4]] for j in (i, i + 1, i + 3))
            u, v = (after[0] - here[0], after[1] - here[1]), (before[0] - here[0], before[1] - here[1])
            lengths = math.hypot(*u) * math.hypot(*v)
            yield (u[0] * v[0] + u[1] * v[1]) / lengths, (u[0] * v[1] - u[1] * v[0]) / lengths


class Qualities(unittest.TestCase):
    def test_standard(self):
        points, triangles = shaken(2)
        standard = sedgepick.Quality(0.3, sedgepick.cosine_of(25), 0.5, 2.2, 8)
        self.assertEqual(standard, sedgepick.Quality())
        self.assertEqual(content(sedgepick.run_front(points, triangles, 0.5, quality=standard)), content(sedgepick.run_front(points, triangles, 0.5)))

    def test_others_are_kept(self):
        points, triangles = shaken(2)
        usual = sedgepick.run_front(points, triangles, 0.5)
        for quality in (sedgepick.Quality(largest_cosine=sedgepick.cosine_of(60)), sedgepick.Quality(least_jacobian=0.9), sedgepick.Quality(pairs=1),
                        sedgepick.Quality(least_jacobian=0, largest_cosine=0.99, side_low=0.1, side_high=4, pairs=64)):
            mesh = sedgepick.run_front(points, triangles, 0.5, quality=quality)
            self.assertGreater(len(mesh.quads), 0)
            self.assertNotEqual(mesh.quads, usual.quads, quality)
            self.assertLessEqual(mesh.counts.trials, quality.pairs * mesh.counts.attempts)
            for cosine, sine in corners(mesh):
                self.assertLessEqual(cosine, quality.largest_cosine + 1e-9)
                self.assertGreaterEqual(sine, quality.least_jacobian - 1e-9)

    def test_refused_before_a_call(self):
        beyond = lambda low, high: (math.nextafter(low, -1), math.nextafter(high, 9), math.nan, math.inf, -math.inf)
        for name, (low, high) in sedgepick.RANGES.items():
            wide = {} if name != 'side_low' else {'side_high': 4.0}
            wide.update({'side_low': 0.1} if name == 'side_high' else {})
            for value in (low, high):
                sedgepick.Quality(**{**wide, name: value})
            for value in beyond(low, high) if name != 'pairs' else (0, 65, 8.5, 2 ** 70):
                with self.assertRaises(sedgepick.Refused) as caught:
                    sedgepick.Quality(**{**wide, name: value})
                self.assertEqual(caught.exception.number, 14)
                self.assertIn(name, str(caught.exception))
        sedgepick.Quality(least_jacobian=-0.0, side_low=2.2)
        with self.assertRaises(sedgepick.Refused) as caught:
            sedgepick.Quality(side_low=math.nextafter(2.2, 3))
        self.assertIn('above side_high', str(caught.exception))

    def test_refused_by_the_library(self):
        """A set that is not tested beforehand: 14 comes straight after 3."""
        class Set:
            least_jacobian, largest_cosine, side_low, side_high, pairs = 0.3, math.nan, 0.5, 2.2, 8
        for size, stop, number in ((9.0, 2, 2), (1.0, 2, 3), (1.0, 0, 14)):
            call = front.Call(4, 4, 2, 8, size, stop, Set)
            refusal, _ = front.attempt(library.load().sedgepick_run_front_with, front.doubles(SQUARE), front.node_numbers([(0, 1, 1)], 3, 'triangles'), call)
            self.assertEqual(refusal, number)
        self.assertIn(14, sedgepick.REFUSALS)


def stands(mesh, joint):
    cells = plain(mesh.quads.nodes) + plain(mesh.triangles)
    return any({cell[i - 1], cell[i]} == set(joint) for cell in cells for i in range(len(cell)))


class Joints(unittest.TestCase):
    DIAGONAL = [(14 * i, 14 * (i + 1)) for i in range(12)]

    def test_they_stand(self):
        points, triangles = shaken(4)
        for stop in (0, 1):
            self.assertFalse(all(stands(sedgepick.run_front(points, triangles, 0.5, stop), joint) for joint in self.DIAGONAL))
            mesh = sedgepick.run_front(points, triangles, 0.5, stop, joints=self.DIAGONAL)
            self.assertTrue(all(stands(mesh, joint) for joint in self.DIAGONAL))
            self.assertGreater(len(mesh.quads), 0)

    def test_order_and_repeats(self):
        points, triangles = shaken(4)
        usual = content(sedgepick.run_front(points, triangles, 0.5, joints=self.DIAGONAL))
        turned = [pair[::-1] for pair in self.DIAGONAL[::-1]]
        for joints in (turned, (turned * 22)[:256]):
            self.assertEqual(content(sedgepick.run_front(points, triangles, 0.5, joints=joints)), usual)
        self.assertEqual(content(sedgepick.run_front(points, triangles, 0.5, joints=[])), content(sedgepick.run_front(points, triangles, 0.5)))

    @unittest.skipIf(front.numpy is None, 'numpy is not installed')
    def test_arrays(self):
        points, triangles = shaken(4)
        self.assertEqual(content(sedgepick.run_front(points, triangles, 0.5, joints=front.numpy.array(self.DIAGONAL))),
                         content(sedgepick.run_front(points, triangles, 0.5, joints=self.DIAGONAL)))

    def test_refused(self):
        for joints in ([(0, 0)], [(0, 1), (4, 0)], [(0, -1)], [(2 ** 40, 1)], [(0, 1)] * 257):
            with self.assertRaises(sedgepick.Refused) as caught:
                sedgepick.run_front(SQUARE, HALVES, 1.0, joints=joints)
            self.assertEqual(caught.exception.number, 13)
        sedgepick.run_front(SQUARE, HALVES, 1.0, joints=[(0, 1)] * 256)
        with self.assertRaises(ValueError):
            sedgepick.run_front(SQUARE, HALVES, 1.0, joints=[(0, 1, 2)])


class Grid(unittest.TestCase):
    @staticmethod
    def areas(points, cells):
        """Twice the summed areas without sign, in squares of the grid."""
        at = lambda node: [int(1024 * c) for c in points[node][:2]]
        cross = lambda a, b: a[0] * b[1] - b[0] * a[1]
        return sum(abs(sum(cross(at(cell[i - 1]), at(cell[i])) for i in range(len(cell)))) for cell in plain(cells))

    def test_area(self):
        points, triangles = shaken(4)
        points = [(round(1024 * x) / 1024, round(1024 * y) / 1024, z) for x, y, z in points]
        for joints in ([], Joints.DIAGONAL):
            mesh = sedgepick.run_front(points, triangles, 0.0, joints=joints, grid=True)
            self.assertEqual(content(mesh), content(sedgepick.run_front(points, triangles, 0.0, joints=joints)))
            self.assertEqual(len(mesh.points), len(points))
            self.assertGreater(len(mesh.quads), 0)
            self.assertEqual(self.areas(points, triangles), self.areas(points, mesh.quads.nodes) + self.areas(points, mesh.triangles))

    def test_refused(self):
        off = [(0.1, 0.0)] + SQUARE[1:]
        for points, size, joints, number in ((SQUARE, 1.0, [], 15), (off, 0.0, [], 15), (off, 0.0, [(0, 0)], 15), (SQUARE, 0.0, [(0, 0)], 13),
                                             ([(9.0, 0.0)] + SQUARE[1:], 1.0, [], 7)):
            with self.assertRaises(sedgepick.Refused) as caught:
                sedgepick.run_front(points, HALVES, size, joints=joints, grid=True)
            self.assertEqual(caught.exception.number, number)
        self.assertEqual(len(sedgepick.run_front(SQUARE, HALVES, -0.0, grid=True).quads), 1)
        sedgepick.run_front(off, HALVES, 0.0)


class Refusals(unittest.TestCase):
    def refused(self, number, *call):
        with self.assertRaises(sedgepick.Refused) as caught:
            sedgepick.run_front(*call)
        self.assertEqual(caught.exception.number, number)
        self.assertIn(sedgepick.REFUSALS[number], str(caught.exception))

    def test_each(self):
        self.refused(1, [(0.0, 0.0)] * 4097, HALVES, 1.0, 0)
        self.refused(1, SQUARE, HALVES * 2049, 1.0, 0)
        for size in (1 / 128, 9.0, -1.0, math.nan, math.inf):
            self.refused(2, SQUARE, HALVES, size, 0)
        for stop in (2, -1, 2 ** 40, '0'):
            self.refused(3, SQUARE, HALVES, 1.0, stop)
        for node in (4, -1, 2 ** 32, 2 ** 40, 2 ** 70):
            self.refused(5, SQUARE, [(0, 1, node)], 1.0, 0)
        self.refused(6, SQUARE, [(0, 1, 1)], 1.0, 0)
        for x in (8.5, math.nan, -math.inf):
            self.refused(7, [(x, 0.0)] + SQUARE[1:], HALVES, 1.0, 0)

    @unittest.skipIf(front.numpy is None, 'numpy is not installed')
    def test_node_of_an_array(self):
        for node in (4, -1, 2 ** 40):
            self.refused(5, SQUARE, front.numpy.array([(0, 1, node)]), 1.0, 0)

    def test_shapes(self):
        for points, triangles in (([(0.0,)], []), (SQUARE, [(0, 1)]), (SQUARE, [(0, 1, 0.5)]), ([(0.0, 1.0, 2.0, 3.0)], [])):
            with self.assertRaises(ValueError):
                sedgepick.run_front(points, triangles, 1.0)

    def test_no_library(self):
        code = 'import sedgepick\ntry: sedgepick.run_front([], [], 0.0)\nexcept sedgepick.NoLibrary as fault: print(fault)'
        run = subprocess.run([sys.executable, '-c', code], capture_output=True, text=True,
                             env=dict(os.environ, PYTHONPATH=PACKAGES, SEDGEPICK_LIBRARY='/nowhere/lib.so'))
        self.assertIn('is not there; looked for: /nowhere/lib.so', run.stdout)


class Threads(unittest.TestCase):
    def test_two_at_once(self):
        meshes = [shaken(seed, 20, 20) for seed in (5, 6)]
        meshes = [([(x / 2, y / 2, z) for x, y, z in points], triangles) for points, triangles in meshes]
        alone = [content(sedgepick.run_front(*mesh, 0.25)) for mesh in meshes]
        together = [[], []]

        def work(which):
            for _ in range(5):
                together[which].append(content(sedgepick.run_front(*meshes[which], 0.25)))

        threads = [threading.Thread(target=work, args=(which,)) for which in (0, 1)]
        for thread in threads:
            thread.start()
        for thread in threads:
            thread.join()
        for which in (0, 1):
            self.assertEqual(together[which], [alone[which]] * 5)

    def test_lock_is_free_during_a_call(self):
        """The other thread goes on while the library runs."""
        points, triangles = shaken(7, 30, 30)
        points = [(x / 2, y / 2, z) for x, y, z in points]
        ticks, done = [], threading.Event()

        def tick():
            while not done.is_set():
                ticks.append(time.perf_counter())
                time.sleep(0.001)

        ticker = threading.Thread(target=tick)
        ticker.start()
        begin = time.perf_counter()
        front.attempt(library.load().sedgepick_run_front_with, front.doubles(points), front.node_numbers(triangles, 3, 'triangles'),
                      front.Call(len(points), 8192, len(triangles), 16384, 0.25, 0))
        end = time.perf_counter()
        done.set()
        ticker.join()
        if end - begin > 0.1:
            self.assertGreater(sum(begin < t < end for t in ticks), 5)


if __name__ == '__main__':
    unittest.main()
