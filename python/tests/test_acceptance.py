"""Tests of the acceptance over the real library: each clause, each refusal, the sheet, long lists."""
import ctypes, doctest, math, unittest
from common import grid, make_library
import sedgepick
from sedgepick import acceptance, library

try:
    import numpy
except ImportError:
    numpy = None

# two squares side by side, each cut in two, and a point inside the first
POINTS = [(0, 0), (1, 0), (2, 0), (0, 1), (1, 1), (2, 1), (0.5, 0.25)]
GIVEN = [(0, 1, 4), (0, 4, 3), (1, 2, 5), (1, 5, 4)]
LEFT = [(1, 2, 5), (1, 5, 4)]
QUADS = [(0, 1, 4, 3)]
CLAUSES = ('moved', 'folded', 'sharp', 'given_flat', 'left_flat', 'thin', 'uneven', 'lost')


def setUpModule():
    make_library()


def judged(given_points=POINTS, triangles=GIVEN, points=POINTS, quads=QUADS, left=LEFT, joints=None, **limits):
    return sedgepick.accept(given_points, triangles, points, quads, left, joints, **limits)


def with_point(place, point):
    return POINTS[:place] + [point] + POINTS[place + 1:]


class Clauses(unittest.TestCase):
    def offends(self, verdict, **offenders):
        """The verdict has these offenders and no other."""
        self.assertEqual({name: getattr(verdict, name) for name in CLAUSES}, {**dict.fromkeys(CLAUSES), **offenders})
        self.assertEqual((verdict.accepted, bool(verdict)), (not offenders,) * 2)
        self.assertEqual(str(verdict).startswith('ACCEPTED'), not offenders)
        self.assertEqual(str(verdict).count('does not hold'), len(offenders))

    def test_accepted(self):
        verdict = judged(joints=[(4, 1), (2, 1)])
        self.offends(verdict)
        self.assertEqual((verdict.added, list(map(int, verdict.sizes)), verdict.odd), (0, [2], 0))
        self.offends(sedgepick.accept([], [], [], [], []))

    def test_turned_triangles(self):
        self.offends(judged(triangles=[(a, c, b) for a, b, c in GIVEN], left=[LEFT[0], (1, 4, 5)]))

    def test_points(self):
        self.offends(judged(points=with_point(3, (0, 1, -0.0))), moved=3)
        self.offends(judged(points=with_point(6, (0.5, math.nextafter(0.25, 1)))), moved=6)
        self.offends(judged(points=POINTS[:6]), moved=6)
        verdict = judged(points=POINTS + [(7, 7, math.nan), (0, 0)])
        self.offends(verdict)
        self.assertEqual(verdict.added, 2)

    def test_convex(self):
        given = [(0, 1, 6), (1, 4, 6), (0, 6, 4), (0, 4, 3)] + LEFT
        verdict = judged(triangles=given, quads=[(0, 6, 4, 3), (0, 1, 4, 6)], cosine=0.99)
        self.assertEqual((verdict.folded, verdict.uneven, verdict.accepted), (1, None, False))
        self.assertEqual(judged(quads=[(3, 4, 1, 0)]).folded, 0)

    def test_corners(self):
        given = [(0, 1, 6), (1, 4, 6), (0, 6, 4), (0, 4, 3)] + LEFT
        leaning = dict(triangles=given, quads=[(0, 6, 4, 3)], left=[(0, 1, 6), (1, 4, 6)] + LEFT)
        self.offends(judged(**leaning, cosine=0.9))
        self.offends(judged(**leaning, cosine=0.5), sharp=0)

    def test_limit_is_exact(self):
        # a rhombus of unit vectors (3, 4) / 5 and (1, 0): its cosine is 0.6 exactly
        points = [(0, 0), (5, 0), (8, 4), (3, 4)]
        rhombus = lambda cosine: sedgepick.accept(points, [(0, 1, 2), (0, 2, 3)], points, [(0, 1, 2, 3)], [], cosine=cosine)
        self.offends(rhombus(0.6))
        self.offends(rhombus(0.6 - 0.9e-9))
        self.offends(rhombus(0.6 - 1.1e-9), sharp=0)

    def test_cover(self):
        self.offends(judged(left=LEFT[:1]), uneven=(1, 4))
        self.offends(judged(left=LEFT + LEFT[:1]), uneven=(1, 2))
        self.offends(judged(left=[(1, 2, 4), (2, 5, 4)]))
        flat = with_point(6, (0.5, 0.5))
        self.assertEqual(judged(flat, GIVEN + [(0, 4, 6)], flat).given_flat, 4)
        self.assertEqual(judged(flat, GIVEN, flat, left=LEFT + [(0, 4, 6)]).left_flat, 2)

    def test_thin(self):
        self.offends(judged(thin=0.71))
        self.offends(judged(thin=0.7), thin=0)
        self.offends(judged(thin=1.0))
        self.assertIn('not asked', str(judged()))
        self.assertNotIn('not asked', str(judged(thin=0.71)))

    def test_joints(self):
        self.offends(judged(joints=[(1, 4), (4, 0), (0, 4)]), lost=1)
        self.offends(judged(joints=[(0, 5)]))

    def test_groups(self):
        verdict = judged(quads=[], left=GIVEN[:2] + LEFT[:1])
        self.assertEqual((list(map(int, verdict.sizes)), verdict.odd), ([2, 1], 1))
        self.assertIn('2 of 2, 1, 1 odd', str(verdict))


class Calls(unittest.TestCase):
    def test_refusals(self):
        refused = [
            (1, dict(points=POINTS * 149797)), (14, dict(cosine=0.49)), (14, dict(cosine=0.995)), (14, dict(cosine=math.nan)), (14, dict(thin=0.49)), (14, dict(thin=1.5)),
            (14, dict(thin=math.nan)), (5, dict(given_points=POINTS[:5])), (5, dict(quads=[(0, 1, 4, 7)])), (5, dict(left=[(0, 1, -1)])), (6, dict(triangles=[(0, 1, 1)])),
            (6, dict(quads=[(0, 1, 4, 0)])), (7, dict(points=with_point(6, (8.5, 0)))), (7, dict(given_points=with_point(6, (0, math.inf)))),
            (13, dict(joints=[(0, 1), (3, 3)])), (13, dict(joints=[(0, 7)])),
        ]
        for number, arguments in refused:
            with self.subTest(number=number), self.assertRaises(sedgepick.Refused) as raised:
                judged(**arguments)
            self.assertEqual((raised.exception.number, raised.exception.words), (number, acceptance.REFUSALS[number]))

    def test_shapes(self):
        for arguments in (dict(points=[(0,)]), dict(quads=[(0, 1, 2)]), dict(left=[(0, 1)]), dict(joints=[(0, 1, 2)]), dict(quads=[(0, 1, 4, 3), (0, 1, 4, 3, 0, 0, 0, 0)])):
            with self.assertRaises(ValueError):
                judged(**arguments)

    def test_our_mesh(self):
        points, triangles = grid(9, 7, 0.5)
        for joints in ((), [(11, 0), (11, 22)]):
            mesh = sedgepick.run_front(points, triangles, 0.4, joints=joints)
            verdict = sedgepick.accept(points, triangles, mesh.points, mesh.quads, mesh.triangles, joints)
            self.assertTrue(verdict, str(verdict))
            self.assertEqual((verdict.added, list(verdict.sizes)), (mesh.counts.mismatch_insertions, list(mesh.components)))

    def test_records(self):
        records = [(0, 1, 4, 3, 0, 1, 1, 2)]
        self.assertEqual(judged(quads=records), judged())
        self.assertEqual(hash(judged(quads=records)), hash(judged()))
        self.assertNotEqual(judged(), judged(thin=0.9))

    def test_frozen(self):
        with self.assertRaises(AttributeError):
            judged().accepted = True

    @unittest.skipIf(numpy is None, 'numpy is not installed')
    def test_arrays(self):
        arrays = dict(given_points=numpy.array(POINTS, dtype=float), triangles=numpy.array(GIVEN), points=numpy.array(POINTS, dtype=float), quads=numpy.array([(0, 1, 4, 3, 0, 1, 1, 2)]),
                      left=numpy.array(LEFT, dtype=numpy.uint32), joints=numpy.array([(1, 4)]))
        verdict = judged(**arrays)
        self.assertEqual(verdict, judged(joints=[(1, 4)]))
        self.assertIsInstance(verdict.sizes, numpy.ndarray)

    def test_examples(self):
        for module in (acceptance, sedgepick):
            found = doctest.testmod(module)
            self.assertGreater(found.attempted, 0)
            self.assertEqual(found.failed, 0, module)

    def test_text(self):
        lines = str(judged(left=LEFT[:1])).splitlines()
        self.assertEqual(lines[0], 'NOT ACCEPTED: 1 quads and 1 leftover triangles for 4 triangles')
        self.assertEqual(len(lines), 11)
        self.assertEqual([line for line in lines if 'does not hold' in line],
                         ['sides balance: no gap, no overlap                  does not hold: edge 1-4 is the least'])


class Lent(unittest.TestCase):
    """The call itself: what it refuses for want of room, and what the lent slices hold afterwards."""

    def call(self, short=None, cosine=0.9, given=len(POINTS)):
        """(returned, components, work, parents, answer) over slices with garbage in them and room for one number more; one is too short, by its name."""
        stated = acceptance.Judged(given, len(GIVEN), len(POINTS), len(QUADS), len(LEFT), 1, cosine, 1.0)
        read = {'given_points': acceptance.lend_doubles(POINTS), 'triangles': acceptance.lend_nodes(GIVEN, 3, ''), 'points': acceptance.lend_doubles(POINTS),
                'quads': acceptance.lend_quads(QUADS), 'left': acceptance.lend_nodes(LEFT, 3, ''), 'joints': acceptance.lend_nodes([(1, 4)], 2, '')}
        rooms = dict(zip(('components', 'work', 'parents'), acceptance.room(stated)), answer=acceptance.NUMBERS)
        written = {name: ((ctypes.c_size_t if name == 'answer' else ctypes.c_uint32) * (n + 1))(*[77] * (n + 1)) for name, n in rooms.items()}
        lengths = {**{name: length for name, (_, length) in read.items()}, **{name: len(memory) for name, memory in written.items()}}
        if short:
            lengths[short] -= 1 if short in read else 2
        words = [word for name, (memory, _) in read.items() for word in (memory, lengths[name])]
        words += [word for name in ('components', 'work', 'parents') for word in (written[name], lengths[name])]
        number = library.load().sedgepick_accept(*words, given, stated.triangles, stated.points, stated.quads, stated.left, 1, cosine, 1.0, written['answer'], lengths['answer'])
        return number, *(list(written[name]) for name in ('components', 'work', 'parents', 'answer'))

    def test_answer(self):
        number, components, work, parents, answer = self.call()
        self.assertEqual((number, components), (0, [2, 77, 77]))
        self.assertEqual((set(work), set(parents)), ({0}, {0}))
        self.assertEqual(answer, [1, 7, 0, 1, 1, 4, 2, 2, 0, 0, 1, 1, 0, 77])

    def test_too_short(self):
        for short in ('given_points', 'triangles', 'points', 'quads', 'left', 'joints', 'components', 'work', 'parents', 'answer'):
            with self.subTest(short=short):
                number, *slices = self.call(short)
                self.assertEqual((number, {word for memory in slices for word in memory}), (4, {77}))
                self.assertEqual(self.call(short, cosine=0.4)[0], 14)
                self.assertEqual(self.call(short, cosine=0.4, given=2 ** 20 + 1)[0], 1)

    def test_no_answer_before_others(self):
        self.assertEqual(self.call('answer', given=5)[0], 4)
        number, *slices = self.call(given=5)
        self.assertEqual((number, {word for memory in slices for word in memory}), (5, {77}))


@unittest.skipIf(numpy is None, 'numpy is not installed')
class Long(unittest.TestCase):
    """A rectangle of 100,000 cells: quads but for the last column, which is left as triangles."""
    COLUMNS, ROWS, STEP = 400, 200, 1 / 64

    def mesh(self):
        i, j = numpy.meshgrid(numpy.arange(self.COLUMNS + 1), numpy.arange(self.ROWS + 1))
        points = numpy.column_stack([i.ravel() * self.STEP, j.ravel() * self.STEP, numpy.zeros(i.size)])
        a = (i[:-1, :-1] + (self.COLUMNS + 1) * j[:-1, :-1]).ravel()
        b, c, d = a + 1, a + self.COLUMNS + 2, a + self.COLUMNS + 1
        column = numpy.tile(numpy.arange(self.COLUMNS), self.ROWS)
        two = lambda k: numpy.concatenate([numpy.column_stack([a[k], b[k], c[k]]), numpy.column_stack([a[k], c[k], d[k]])])
        quads = numpy.column_stack([a, b, c, d])[column < self.COLUMNS - 100]
        return points, two(slice(None)), quads, two(column >= self.COLUMNS - 100)

    def test_long(self):
        points, triangles, quads, left = self.mesh()
        self.assertEqual(len(quads) + len(left), 100000)
        verdict = sedgepick.accept(points, triangles, points, quads, left)
        self.assertTrue(verdict, str(verdict))
        self.assertEqual((list(verdict.sizes), verdict.odd), ([40000], 0))
        quads[-1] = quads[-1][::-1]
        self.assertEqual(sedgepick.accept(points, triangles, points, quads, left).folded, len(quads) - 1)
        quads[-1] = quads[-1][::-1]
        verdict = sedgepick.accept(points, triangles, points, quads, left[:-1])
        self.assertEqual((verdict.accepted, verdict.odd), (False, 1))
        self.assertIsNotNone(verdict.uneven)


if __name__ == '__main__':
    unittest.main()
