"""Tests of the C of the finishing pass, step by step: the same answer under any floating point of the caller, sides brought in by flips, how thin a walking triangle
may be, and the nearest place in a grid of squares against all places."""
import ctypes, itertools, math, os, random, shutil, struct, subprocess, sys, tempfile, unittest
from common import ROOT, make_library
from exact_judge import faults

try:
    import numpy
    from sedgepick import finishing
    from sedgepick.finishing import native
except ImportError:
    numpy = None

C = os.path.join(ROOT, 'c', 'finishing')
USUAL, FLAGS = 0x1F80, 0x3F
MODES = {'down': 0x3F80, 'up': 0x5F80, 'toward zero': 0x7F80, 'FTZ and DAZ': 0x9FC0, 'down, FTZ and DAZ': 0xBFC0}
SMALL = 2.0 ** -265  # squares of lengths, times each other, are subnormal numbers
CONTROL = """#include <xmmintrin.h>
unsigned get_mxcsr(void) { return _mm_getcsr(); }
void set_mxcsr(unsigned value) { _mm_setcsr(value); }
"""


def setUpModule():
    if numpy is None:
        raise unittest.SkipTest('numpy is not installed for %s' % sys.executable)
    make_library()


def compiled(folder, *sources):
    """A shared library of C sources."""
    out = os.path.join(folder, 'made.so')
    made = subprocess.run(['cc', '-std=gnu99', '-O2', '-ffp-contract=off', '-shared', '-fPIC', '-o', out, *sources, '-lm'], capture_output=True, text=True)
    assert made.returncode == 0, made.stderr
    return ctypes.CDLL(out)


def between(low, high):
    """The double in the middle of the doubles between two positive ones."""
    a, b = (struct.unpack('<q', struct.pack('<d', value))[0] for value in (low, high))
    return struct.unpack('<d', struct.pack('<q', (a + b) // 2))[0]


def border(call, low, high):
    """Two neighbouring doubles at which a call gives different answers; it must give different ones at the ends."""
    first = call(low)
    assert first != call(high)
    while between(low, high) not in (low, high):
        middle = between(low, high)
        low, high = (middle, high) if call(middle) == first else (low, middle)
    return low, high


SKEW = [(0.01, 0.02), (1.03, 0.07), (1.11, 0.93), (-0.05, 1.02)]
# a triangle, two quads and a triangle in a row, which a walk closes to three quads
ROW = [(0.02, 0.5), (0.9, 0.04), (2.03, -0.02), (3.1, 0.07), (4.1, 0.45), (3.05, 0.97), (1.96, 1.05), (1.02, 1.01)]
# a hexagon that is cut into two poor quads, and can be cut into two good ones
HEXAGON = [(0.01, 0.02), (1.03, -0.52), (2.02, 0.01), (2.04, 1.03), (1.01, 1.49), (-0.03, 1.02)]

# two quads, of which the first is poor under 0.95; two triangles can take its place
PAIR = [(0.01, 0.02), (1.03, 0.01), (1.31, 1.02), (0.22, 0.93), (2.02, -0.01), (2.03, 1.01)]


def scaled(points, scale):
    return [(x * scale, y * scale) for x, y in points]


def steps(scale):
    """{name: (a step of one number, two numbers between which its answer changes, the cover's points)}; the answer is the cells."""
    at = lambda points: scaled(points, scale)
    pair = finishing.cover_of(at(SKEW), [(0, 1, 2), (0, 2, 3)])
    row = finishing.cover_of(at(ROW), [(0, 1, 7), (3, 4, 5)], [(1, 2, 6, 7), (2, 3, 5, 6)])
    poor = finishing.cover_of(at(HEXAGON), [], [(0, 1, 2, 3), (3, 4, 5, 0)])
    thin = finishing.cover_of(at([(0.0, 0.0), (1.0, 0.03), (0.5, 0.31), (1.2, 1.1), (-0.1, 1.2)]), [(0, 1, 2)], [(2, 1, 3, 4)])
    split = finishing.cover_of(at(PAIR), [], [(0, 1, 2, 3), (1, 4, 5, 2)])
    kite = lambda y: finishing.cover_of(at([(0.01, 0.02), (1.01, 0.51), (0.02, y), (-0.97, 0.47)]), [(0, 1, 2), (0, 2, 3)])
    cells = lambda found: found[0].cells.tolist()
    return {'pair': (lambda least: cells(finishing.pair(pair, least)), 0.3, 1.0),
            'take_in': (lambda least: cells(finishing.take_in(pair, [(0, 1, 2, 3)], least)), 0.3, 1.0),
            'walk': (lambda least: cells(finishing.walk(row, least)), 0.3, 1.0),
            'improve': (lambda least: cells(finishing.improve(poor, least)), 0.8, 0.99),
            'mend': (lambda price: cells(finishing.mend(split, 0.3, 0.95, price=price)), 0.45, 0.55),
            'take_back': (lambda sine: cells(native.call('take_back', thin, 0.0, ctypes.c_double(sine), ctypes.c_size_t(6))), 0.01, 1.0),
            'swap': (lambda y: cells(finishing.swap(kite(y))), 0.2, 3.0)}


class Modes(unittest.TestCase):
    @classmethod
    def setUpClass(cls):
        cls.folder = tempfile.mkdtemp()
        with open(os.path.join(cls.folder, 'control.c'), 'w') as file:
            file.write(CONTROL)
        cls.control = compiled(cls.folder, os.path.join(cls.folder, 'control.c'))

    @classmethod
    def tearDownClass(cls):
        shutil.rmtree(cls.folder)

    def under(self, mode, call, number):
        """The call's answer under a mode, which it leaves as it is."""
        self.control.set_mxcsr(mode)
        try:
            found = call(number)
            after = self.control.get_mxcsr()
        finally:
            self.control.set_mxcsr(USUAL)
        self.assertEqual(after & ~FLAGS, mode & ~FLAGS)
        return found

    def test_rounding(self):
        """At the two neighbouring numbers between which a step's answer changes, where one rounding decides, the answer is the usual one under every mode."""
        for name, (call, low, high) in steps(1.0).items():
            for number in border(call, low, high):
                for mode, value in MODES.items():
                    with self.subTest(step=name, mode=mode):
                        self.assertEqual(self.under(value, call, number), call(number))

    def test_subnormal_numbers(self):
        """So small that areas' squares are subnormal numbers: a step does what it does, whether the caller flushes them or not."""
        for name, (call, low, high) in steps(SMALL).items():
            self.assertNotEqual(call(low), call(high), name)
            for number in (low, high):
                for mode in ('FTZ and DAZ', 'down, FTZ and DAZ'):
                    with self.subTest(step=name, mode=mode):
                        self.assertEqual(self.under(MODES[mode], call, number), call(number))

    def test_refused(self):
        """What a step refuses leaves the mode too."""
        wrong = finishing.cover_of(SKEW, [(0, 1, 2), (0, 1, 3)])

        def call(_):
            with self.assertRaises(finishing.Overlaps):
                finishing.pair(wrong, 0.3)
        for mode in MODES.values():
            self.under(mode, call, 0)


def turn(points, a, b, c):
    (ax, ay), (bx, by), (cx, cy) = points[a], points[b], points[c]
    return (bx - ax) * (cy - ay) - (by - ay) * (cx - ax)


def sine(points, a, b, c):
    """At b."""
    return turn(points, a, b, c) / math.dist(points[a], points[b]) / math.dist(points[b], points[c])


class Flips(unittest.TestCase):
    def fan(self, count, seed):
        """Points around a middle, and the triangles between them: a polygon about one node."""
        chance = random.Random(seed)
        ring = [(chance.uniform(0.6, 1.4) * math.cos(2 * math.pi * i / count), chance.uniform(0.6, 1.4) * math.sin(2 * math.pi * i / count)) for i in range(count)]
        return [(0.0, 0.0)] + ring, [(0, i + 1, (i + 1) % count + 1) for i in range(count)]

    def swept(self, seed):
        """A square of random points, triangulated by adding one point after the other: triangles of every shape."""
        chance = random.Random(seed)
        points, triangles = [(0.0, 0.0), (1.0, 0.0), (1.0, 1.0), (0.0, 1.0)], [(0, 1, 2), (0, 2, 3)]
        while len(points) < 14:
            points.append((chance.uniform(0.05, 0.95), chance.uniform(0.05, 0.95)))
            new = len(points) - 1
            home = next((t for t in triangles if min(turn(points, t[i], t[(i + 1) % 3], new) for i in range(3)) > 1e-3), None)
            if home is None:
                points.pop()
                continue
            triangles.remove(home)
            triangles += [(home[i], home[(i + 1) % 3], new) for i in range(3)]
        return points, triangles

    def wanted(self, points):
        """Quads of the points that are convex, good and have no other point in or near them: flips bring in the sides of each."""
        found = []
        for quad in itertools.permutations(range(len(points)), 4):
            if quad[0] != min(quad) or min(sine(points, quad[i - 1], quad[i], quad[(i + 1) % 4]) for i in range(4)) < 0.5:
                continue
            near = lambda p: min(turn(points, quad[i], quad[(i + 1) % 4], p) for i in range(4)) > -1e-3
            if not any(near(p) for p in range(len(points)) if p not in quad):
                found.append(quad)
        return found

    def test_every_empty_quad_is_taken_in(self):
        """Each by itself, from triangles that cross it in every way, a few of which a side crosses more than once on its way in."""
        crossed = 0
        for seed in range(6):
            points, triangles = self.swept(seed)
            edges = {frozenset((t[i], t[(i + 1) % 3])) for t in triangles for i in range(3)}
            for quad in self.wanted(points):
                cover, done = finishing.take_in(finishing.cover_of(points, triangles), [quad], 0.3)
                crossed += sum(frozenset((quad[i - 1], quad[i])) not in edges for i in range(4))
                self.assertEqual((done, sorted(cover.quads()[0].tolist()) if done else None), (1, sorted(quad)), (seed, quad))
                self.assertEqual(faults(points, triangles, cover.quads(), cover.triangles()), [])
        self.assertGreater(crossed, 100)


class Walks(unittest.TestCase):
    def strip(self, tip):
        """Three rectangles of 1 by 0.25 between two triangles, the tips of which stick out so far; the strip's triangles have angles of at most 14.04 degrees."""
        points = [(float(x), y) for y in (0.0, 0.25) for x in range(4)] + [(-tip, 0.125), (3 + tip, 0.125)]
        return points, [(8, 0, 4), (3, 9, 7)], [(i, i + 1, i + 5, i + 4) for i in range(3)]

    def test_no_thin_triangle_on_the_way(self):
        """Triangles of 45 degrees and more would have to be thinner than 20 on their way to each other: they stay, where the quads on the way would pass."""
        points, triangles, quads = self.strip(0.125)
        cover, done = finishing.walk(finishing.cover_of(points, triangles, quads, largest_cosine=0.99), 0.1)
        self.assertEqual((done, len(cover.triangles()), len(cover.quads())), (0, 2, 3))

    def test_a_thin_one_may_stay_as_thin(self):
        """A triangle of 12.3 degrees may be as thin on its way, and no thinner."""
        points, triangles, quads = self.strip(0.125 / math.tan(math.radians(12.3) / 2))
        cover, done = finishing.walk(finishing.cover_of(points, triangles, quads, largest_cosine=0.99), 0.1)
        self.assertEqual((done, len(cover.triangles()), len(cover.quads())), (1, 0, 4))
        given = triangles + [cell for a, b, c, d in quads for cell in ((a, b, c), (a, c, d))]
        self.assertEqual(faults(points, given, cover.quads(), cover.triangles(), cosine=0.99, jacobian=0.1), [])


class Squares(ctypes.Structure):
    """squares of c/finishing/nearest.h."""
    _fields_ = [('places', ctypes.c_void_p), ('count', ctypes.c_size_t), ('columns', ctypes.c_size_t), ('rows', ctypes.c_size_t), ('low', ctypes.c_double * 2), ('size', ctypes.c_double),
                ('first', ctypes.c_void_p), ('order', ctypes.c_void_p)]


class Nearest(unittest.TestCase):
    def setUp(self):
        self.folder = tempfile.mkdtemp()
        self.addCleanup(shutil.rmtree, self.folder)
        self.made = compiled(self.folder, os.path.join(C, 'nearest.c'))
        self.made.finishing_nearest.restype = ctypes.c_uint32
        self.made.finishing_nearest.argtypes = [ctypes.c_void_p, ctypes.c_uint32, ctypes.c_char_p]
        self.made.finishing_squares.argtypes = [ctypes.c_void_p, ctypes.c_void_p, ctypes.c_size_t]

    def compare(self, places, gone):
        """Each place's nearest, of those at one distance the first, as a look at all places has it."""
        held = numpy.ascontiguousarray(places, dtype=float).reshape(-1, 2)
        squares, flags = Squares(), bytes(bytearray(gone)) + b'\0'
        self.assertEqual(self.made.finishing_squares(ctypes.byref(squares), held.ctypes.data, len(held)), 1)
        for which in range(len(held)):
            others = [i for i in range(len(held)) if i != which and not gone[i]]
            want = min(others, key=lambda i: (math.sqrt((held[i, 0] - held[which, 0]) ** 2 + (held[i, 1] - held[which, 1]) ** 2), i), default=0xffffffff)
            self.assertEqual(self.made.finishing_nearest(ctypes.byref(squares), which, flags), want, (which, held.tolist()))
        self.made.finishing_squares_free(ctypes.byref(squares))

    def test_against_all(self):
        chance = random.Random(5)
        for run in range(120):
            count = chance.choice((1, 2, 3, 7, 30, 120))
            wide, tall = chance.choice(((1, 1), (100, 1), (1, 40), (1, 0), (0, 1), (0, 0)))
            places = [(wide * chance.random(), tall * chance.random()) for _ in range(count)]
            self.compare(places, [chance.random() < chance.choice((0.0, 0.5, 0.95)) for _ in range(count)])

    def test_equal_distances(self):
        """On a grid many are as near; the first is taken."""
        places = [(x, y) for y in range(7) for x in range(9)]
        random.Random(1).shuffle(places)
        self.compare(places, [0] * len(places))
        self.compare(places, [i % 3 != 0 for i in range(len(places))])

    def test_clusters(self):
        """Two heaps far apart, so that squares between them are empty, and one in the middle alone."""
        chance = random.Random(2)
        places = [(0.01 * chance.random() + x, 0.01 * chance.random() + y) for x, y in ((0, 0), (9, 5)) for _ in range(40)] + [(4.0, 2.0)]
        self.compare(places, [0] * len(places))
        self.compare(places, [i not in (3, 80) for i in range(len(places))])


if __name__ == '__main__':
    unittest.main()
