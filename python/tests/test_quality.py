"""Tests of what is measured of cells: the components of pairs."""
import random, sys, unittest
from common import grid

try:
    import numpy
    from sedgepick import quality
except ImportError:
    numpy = None


def setUpModule():
    if numpy is None:
        raise unittest.SkipTest('numpy is not installed for %s' % sys.executable)


def labels(count, pairs):
    """The labels by a walk from each thing in turn."""
    near, found = {i: [] for i in range(count)}, [None] * count
    for a, b in pairs:
        near[a].append(b)
        near[b].append(a)
    for begin in range(count):
        waiting = [begin] if found[begin] is None else []
        while waiting:
            thing = waiting.pop()
            if found[thing] is None:
                found[thing] = begin
                waiting += near[thing]
    order = sorted(set(found))
    return [order.index(first) for first in found]


class Joined(unittest.TestCase):
    def check(self, count, pairs):
        a, b = numpy.array(pairs, dtype=numpy.int64).reshape(-1, 2).T
        self.assertEqual(quality.joined(count, a, b).tolist(), labels(count, pairs))

    def test_few(self):
        for count, pairs in ((0, []), (3, []), (1, [(0, 0)]), (4, [(3, 1)]), (4, [(1, 3), (3, 1), (2, 2)]), (6, [(5, 4), (4, 3), (0, 2), (2, 1)])):
            self.check(count, pairs)

    def test_chance(self):
        for seed in range(40):
            chance = random.Random(seed)
            count = chance.randrange(1, 60)
            self.check(count, [(chance.randrange(count), chance.randrange(count)) for _ in range(chance.randrange(2 * count))])

    def test_ways_and_stars(self):
        """A way in every order, and stars whose middle is the first, the last or in between."""
        for seed in range(10):
            order = random.Random(seed).sample(range(200), 200)
            self.check(200, list(zip(order, order[1:])))
        for middle in (0, 77, 199):
            self.check(200, [(middle, other) for other in range(200) if other != middle])

    def test_few_rounds(self):
        """A way of 4,096 in an order of chance, by the calls that are made: where labels go a few steps a round they are over 5,000."""
        order, calls = numpy.array(random.Random(1).sample(range(4096), 4096)), []
        sys.setprofile(lambda frame, event, what: calls.append(event) if event == 'c_call' else None)
        try:
            found = quality.joined(4096, order[1:], order[:-1])
        finally:
            sys.setprofile(None)
        self.assertFalse(found.any())
        self.assertLess(len(calls), 1000)

    def test_components(self):
        points, triangles = grid(3, 1)
        self.assertEqual(quality.components(numpy.array(triangles)).tolist(), [0] * 6)
        self.assertEqual(quality.components(numpy.array(triangles)[[0, 1, 4, 5]]).tolist(), [0, 0, 1, 1])


if __name__ == '__main__':
    unittest.main()
