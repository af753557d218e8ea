"""Checks and changes of a mesh on its way to the program: unused nodes, the plane, scale and shift."""
import math
from dataclasses import replace
from fractions import Fraction
from mesh.metrics import clockwise
from mesh.texts import FAR

# an axis is shifted only where that lets the scale be more than this many times larger; then no shift rounds
SHIFT_GAIN = 4


def plain(value):
    return '%d' % value if value == int(value) else repr(value)


class Map:
    """x -> x * scale + dx, y -> y * scale + dy, z -> z * scale."""

    def __init__(self, scale=1.0, dx=0.0, dy=0.0):
        self.scale = scale
        self.shift = (dx, dy, 0.0)

    def there(self, point):
        return tuple(value * self.scale + d if d else value * self.scale for value, d in zip(point, self.shift))

    def back(self, point):
        return tuple((value - d if d else value) / self.scale for value, d in zip(point, self.shift))

    def options(self):
        words = ['--scale', plain(self.scale)] + ['--shift', plain(self.shift[0]), plain(self.shift[1])] * any(self.shift)
        return ' '.join(words)

    def rounded(self, before, after):
        """How many coordinates the map did not take over exactly."""
        exact = [Fraction(x) * Fraction(self.scale) + Fraction(d) for p in before for x, d in zip(p, self.shift)]
        return sum(value != Fraction(x) for value, x in zip(exact, (x for p in after for x in p)))


def without_unused(mesh):
    """The mesh without the nodes that no triangle has, the others renumbered in their order."""
    used = sorted({node for cell in mesh.triangles for node in cell})
    places = {node: i for i, node in enumerate(used)}
    pick = lambda values: [values[node] for node in used]
    triangles = [tuple(places[node] for node in cell) for cell in mesh.triangles]
    return replace(mesh, points=pick(mesh.points), names=pick(mesh.names), point_lines=pick(mesh.point_lines), triangles=triangles)


def check_triangles(mesh):
    for cell, line in zip(mesh.triangles, mesh.triangle_lines):
        for node in cell:
            if cell.count(node) > 1:
                mesh.source.fail(line, 'node %s stands twice in a triangle' % mesh.names[node])


def check_plane(mesh):
    """z is the same everywhere."""
    for point, line in zip(mesh.points, mesh.point_lines):
        if point[2] != mesh.points[0][2]:
            mesh.source.fail(line, 'not plane: z is %r here and %r at line %d (--flatten sets every z to 0)'
                             % (point[2], mesh.points[0][2], mesh.point_lines[0]))


def flat(mesh):
    return replace(mesh, points=[(x, y, 0.0) for x, y, _ in mesh.points])


def power_within(value, bound):
    """The largest power of two, at most 1, that takes the value within the bound."""
    scale = 1.0
    while value * scale > bound:
        scale /= 2
    return scale


def fit(mesh):
    """A map into [-8, 8]: a power of two and, where an axis lies far from zero, a whole number."""
    axes = [[point[axis] for point in mesh.points] for axis in (0, 1)] if mesh.points else [[0.0], [0.0]]
    scales = []
    for values in axes:
        plain = power_within(max(map(abs, values)), FAR)
        shifted = power_within(max(values) / 2 - min(values) / 2, FAR - 0.5)  # a whole number is within 1/2 of the middle
        scales.append(plain if plain * SHIFT_GAIN >= shifted else shifted)
    scale = min(scales)
    return Map(scale, *(shift_of(values, scale) for values in axes))


def shift_of(values, scale):
    if max(map(abs, values)) * scale <= FAR:
        return 0.0
    return -float(math.floor((max(values) / 2 + min(values) / 2) * scale + 0.5))


def moved(mesh, map):
    return replace(mesh, points=[map.there(point) for point in mesh.points])


def check_finite(mesh):
    for i, point in enumerate(mesh.points):
        for name, value in zip('xyz', point):
            if not math.isfinite(value):
                hint = ' (--flatten sets every z to 0)' if name == 'z' else ''
                mesh.source.fail(mesh.point_lines[i], '%s of point %s is %r%s' % (name, mesh.names[i], value, hint))


def check_range(mesh, map):
    """x and y are within 8; the message says by how much to scale."""
    largest = max((abs(value) for point in mesh.points for value in point[:2]), default=0.0)
    for i, point in enumerate(mesh.points):
        for name, value in zip('xy', point):
            if abs(value) > FAR:
                factor = power_within(largest / map.scale, FAR)
                mesh.source.fail(mesh.point_lines[i], '%s of node %s is %r%s, beyond 8 in magnitude, and the largest is %r: give --scale %s or --fit'
                                 % (name, mesh.names[i], value, ' as scaled' if map.scale != 1.0 else '', largest, plain(factor)))


def remarks(mesh):
    """What the program takes, but the mesh's maker may not have meant."""
    found = []
    turned = len(clockwise(mesh))
    if turned:
        found.append('%d of %d triangles are clockwise' % (turned, len(mesh.triangles)))
    repeats = len(mesh.triangles) - len({tuple(sorted(cell)) for cell in mesh.triangles})
    if repeats:
        found.append('%d triangles repeat others' % repeats)
    if mesh.points and mesh.points[0][2] != 0.0:
        found.append('z is %r; points that the run adds have z 0' % mesh.points[0][2])
    return found
