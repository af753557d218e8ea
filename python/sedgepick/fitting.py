"""Into the library's range and back: x and y times a power of two, and where the mesh lies far from
zero, plus a whole number; in the grid profile plus whole steps of its grid."""
from __future__ import annotations
from dataclasses import dataclass
import numpy
from .front import FAR, GRID_LINES
from .surfaces import Fault

# an axis is shifted only where that lets the scale be more than this many times larger; then no
# shift rounds
SHIFT_GAIN = 4


@dataclass
class Fit:
    """How a mesh is taken into the library's range: times a power of two, then moved."""
    scale: float
    shift: tuple[float, ...]

    def there(self, points):
        return points[:, :2] * self.scale + numpy.array(self.shift)

    def back(self, points):
        return (points[:, :2] - numpy.array(self.shift)) / self.scale

    def rounded(self, points):
        """How many coordinates do not come back bit for bit, and so were rounded on their way."""
        return int((self.back(self.there(points)) != points[:, :2]).sum())

    def rounded_back(self, points):
        """How many coordinates of added points are rounded on their way back."""
        return int((self.there(self.back(points)) != points[:, :2]).sum())


def power_within(value, bound):
    """The largest power of two that takes the value within the bound; 1 for 0."""
    if not value > 0:
        return 1.0
    power = 2.0 ** numpy.floor(numpy.log2(bound / value))
    while value * power > bound:
        power /= 2
    while value * power * 2 <= bound:
        power *= 2
    return float(power)


def fit(points):
    """The fit of a mesh: its largest coordinate comes to lie between 4 and 8."""
    low, high = points[:, :2].min(axis=0), points[:, :2].max(axis=0)
    scales = []
    for a, b in zip(low, high):
        plain = power_within(max(abs(a), abs(b)), FAR)
        # a whole number is within 1/2 of the middle
        shifted = power_within(b / 2 - a / 2, FAR - 0.5)
        scales.append(plain if plain * SHIFT_GAIN >= shifted or b == a else shifted)
    scale = min(scales)
    return Fit(scale, tuple(shift(a, b, scale) for a, b in zip(low, high)))


def shift(low, high, scale):
    if max(abs(low), abs(high)) * scale <= FAR:
        return 0.0
    return -float(numpy.floor((high / 2 + low / 2) * scale + 0.5))


def grid_fit(points, numbers):
    """The fit of a mesh whose points lie on the grid, with the finest grid that its extent lets it
    have; a Fault where one does not. `numbers` are the nodes' numbers in the file, from 0."""
    low, high = points[:, :2].min(axis=0), points[:, :2].max(axis=0)
    step = 1.0 / GRID_LINES
    plain = power_within(max(abs(low).max(), abs(high).max()), FAR)
    shifted = power_within((high / 2 - low / 2).max(), FAR - step)
    scale = max(plain, shifted)
    check_grid(points, numbers, GRID_LINES * scale)
    shifts = [
        0.0 if plain == scale else -step * float(
            numpy.floor((b / 2 + a / 2) * scale * GRID_LINES + 0.5)
        )
        for a, b in zip(low, high)
    ]
    return Fit(scale, tuple(shifts))


def check_grid(points, numbers, lines):
    """Every x and y is a multiple of the step; there are so many to a unit."""
    units = points[:, :2] * lines
    off = numpy.flatnonzero((units != numpy.floor(units)).any(axis=1))
    if not len(off):
        return
    place = off[0]
    axis = int(units[place, 0] == numpy.floor(units[place, 0]))
    below = float(numpy.floor(units[place, axis])) / lines
    raise Fault(
        '--grid: node %d at (%.17g, %.17g) is off the grid (%d such): %s is no multiple of %.17g, '
        'the finest grid for a mesh of this extent in the units of the file; it lies between %.17g '
        'and %.17g. Draw it on the grid (whole millimetres, up to 16 m across, are on one), or '
        'leave --grid out'
        % (
            numbers[place] + 1, *points[place, :2], len(off), 'xy'[axis], 1 / lines, below,
            below + 1 / lines,
        )
    )
