"""The axes of the pictures: ticks, their labels in the file's units, and the room that the labels
take."""
import math
from dataclasses import dataclass

NEAR = 70     # pixels between two ticks at least
LETTER = 8.3  # the width of a digit of 13 points
APART = 12    # pixels between two labels at least
LEAST = 61    # the room at the left for labels that are short


@dataclass
class Axes:
    step: float    # between two ticks
    scale: float   # the length that the legend's scale shows
    left: float    # room for the labels of the y-axis
    right: float   # room for half a label of the x-axis


def round_step(value):
    """The least of 1, 2 and 5 times a power of ten that is not below the value."""
    power = 10.0 ** math.floor(math.log10(value))
    return next(power * factor for factor in (1, 2, 5, 10) if power * factor >= value * (1 - 1e-9))


def ticks(low, high, step):
    return [
        i * step for i in range(math.ceil(low / step - 1e-9), math.floor(high / step + 1e-9) + 1)
    ]


def label(value, step):
    """A tick's value with as many digits as tell it from the next tick."""
    if 1e-5 <= step < 1e6:
        return '%.*f' % (max(0, -math.floor(math.log10(step) + 1e-9)), value)
    return '%.*g' % (max(1, math.ceil(math.log10(max(abs(value), step) / step) + 1e-9) + 1), value)


def width(labels):
    """Of the widest."""
    return LETTER * max(map(len, labels), default=0)


def labels(windows, axis, step):
    return [
        label(tick, step) for piece in windows
        for tick in ticks(piece.low[axis], piece.high[axis], step)
    ]


def axes_of(windows, right):
    """The axes of windows at one scale: ticks so far apart that their labels are, too."""
    scale = windows[0].scale
    least = step = round_step(max(NEAR / scale, 1e-300))
    while width(labels(windows, 0, step)) + APART > step * scale:
        step = round_step((width(labels(windows, 0, step)) + APART) / scale)
    return Axes(
        step, least, max(LEAST, width(labels(windows, 1, step)) + 2),
        max(right, width(labels(windows, 0, step)) / 2 + 4),
    )
