"""Leftover triangles closed at the price of poor quads, unless that makes too many quads poor."""
import numpy
from .covers import NONE
from .mending import POOR, mend
from .walks import REACHES, walk

MOST_SHARE = 0.015          # fewer of the quads than this share may be poor
MOST_TRIANGLES = 0.01       # of the cells
ANY = 1 << 30
PRICES = 3, 4, 5, 6, 8, 12  # quads that a walk may make poor, one round after the other, where all walks together would make too many


def close(cover, least_jacobian, poor=POOR, most_share=MOST_SHARE):
    """(cover, how many quads): leftover triangles walk on to each other, whatever quads they make poor.

    Where that leaves too many quads poor, and the cover as it came does not, the cheapest walks come first, and the round that would leave too many is taken back.
    So triangles stay for the sake of fewer poor quads only where few quads are poor and few cells are triangles with them, and too many quads are poor without."""
    before = count_triangles(cover)
    if before < 2:
        return cover, 0
    fewest = walk_on(cover, least_jacobian, poor, ANY)
    if not has_few_poor(fewest, poor, most_share) and has_few_poor(cover, poor, most_share):
        for most_poor in PRICES:
            made = walk_on(cover, least_jacobian, poor, most_poor)
            if not has_few_poor(made, poor, most_share):
                break
            cover = made
        if count_triangles(cover) <= MOST_TRIANGLES * len(cover.cells):
            fewest = cover
    return fewest, (before - count_triangles(fewest)) // 2


def walk_on(cover, least_jacobian, poor, most_poor):
    """The cover after walks that may each make so many quads poor, mended where that leaves no triangle more."""
    cover, done = walk(cover, least_jacobian, (REACHES[0], REACHES[-1]), poor, most_poor)
    mended = mend(cover, least_jacobian, poor)[0] if done else cover
    return mended if count_triangles(mended) <= count_triangles(cover) else cover


def has_few_poor(cover, poor, most_share):
    return count_poor(cover, poor) < most_share * (len(cover.cells) - count_triangles(cover))


def count_triangles(cover):
    return int((cover.cells[:, 3] == NONE).sum())


def count_poor(cover, poor=POOR):
    """The quads with a scaled Jacobian under the limit, in the arithmetic of c/finishing/measure.c, so that both count the same."""
    places, least = cover.points[cover.quads()], numpy.inf
    for i in range(4):
        u, v = places[:, (i + 1) % 4] - places[:, i], places[:, i - 1] - places[:, i]
        lengths = numpy.sqrt((u[:, 0] * u[:, 0] + u[:, 1] * u[:, 1]) * (v[:, 0] * v[:, 0] + v[:, 1] * v[:, 1]))
        least = numpy.minimum(least, (u[:, 0] * v[:, 1] - u[:, 1] * v[:, 0]) / lengths)
    return int((least < poor).sum())
