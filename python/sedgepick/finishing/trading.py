"""Poor quads traded for a few leftover triangles, where that brings the poor under what is asked."""
import math
import numpy
from .closing import MOST_SHARE, MOST_TRIANGLES, count_poor, count_triangles, has_few_poor
from .covers import NONE
from .mending import POOR, mend
from .walks import REACHES, walk
from .wandering import wander

OPEN_PRICE = 0.45       # of a triangle, in poor quads: two cost less than one poor quad
OPEN_PATCH = 12, 200    # nodes, tries: of the patches in which poor quads become triangles
CLOSED_PATCH = 16, 400  # of those that are mended after walks
DEAREST = 12            # quads that a walk may make poor
FREE = 0.5              # poor quads a walk, at least, before those that cost nothing: at best one in two does
ROUNDS = 3
NEAR = 2                # poor quads too many, for which another round is worth its time


def trade(cover, least_jacobian, poor=POOR, most_share=MOST_SHARE):
    """(cover, by how many fewer quads are poor): poor quads become triangles, and triangles walk together again, the cheapest pairs first, as long as few quads are poor.

    In a second round the triangles that found no other come first, so that pairs which stood in their way are made anew.
    What comes of it is taken where few quads are poor and few cells are triangles; otherwise, and where that was so before, the cover is as it came."""
    made, rounds = cover, 0 if is_enough(cover, poor, most_share) else ROUNDS
    for _ in range(rounds):
        made = mended(leftovers_first(made), least_jacobian, poor, OPEN_PRICE, OPEN_PATCH)
        made, over = walk_together(made, least_jacobian, poor, most_share)
        if is_enough(made, poor, most_share):
            return made, count_poor(cover, poor) - count_poor(made, poor)
        if over > NEAR:
            break
    return cover, 0


def walk_together(cover, least_jacobian, poor, most_share):
    """(cover, by how many too many quads would be poor): triangles walk to each other where that makes no quad poor, then where it makes one poor, then two, and so on.

    It ends where no walk more leaves few quads poor, and where those that are still missing cannot."""
    for price in range(DEAREST + 1):
        room = most_share * (len(cover.cells) - count_triangles(cover)) - count_poor(cover, poor)
        missing = max(0, count_triangles(cover) - most_triangles(cover)) // 2
        most = math.ceil(room / price) - 1 if price else count_triangles(cover) // 2
        if missing * max(price, FREE) >= room or most < 1:
            return cover, missing * max(price, FREE) - room
        cover, done = walk(cover, least_jacobian, (REACHES[0], REACHES[-2]), poor, price, most)
        if done:
            cover = mended(cover, least_jacobian, poor, max(OPEN_PRICE, (price + 0.5) / 2), CLOSED_PATCH)
    return cover, 0


def mended(cover, least_jacobian, poor, price, patch):
    """The cover with its patches mended, and again after triangles have wandered."""
    cover = mend(cover, least_jacobian, poor, *patch, price)[0]
    if count_poor(cover, poor):
        cover, done = wander(cover, least_jacobian, poor)
        if done:
            cover = mend(cover, least_jacobian, poor, *patch, price)[0]
    return cover


def leftovers_first(cover):
    """The same cover with its triangles before its quads: walks begin with the first."""
    order = numpy.argsort(cover.cells[:, 3] != NONE, kind='stable')
    return cover.with_cells(cover.cells[order], cover.groups[order])


def most_triangles(cover):
    """How many triangles are few: one in a hundred of the cells, or one where their number is odd."""
    given = 2 * len(cover.cells) - count_triangles(cover)
    most = int(MOST_TRIANGLES * given / (2 - MOST_TRIANGLES))
    return max(most - (most - given) % 2, given % 2)


def is_enough(cover, poor, most_share):
    return has_few_poor(cover, poor, most_share) and count_triangles(cover) <= most_triangles(cover)
