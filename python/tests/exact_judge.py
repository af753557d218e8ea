"""An exact judge of a mesh by Python's fractions, which knows nothing of how it was made: for tests of the finishing pass by itself."""
from collections import Counter
from fractions import Fraction

SLACK = Fraction(1, 10 ** 9)  # of a cosine


def sides(cell):
    return zip(cell, cell[1:] + cell[:1])


def bare(cells):
    """Directed sides less those that run the other way."""
    found = Counter(side for cell in cells for side in sides(tuple(map(int, cell))))
    return {(a, b): n - found[b, a] for (a, b), n in found.items() if n > found[b, a]}


def corners(points, cell):
    """(cross, dot, product of the squared lengths) of each corner."""
    exact = [tuple(Fraction(float(value)) for value in points[node][:2]) for node in cell]
    for i, (ox, oy) in enumerate(exact):
        (px, py), (qx, qy) = exact[i - 1], exact[(i + 1) % len(exact)]
        ux, uy, vx, vy = qx - ox, qy - oy, px - ox, py - oy
        yield ux * vy - uy * vx, ux * vx + uy * vy, (ux * ux + uy * uy) * (vx * vx + vy * vy)


def faults(points, triangles, quads, left, joints=(), cosine=0.90630778703665, jacobian=0.3):
    """What is wrong, in words: an empty list is an accepted mesh."""
    found, limit = [], (Fraction(cosine) + SLACK) ** 2
    quads, left = [tuple(map(int, cell)) for cell in quads], [tuple(map(int, cell)) for cell in left]
    for cell in quads + left:
        for cross, dot, lengths in corners(points, cell):
            if cross <= 0:
                found.append('%s does not turn left' % (cell,))
            elif len(cell) == 4 and (dot > 0 and dot * dot > limit * lengths or cross * cross < Fraction(jacobian) ** 2 * lengths):
                found.append('%s has too sharp a corner' % (cell,))
    if bare(quads + left) != bare(triangles):
        found.append('the sides do not balance')
    made = {frozenset(side) for cell in quads + left for side in sides(cell)}
    found += ['the joint %d %d is lost' % (a, b) for a, b in joints if frozenset((a, b)) not in made]
    return found
