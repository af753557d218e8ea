"""A mesh as SVG: quads filled by their scaled Jacobian or by their round, leftover triangles, front edges, added points and points of no cell, a legend."""
import math, os, sys
from dataclasses import dataclass
from xml.sax.saxutils import escape
from mesh.metrics import front_edges, min_scaled_jacobian
sys.path.append(os.path.join(os.path.dirname(os.path.abspath(__file__)), '..', '..', 'python'))
from sedgepick.axes import label, round_step, ticks

# the lightness rises with the value: classes of a tenth, from 0.3, the least that a run takes, to 1
LEAST = 0.3
CLASSES = ['#254f9c', '#2176b4', '#2f9ec2', '#5bbfc0', '#97d6b9', '#d3edb3', '#ffffd9']
BELOW = '#c51b7d'
# rounds: the later the lighter
ROUNDS = ['#472d7b', '#3b528b', '#2c728e', '#21918c', '#28ae80', '#5ec962', '#addc30', '#fde725']
DARK = 4          # of them take white numbers
NUMBERED = 150    # quads at most that have their round written into them
TRIANGLE = '#d9d9d9'
EDGE = '#333333'
FRONT = '#d55e00'
INK = '#1a1a1a'
GREY = '#666666'

PLOT = 720        # the longer side of the frame
SHORT = 150       # the least of the shorter one
LEFT, TOP, BOTTOM, RIGHT = 64, 76, 52, 24  # at the left at least
DIGIT = 9         # the width of a digit of 14 points
APART = 14        # between two labels at least
LEGEND = 220      # its width
ROW = 24
PAD = 0.04        # of the longer side, between frame and mesh
SMALL = 1e-300    # an extent that is drawn as a point
FAR = 1e300       # a coordinate that is not drawn


def number(value):
    """A coordinate of the picture."""
    return ('%.2f' % value).rstrip('0').rstrip('.')


def colour(jacobian):
    if not LEAST <= jacobian < math.inf:
        return BELOW
    return CLASSES[min(int((jacobian - LEAST) * 10 + 1e-9), len(CLASSES) - 1)]


@dataclass
class Shades:
    """How the quads are filled: by what, the fill and the words of each, what is written into each, the legend's rows (label, fill, count) and a line below."""
    title: str
    fills: list
    words: list
    numbers: list
    rows: list
    foot: str


def by_jacobian(mesh):
    jacobians = [min_scaled_jacobian([mesh.points[node] for node in quad]) for quad in mesh.quads]
    words = ['scaled Jacobian %.4f' % jacobian for jacobian in jacobians]
    fills = [colour(jacobian) for jacobian in jacobians]
    return Shades('Quads by scaled Jacobian', fills, words, [], classes(fills), 'least %.4f' % min(jacobians) if jacobians else 'no quad')


def by_round(mesh):
    """Bands of rounds, as many in each as can be."""
    rounds, last = [birth.round for birth in mesh.births], max((birth.round for birth in mesh.births), default=0)
    bands = min(last, len(ROUNDS))
    band = lambda round: (round - 1) * bands // last
    shade = lambda i: ROUNDS[i * (len(ROUNDS) - 1) // max(bands - 1, 1)]
    words = ['round %d, grown from %d %d, in place of %s' % (birth.round, *birth.edge, counted(birth.replaced, 'triangle')) for birth in mesh.births]
    rows = []
    for i in range(bands):
        own = [round for round in range(1, last + 1) if band(round) == i]
        label = '%d to %d' % (own[0], own[-1]) if len(own) > 1 else '%d' % own[0]
        rows.append((label, shade(i), sum(band(round) == i for round in rounds)))
    replaced = sum(birth.replaced for birth in mesh.births)
    return Shades('Quads by round', [shade(band(round)) for round in rounds], words, rounds if len(rounds) <= NUMBERED else [], rows,
                  'in place of %s' % counted(replaced, 'triangle') if rounds else 'no quad')


BY = {'jacobian': by_jacobian, 'round': by_round}


class Frame:
    """The box of the mesh in the picture, with one scale for both axes."""

    def __init__(self, points):
        xs = [point[0] for point in points] or [0.0]
        ys = [point[1] for point in points] or [0.0]
        extent = max(max(xs) - min(xs), max(ys) - min(ys))
        extent = extent if extent > SMALL else 1.0
        self.scale = PLOT * (1 - 2 * PAD) / extent
        self.width = max((max(xs) - min(xs)) * self.scale + 2 * PAD * PLOT, SHORT)
        self.height = max((max(ys) - min(ys)) * self.scale + 2 * PAD * PLOT, SHORT)
        self.middle = (max(xs) / 2 + min(xs) / 2, max(ys) / 2 + min(ys) / 2)
        self.step = round_step(extent / 8)
        while self.widest(0) + APART > self.step * self.scale:
            self.step = round_step((self.widest(0) + APART) / self.scale)
        self.left = max(LEFT, 34 + self.widest(1))

    def widest(self, axis):
        """The width of the widest label."""
        return DIGIT * max((len(label(tick, self.step)) for tick in self.ticks(axis)), default=0)

    def x(self, x):
        return self.left + self.width / 2 + (x - self.middle[0]) * self.scale

    def y(self, y):
        return TOP + self.height / 2 - (y - self.middle[1]) * self.scale

    def at(self, point):
        return '%s,%s' % (number(self.x(point[0])), number(self.y(point[1])))

    def ticks(self, axis):
        """The multiples of the step inside the frame."""
        half = (self.width, self.height)[axis] / 2 / self.scale
        return ticks(self.middle[axis] - half, self.middle[axis] + half, self.step)


class Picture:
    """The lines of an SVG."""

    def __init__(self):
        self.lines = []

    def add(self, line, *values):
        self.lines.append(line % values if values else line)

    def text(self, x, y, words, size=14, anchor='start', fill=INK, weight='normal'):
        self.add('<text x="%s" y="%s" font-size="%d" text-anchor="%s" fill="%s" font-weight="%s">%s</text>',
                 number(x), number(y), size, anchor, fill, weight, escape(words))

    def polygon(self, corners, fill, title):
        self.add('<polygon points="%s" fill="%s"><title>%s</title></polygon>', ' '.join(corners), fill, escape(title))


def draw(mesh, title, given=None, by='jacobian'):
    """The SVG of an input or of an answer, whose points from number `given` on are added ones; quads are filled as `by` says, a key of BY."""
    added = mesh.points[given:] if given is not None else []
    frame = Frame(mesh.points)
    shades = BY[by](mesh)
    front = front_edges(mesh)
    loose = sorted(set(range(len(mesh.points))) - {node for cell in mesh.cells() for node in cell})
    picture = Picture()
    below = summary(mesh, len(added))
    width = frame.left + max(frame.width + RIGHT + LEGEND, 8 * len(below), 13 * len(title)) + RIGHT  # by the mean width of a letter
    height = TOP + max(frame.height + BOTTOM, legend_height(mesh, shades))
    picture.add('<svg xmlns="http://www.w3.org/2000/svg" width="%s" height="%s" viewBox="0 0 %s %s" font-family="DejaVu Sans, Verdana, Arial, sans-serif">',
                *map(number, (width, height, width, height)))
    picture.add('<title>%s</title>', escape(title))
    picture.add('<rect width="100%" height="100%" fill="#ffffff"/>')
    picture.text(frame.left, 32, title, size=18, weight='bold')
    picture.text(frame.left, 56, below, fill=GREY)
    axes(picture, frame)
    cells(picture, frame, mesh, shades)
    edges(picture, frame, mesh, front)
    numbers(picture, frame, mesh, shades)
    marks(picture, frame, mesh, added, loose)
    legend(picture, frame.left + frame.width + RIGHT, mesh, shades, (len(front), len(added), len(loose)))
    picture.add('</svg>')
    return '\n'.join(picture.lines) + '\n'


def counted(count, word):
    return '%d %s%s' % (count, word, '' if count == 1 else 's')


def summary(mesh, added):
    if mesh.counts is None:
        return '%s, %s' % (counted(len(mesh.triangles), 'triangle'), counted(len(mesh.points), 'point'))
    words = [counted(len(mesh.quads), 'quad'), counted(len(mesh.triangles), 'leftover triangle'),
             counted(len(mesh.points), 'point') + (' (%d added)' % added if added else ''), counted(mesh.counts['attempts'], 'attempt')]
    return ', '.join(words + ['ended by a limit'] * mesh.counts['limit'])


def axes(picture, frame):
    left, right, top, bottom = frame.left, frame.left + frame.width, TOP, TOP + frame.height
    picture.add('<g id="axes" stroke="%s" fill="none">', GREY)
    picture.add('<rect x="%s" y="%s" width="%s" height="%s"/>', *map(number, (left, top, frame.width, frame.height)))
    for tick in frame.ticks(0):
        x = number(frame.x(tick))
        picture.add('<line x1="%s" y1="%s" x2="%s" y2="%s"/>', x, number(bottom), x, number(bottom + 6))
    for tick in frame.ticks(1):
        y = number(frame.y(tick))
        picture.add('<line x1="%s" y1="%s" x2="%s" y2="%s"/>', number(left - 6), y, number(left), y)
    picture.add('</g>')
    for tick in frame.ticks(0):
        picture.text(frame.x(tick), bottom + 22, label(tick, frame.step), anchor='middle', fill=GREY)
    for tick in frame.ticks(1):
        picture.text(left - 10, frame.y(tick) + 5, label(tick, frame.step), anchor='end', fill=GREY)
    picture.text((left + right) / 2, bottom + 42, 'x', anchor='middle', fill=GREY)
    picture.text(16, (top + bottom) / 2 + 5, 'y', anchor='middle', fill=GREY)


def fineness(frame, mesh):
    """From 0 to 1: thinner lines and smaller marks where cells are small."""
    room = math.sqrt(frame.width * frame.height / max(len(mesh.cells()), 1))
    return min(1.0, max(0.2, room / 60))


def cells(picture, frame, mesh, shades):
    picture.add('<g id="cells" stroke="%s" stroke-width="%s" stroke-linejoin="round">', EDGE, number(1.2 * fineness(frame, mesh)))
    for cell in mesh.triangles:
        picture.polygon([frame.at(mesh.points[node]) for node in cell], TRIANGLE, 'triangle %d %d %d' % cell)
    for cell, fill, words in zip(mesh.quads, shades.fills, shades.words):
        picture.polygon([frame.at(mesh.points[node]) for node in cell], fill, 'quad %d %d %d %d, %s' % (*cell, words))
    picture.add('</g>')


def numbers(picture, frame, mesh, shades):
    """What is written into the quads, in their middles."""
    if not shades.numbers:
        return
    size = max(7, round(16 * fineness(frame, mesh)))
    picture.add('<g id="numbers" font-size="%d" text-anchor="middle">', size)
    for cell, fill, value in zip(mesh.quads, shades.fills, shades.numbers):
        x, y = (sum(mesh.points[node][axis] for node in cell) / 4 for axis in (0, 1))
        ink = '#ffffff' if fill in ROUNDS[:DARK] else INK
        picture.add('<text x="%s" y="%s" fill="%s">%s</text>', number(frame.x(x)), number(frame.y(y) + size / 3), ink, value)
    picture.add('</g>')


def edges(picture, frame, mesh, front):
    picture.add('<g id="front" stroke="%s" stroke-width="%s" stroke-linecap="round">', FRONT, number(4 * fineness(frame, mesh)))
    for ends in front:
        (ax, ay), (bx, by) = ([number(frame.x(mesh.points[node][0])), number(frame.y(mesh.points[node][1]))] for node in ends)
        picture.add('<line x1="%s" y1="%s" x2="%s" y2="%s"/>', ax, ay, bx, by)
    picture.add('</g>')


def marks(picture, frame, mesh, added, loose):
    fine = fineness(frame, mesh)
    picture.add('<g id="added" stroke="%s" stroke-width="%s" fill="#ffffff">', INK, number(2 * fine))
    for i, point in enumerate(added):
        picture.add('<circle cx="%s" cy="%s" r="%s"><title>added point %d</title></circle>',
                    number(frame.x(point[0])), number(frame.y(point[1])), number(5.5 * fine), len(mesh.points) - len(added) + i)
    picture.add('</g>')
    picture.add('<g id="loose" stroke="%s" stroke-width="%s">', INK, number(2 * fine))
    for node in loose:
        cross(picture, frame.x(mesh.points[node][0]), frame.y(mesh.points[node][1]), 4 * fine, 'point %d, of no cell' % node)
    picture.add('</g>')


def cross(picture, x, y, arm, title):
    picture.add('<path d="M%s %sL%s %sM%s %sL%s %s"><title>%s</title></path>',
                *map(number, (x - arm, y - arm, x + arm, y + arm, x - arm, y + arm, x + arm, y - arm)), title)


def classes(fills):
    """(label, colour, count), from the best class to the worst; one below 0.3 only where a quad is in it."""
    rows = [('%.1f to %.1f' % (LEAST + i / 10, LEAST + (i + 1) / 10), fill, fills.count(fill)) for i, fill in enumerate(CLASSES)]
    return rows[::-1] + [('below %.1f' % LEAST, BELOW, fills.count(BELOW))] * (BELOW in fills)


def legend_height(mesh, shades):
    rows = len(shades.rows) + 3 if mesh.counts is not None else 0
    return (rows + 5) * ROW + 2 * ROW


def legend(picture, left, mesh, shades, counts):
    front, added, loose = counts
    y = TOP + 14
    picture.add('<g id="legend">')
    if mesh.counts is not None:
        picture.text(left, y, shades.title, weight='bold')
        for label, fill, count in shades.rows:
            y += ROW
            swatch(picture, left, y, fill)
            entry(picture, left, y, label, count)
        y += ROW
        picture.text(left, y, shades.foot, fill=GREY)
        y += 1.5 * ROW
    swatch(picture, left, y, TRIANGLE)
    entry(picture, left, y, 'triangle' if mesh.counts is None else 'leftover triangle', len(mesh.triangles))
    y += ROW
    picture.add('<line x1="%s" y1="%s" x2="%s" y2="%s" stroke="%s" stroke-width="4" stroke-linecap="round"/>',
                *map(number, (left + 2, y - 5, left + 24, y - 5)), FRONT)
    entry(picture, left, y, 'front edge', front)
    if mesh.counts is not None:
        y += ROW
        picture.add('<circle cx="%s" cy="%s" r="5.5" stroke="%s" stroke-width="2" fill="#ffffff"/>', number(left + 13), number(y - 5), INK)
        entry(picture, left, y, 'added point', added)
    if loose:
        y += ROW
        picture.add('<g stroke="%s" stroke-width="2">', INK)
        cross(picture, left + 13, y - 5, 4, 'a point of no cell')
        picture.add('</g>')
        entry(picture, left, y, 'point of no cell', loose)
    picture.add('</g>')


def swatch(picture, left, y, fill):
    picture.add('<rect x="%s" y="%s" width="26" height="16" fill="%s" stroke="%s"/>', number(left), number(y - 13), fill, EDGE)


def entry(picture, left, y, label, count):
    picture.text(left + 36, y, label)
    picture.text(left + LEGEND, y, str(count), anchor='end', fill=GREY)
