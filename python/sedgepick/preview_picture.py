"""The front of a mesh as SVG: the triangle at a front edge is shaded by what the edge would give, a quad by its scaled Jacobian or the kind of refusal, and
along the edge runs a line, dashed where it is refused. A triangle with several front edges is shared by them. Pointed at in a browser, an edge shows its quad
and says what it gives."""
import textwrap
from dataclasses import dataclass
from html import escape
import numpy
from . import picture
from .picture import GREY, INK, KEPT, QUADS, TOP
from .previews import KINDS

# of each kind: what the legend says, the fill, and the dashes in units. Also as readers see them who lack red, green or blue (simulated) the fills differ from each
# other by 21 in CIEDE2000 at least, and from those of quads by 11
REFUSED = {
    'placement': ('placement: no side nodes', '#8c8c8c', (2, 3)),
    'invalid_quad': ('invalid quad: no good pair', '#ff751a', (6, 4)),
    'recovery': ('recovery: a side fails', '#ffa3ff', (14, 4)),
    'region': ('region: not filled', '#b20000', (10, 3, 2, 3)),
    'odd_region': ('odd region: odd component', '#783a5f', (2, 2, 2, 7)),
}
LEGEND, SAMPLE = 300, 40
LETTER, LINE = 8.3, 20  # width and height of a letter of 15 points, for the words under the picture
SMALL = 20  # edges of fewer pixels: those that are refused get a ring, where they are not too many
RINGS = 60
STYLE = ('.would { display: none; pointer-events: none } .edge { outline: none; cursor: help } .edge:hover .would, .edge:focus .would { display: inline } '
         '.hot { fill: #ffffff; fill-opacity: 0 }')


@dataclass
class Front:
    """What the picture shows."""
    points: object       # x and y
    triangles: object
    edges: list          # of preview_edges.Edge
    words: list          # of each edge
    kept_edges: object   # lines and borders of the file
    kept_points: object


@dataclass
class Pen:
    """Widths and dashes for edges of some length in the picture."""
    width: float
    unit: float
    rings: bool  # around refused edges

    def dashes(self, kind):
        return ' '.join('%.2g' % (self.unit * n) for n in REFUSED[kind][2])

    def line(self, name, path):
        """Solid for a quad; dashed, black on white, for a refusal."""
        if name not in REFUSED:
            return '<path fill="none" stroke="%s" stroke-width="%.2f" d="%s"/>' % (INK, self.width / 2, path)
        return ('<path fill="none" stroke="#ffffff" stroke-width="%.2f" d="%s"/><path fill="none" stroke="%s" stroke-width="%.2f" stroke-dasharray="%s" d="%s"/>'
                % (self.wide(name), path, INK, self.width, self.dashes(name), path))

    def wide(self, name):
        return self.width + 1.5 if name in REFUSED else self.width / 2


def pen(front, scale):
    long = numpy.median([numpy.hypot(*(edge.places[1] - edge.places[0])) for edge in front.edges] or [1.0]) * scale
    refused = sum(bool(edge.shown.refused) for edge in front.edges)
    return Pen(min(4.0, max(1.0, long / 10)), min(1.0, max(0.3, long / 32)), long < SMALL and 0 < refused <= RINGS)


def class_of(edge):
    """The kind of refusal, or the class of the quad."""
    return edge.shown.refused or picture.colour(QUADS, edge.jacobian)


def fill_of(name):
    return QUADS[name][1] if isinstance(name, int) else REFUSED[name][1]


def spots(piece, places):
    return [(piece.x(x), piece.y(y)) for x, y in places]


def closed(pairs):
    return 'M' + 'L'.join('%.1f %.1f' % pair for pair in pairs) + 'Z'


def along(pairs, width):
    """A line just inside the edge: its middle half a width from it, within what is shaded."""
    a, b, middle = map(numpy.array, pairs)
    span = max(numpy.hypot(*(b - a)), 1e-9)
    high = abs((b - a)[0] * (middle - a)[1] - (b - a)[1] * (middle - a)[0]) / span
    share = min(0.5, width / 2 / max(high, 1e-9))
    return 'M%.1f %.1fL%.1f %.1f' % (*(a + share * (middle - a)), *(b + share * (middle - b)))


def near(piece, edge):
    return (edge.places.max(axis=0) >= piece.low).all() and (edge.places.min(axis=0) <= piece.high).all()


def shades_of(front, piece, drawn, lines):
    """The shades and lines of the edges in a window, a path for each class."""
    own = {}
    for edge in front.edges:
        if near(piece, edge):
            own.setdefault(class_of(edge), []).append(spots(piece, edge.places))
    for name, found in own.items():
        lines.append('<path fill="%s" stroke="%s" stroke-width="%.2f" stroke-linejoin="round" d="%s"/>' % (fill_of(name), INK, drawn.width / 6, ''.join(map(closed, found))))
    for name, found in own.items():
        lines.append(drawn.line(name, ''.join(along(pairs, drawn.wide(name)) for pairs in found)))


def rings_of(front, piece, lines):
    """Rings around refused edges."""
    for edge in front.edges:
        if edge.shown.refused and near(piece, edge):
            x, y = spots(piece, [edge.places.mean(axis=0)])[0]
            lines.append(around(x, y, fill_of(edge.shown.refused)))


def around(x, y, colour):
    return ''.join('<circle cx="%.1f" cy="%.1f" r="9" fill="none" stroke="%s" stroke-width="%.1f"/>' % (x, y, stroke, width) for stroke, width in ((INK, 4), (colour, 2.5)))


def new_nodes(edge):
    return [place for node, place in zip(edge.nodes, edge.corners if edge.nodes else ()) if node is None]


def all_new(front):
    """Where quads would insert nodes, each place once."""
    return list({'%.9g %.9g' % tuple(place): place for edge in front.edges for place in new_nodes(edge)}.values())


def ring(x, y):
    return '<circle cx="%.1f" cy="%.1f" r="3" fill="#ffffff" stroke="%s" stroke-width="1.3"/>' % (x, y, INK)


def hot_of(front, piece, window, says, lines):
    """What a browser shows of an edge that is pointed at, above all else: its quad and, under the picture, words."""
    for edge, words in zip(front.edges, front.words):
        if not near(piece, edge):
            continue
        pairs = spots(piece, edge.places)
        quad = '<path fill="#ffffff" fill-opacity="0.6" stroke="%s" stroke-width="3" stroke-linejoin="round" d="%s"/>' % (INK, closed(spots(piece, edge.corners))) if edge.nodes else ''
        base = '<path fill="none" stroke="%s" stroke-width="7" d="M%.1f %.1fL%.1f %.1f"/>' % (INK, *pairs[0], *pairs[1])
        rings = ''.join(ring(*pair) for pair in spots(piece, new_nodes(edge)))
        lines.append('<g class="edge" tabindex="0"><title>%s</title><g clip-path="url(#window%d)"><path class="hot" d="%s"/><g class="would">%s</g></g>%s</g>'
                     % (escape(words), window, closed(pairs), quad + base + rings, says.text(words)))


@dataclass
class Says:
    """The room under the picture where words are shown."""
    x: float
    y: float
    letters: int  # in a line

    def split(self, words):
        return textwrap.wrap(words, self.letters)

    def text(self, words):
        spans = ''.join('<tspan x="%d" y="%.0f">%s</tspan>' % (self.x, self.y + LINE * i, escape(line)) for i, line in enumerate(self.split(words)))
        return '<text class="would" font-size="15" fill="%s">%s</text>' % (INK, spans)


def legend(front, left, drawn, step, scale, lines):
    """Classes and kinds with their counts, and a scale; returns where it ends."""
    counts = {}
    for edge in front.edges:
        counts[class_of(edge)] = counts.get(class_of(edge), 0) + 1
    quads = sum(n for name, n in counts.items() if isinstance(name, int))
    y = TOP + 12
    head = lambda label, count: lines.append('<text x="%d" y="%d" font-weight="bold" fill="%s">%s</text><text x="%d" y="%d" font-weight="bold" text-anchor="end" fill="%s">%d</text>'
                                             % (left, y, INK, label, left + LEGEND - 10, y, INK, count))

    def row(name, label):
        lines.append('<rect x="%d" y="%d" width="%d" height="15" fill="%s" stroke="%s" stroke-width="0.6"/>' % (left, y - 12, SAMPLE, fill_of(name), INK))
        lines.append(drawn.line(name, 'M%d %.1fh%d' % (left, y + 3 - drawn.wide(name) / 2, SAMPLE)))
        lines.append('<text x="%d" y="%d" fill="%s">%s</text><text x="%d" y="%d" text-anchor="end" fill="%s">%d</text>'
                     % (left + SAMPLE + 8, y, INK, label, left + LEGEND - 10, y, GREY, counts.get(name, 0)))

    head('Front edges, each tried first', len(front.edges))
    y += 30
    head('A quad, by scaled Jacobian', quads)
    for place, (least, _) in reversed(list(enumerate(QUADS))):
        if least >= 0.3 or place in counts:
            y += 22
            row(place, '%.1f to %.1f' % (least, least + 0.1))
    y += 34
    head('Refused', len(front.edges) - quads)
    for kind in KINDS:
        y += 22
        row(kind, REFUSED[kind][0])
    return foot_of(front, left, y + 34, drawn.rings, step, scale, lines)


def foot_of(front, left, y, rings, step, scale, lines):
    """What else there is, and a scale."""
    added = len(all_new(front))
    if rings:
        lines.append(around(left + SAMPLE / 2, y - 5, '#ffffff') + '<text x="%d" y="%d" fill="%s">a refused edge, in its colour</text>' % (left + SAMPLE + 8, y, INK))
        y += 24
    if len(front.kept_edges) or len(front.kept_points):
        lines.append('<path d="M%d %dh%d" stroke="%s" stroke-width="3"/><text x="%d" y="%d" fill="%s">line, border or point of the file</text>'
                     % (left, y - 5, SAMPLE, KEPT, left + SAMPLE + 8, y, INK))
        y += 22
    if added:
        lines.append(ring(left + SAMPLE / 2, y - 5) + '<text x="%d" y="%d" fill="%s">node that a quad would insert</text><text x="%d" y="%d" text-anchor="end" fill="%s">%d</text>'
                     % (left + SAMPLE + 8, y, INK, left + LEGEND - 10, y, GREY, added))
        y += 22
    y += 8
    lines.append('<g class="scale"><path d="M%d %dv6h%.1fv-6" fill="none" stroke="%s" stroke-width="2"/><text x="%d" y="%d" fill="%s">%.10g, in the units of the file</text></g>'
                 % (left, y, step * scale, INK, left, y + 24, INK, step))
    return y + 40


def window_of(front, piece, place, drawn, lines):
    """A window with its number: the mesh, the shades, the file's lines, new nodes."""
    lines.append(picture.opened('window%d' % place, piece))
    lines.append('<path fill="none" stroke="#9a9a9a" stroke-linejoin="round" stroke-width="%.2f" d="%s"/>'
                 % (min(1.0, drawn.width / 3), picture.outline(piece, front.points, front.triangles)))
    shades_of(front, piece, drawn, lines)
    picture.kept_of(front, piece, lines)
    lines += [ring(*pair) for pair in spots(piece, all_new(front))]
    if drawn.rings:
        rings_of(front, piece, lines)
    lines.append('</g>')


def draw(front):
    """The SVG of a Front."""
    windows, axes = picture.pieces(front.points[numpy.unique(front.triangles)])
    drawn, lines = pen(front, windows[0].scale), []
    right = max(piece.at[0] + piece.size()[0] for piece in windows) + axes.right
    for place, piece in enumerate(windows):
        window_of(front, piece, place, drawn, lines)
        picture.frame_of(piece, axes.step, lines)
    foot = picture.grouped(right, LEGEND, lines, lambda: legend(front, right, drawn, axes.scale, windows[0].scale, lines))
    bottom = max(foot, max(piece.at[1] + piece.size()[1] for piece in windows) + 36)
    says = Says(windows[0].at[0], bottom + LINE - 4, int((right + LEGEND - windows[0].at[0]) / LETTER))
    for place, piece in enumerate(windows):
        hot_of(front, piece, place, says, lines)
    size = (right + LEGEND, bottom + LINE * max((len(says.split(words)) for words in front.words), default=0) + 6)
    head = ('<svg xmlns="http://www.w3.org/2000/svg" class="picture" viewBox="0 0 %.0f %.0f" width="%.0f" height="%.0f" font-size="13" '
            'font-family="DejaVu Sans, Verdana, Arial, sans-serif"><style>%s</style><rect width="100%%" height="100%%" fill="#ffffff"/>' % (*size, *size, STYLE))
    return '\n'.join([head, *lines, '</svg>']) + '\n'
