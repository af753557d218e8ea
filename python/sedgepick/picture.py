"""A mesh as SVG: quads by scaled Jacobian, leftover triangles by least angle, the worst marked; axes and a scale in the file's units. A long mesh is
shown in rows, or columns, one after the other."""
import math
from dataclasses import dataclass, replace
from types import SimpleNamespace
import numpy
from . import axes

# quads: classes of a tenth; the better the lighter. Those below 0.3, the least that a run takes where it is not set, are listed only where there are such
QUADS = [(0.0, '#0b1238'), (0.1, '#131f57'), (0.2, '#1b3479'), (0.3, '#254f9c'), (0.4, '#2176b4'), (0.5, '#2f9ec2'), (0.6, '#5bbfc0'), (0.7, '#97d6b9'), (0.8, '#d3edb3'), (0.9, '#ffffd9')]
# triangles: degrees; the thinner the redder
TRIANGLES = [(0, '#b10026'), (5, '#e31a1c'), (10, '#fd8d3c'), (20, '#fdbe85'), (30, '#d9d9d9')]
INK, GREY, LOST, KEPT, OWN = '#1a1a1a', '#666666', '#9e0dd3', '#000000', '#7a3b00'
LONG = 6          # times as long as wide: a mesh beyond it is shown in pieces
PLOT = 900        # the longer side of a piece
TOP, GAP, RIGHT, BOTTOM, LEGEND = 16, 64, 24, 80, 240
INSET = 132       # pixels of a picture of one marked cell
NEAR = 1.1        # half of it, in sizes of the cell
OFF = 9           # from a window to the labels of its y-axis
LETTER = 7.1      # the width of a letter of 12 points
COARSE = 12       # pixels of a cell: the places of smaller ones are written to a hundredth, since the picture can be zoomed


@dataclass
class Piece:
    """A window of the mesh and the place of its upper left corner in the picture."""
    low: tuple
    high: tuple
    at: tuple
    scale: float

    def x(self, x):
        return self.at[0] + (x - self.low[0]) * self.scale

    def y(self, y):
        return self.at[1] + (self.high[1] - y) * self.scale

    def size(self):
        return (self.high[0] - self.low[0]) * self.scale, (self.high[1] - self.low[1]) * self.scale


def pieces(points):
    """The windows, at one scale, and their axes."""
    low, high = points.min(axis=0), points.max(axis=0)
    extent = numpy.maximum(high - low, max(high - low) * 1e-3)
    pad = 0.02 * min(extent.max(), LONG * extent.min())
    low, high = low - pad, low + extent + pad
    axis = int(extent[1] > extent[0])
    long, short = (high - low)[axis], (high - low)[1 - axis]
    count = max(1, math.ceil(long / short / LONG - 1e-9)) if long / short > LONG * 1.5 else 1
    step, scale = long / count, PLOT / (long / count)
    found = []
    for i in range(count):
        a, b = low.copy(), high.copy()
        a[axis], b[axis] = low[axis] + i * step, low[axis] + (i + 1) * step
        found.append(Piece(tuple(a), tuple(b), (0, 0), scale))
    drawn = axes.axes_of(found, RIGHT)
    left = drawn.left + OFF
    away = (short * scale + max(GAP, left + 6), 0) if axis else (0, short * scale + GAP)
    return [replace(piece, at=(left + i * away[0], TOP + i * away[1])) for i, piece in enumerate(found)], drawn


def colour(classes, value):
    return max(0, sum(value >= least for least, _ in classes) - 1)


def opened(name, piece):
    """The beginning of a window's group, clipped to it. The script of a page reads its place, and draws what is in it on a canvas."""
    numbers = lambda pair: ' '.join('%.17g' % number for number in pair)
    return ('<clipPath id="%s"><rect x="%.1f" y="%.1f" width="%.1f" height="%.1f"/></clipPath><g class="window" clip-path="url(#%s)" data-at="%s" data-low="%s" data-high="%s" data-scale="%.17g">'
            % (name, *piece.at, *piece.size(), name, numbers(piece.at), numbers(piece.low), numbers(piece.high), piece.scale))


def grouped(left, width, lines, draw):
    """A legend in a group of its own, whose box the script of a page reads; `draw` adds its lines and returns where it ends."""
    at = len(lines)
    foot = draw()
    lines.insert(at, '<g class="legend" data-box="%.0f 0 %d %.0f">' % (left - 8, width + 8, foot))
    lines.append('</g>')
    return foot


def outline(piece, points, cells, digits=1):
    """One path for the cells that meet the window."""
    if not len(cells):
        return ''
    corners = points[cells]
    near = ((corners.max(axis=1) >= piece.low) & (corners.min(axis=1) <= piece.high)).all(axis=1)
    corners = corners[near]
    x, y = piece.x(corners[..., 0]), piece.y(corners[..., 1])
    form = '%%.%df %%.%df' % (digits, digits)
    return ''.join('M' + 'L'.join(form % pair for pair in zip(xs, ys)) + 'Z' for xs, ys in zip(x.tolist(), y.tolist()))


def cells_of(mesh, piece, lines):
    """The cells of a window, a path for each class, and its lines."""
    room = math.sqrt(numpy.prod(piece.size()) / max(len(mesh.quads) + len(mesh.triangles), 1))
    lines.append('<g stroke="#333333" stroke-linejoin="round" stroke-width="%.2f">' % min(1.0, max(0.15, room / 40)))
    for cells, values, classes in ((mesh.quads, mesh.jacobians, QUADS), (mesh.triangles, mesh.angles, TRIANGLES)):
        places = numpy.array([colour(classes, value) for value in values], dtype=int)
        for i, (_, fill) in enumerate(classes):
            path = outline(piece, mesh.points, cells[places == i], 1 if room > COARSE else 2)
            if path:
                lines.append('<path fill="%s" d="%s"/>' % (fill, path))
    lines.append('</g>')


def own_of(mesh, piece, lines):
    """A dot in each quad that is run_front's own, where the mesh was finished."""
    own = getattr(mesh, 'own', None)
    if own is None or not own.any():
        return
    middles = mesh.points[mesh.quads[own]].mean(axis=1)
    middles = middles[((middles >= piece.low) & (middles <= piece.high)).all(axis=1)]
    room = math.sqrt(numpy.prod(piece.size()) / max(len(mesh.quads) + len(mesh.triangles), 1))
    path = ''.join('M%.1f %.1fh0' % (piece.x(x), piece.y(y)) for x, y in middles.tolist())
    lines.append('<path fill="none" stroke="%s" stroke-width="%.2f" stroke-linecap="round" d="%s"/>' % (OWN, min(5.0, max(0.6, room / 7)), path))


def kept_of(mesh, piece, lines):
    """Lines, borders and points of the file that stand."""
    path = ''.join('M%.1f %.1fL%.1f %.1f' % (piece.x(a[0]), piece.y(a[1]), piece.x(b[0]), piece.y(b[1])) for a, b in mesh.kept_edges.tolist())
    if path:
        lines.append('<path fill="none" stroke="%s" stroke-width="3" stroke-linecap="round" d="%s"/>' % (KEPT, path))
    for x, y in mesh.kept_points.tolist():
        lines.append('<circle cx="%.1f" cy="%.1f" r="4" fill="%s"/>' % (piece.x(x), piece.y(y), KEPT))


def marks_of(mesh, piece, lines):
    """Lost edges and points, and the worst cells with their numbers in the report."""
    inside = lambda p: piece.low[0] <= p[0] <= piece.high[0] and piece.low[1] <= p[1] <= piece.high[1]
    for a, b in mesh.lost_edges:
        lines.append('<line x1="%.1f" y1="%.1f" x2="%.1f" y2="%.1f" stroke="%s" stroke-width="3"/>' % (piece.x(a[0]), piece.y(a[1]), piece.x(b[0]), piece.y(b[1]), LOST))
    for p in mesh.lost_points:
        lines.append('<circle cx="%.1f" cy="%.1f" r="5" fill="none" stroke="%s" stroke-width="3"/>' % (piece.x(p[0]), piece.y(p[1]), LOST))
    taken = [spot for _, p in mesh.marks if inside(p) for spot in [ring_room(piece.x(p[0]), piece.y(p[1]))]]
    for label, p in mesh.marks:
        if inside(p):
            x, y = piece.x(p[0]), piece.y(p[1])
            left, base = label_spot(piece, label, x, y, taken)
            lines.append('<circle cx="%.1f" cy="%.1f" r="9" fill="none" stroke="%s" stroke-width="1.6"/>' % (x, y, INK))
            lines.append('<text x="%.1f" y="%.1f" font-size="12" font-weight="bold" stroke="#ffffff" stroke-width="3" paint-order="stroke" fill="%s">%s</text>'
                         % (left, base, INK, label))


def ring_room(x, y):
    """The room of a mark's ring: its sides."""
    return x - 9, y - 9, x + 9, y + 9


def label_spot(piece, label, x, y, taken):
    """Where the label of a mark begins: the first place around its ring that no other label or ring has and that is in the window; its room is taken then."""
    wide, high = 8.5 * len(label), 12
    (left, top), (width, height) = piece.at, piece.size()
    spots = [(x + dx if dx > 0 else x + dx - wide if dx < 0 else x - wide / 2, y + dy) for off in (10, 24, 38)
             for dx, dy in ((off, 6 - off), (off, off + 2), (-off, 6 - off), (-off, off + 2), (off, 4), (-off, 4), (0, -off - 2), (0, off + 12))]
    room = lambda spot: (spot[0] - 1, spot[1] - high + 1, spot[0] + wide + 1, spot[1] + 3)
    inside = lambda box: left <= box[0] and box[2] <= left + width and top <= box[1] and box[3] <= top + height
    apart = lambda a, b: a[2] <= b[0] or b[2] <= a[0] or a[3] <= b[1] or b[3] <= a[1]
    found = next((spot for spot in spots if inside(room(spot)) and all(apart(room(spot), other) for other in taken)), spots[0])
    taken.append(room(found))
    return found


def frame_of(piece, step, lines):
    """The frame of a window with its ticks."""
    width, height = piece.size()
    left, top = piece.at
    lines.append('<rect x="%.1f" y="%.1f" width="%.1f" height="%.1f" fill="none" stroke="%s"/>' % (left, top, width, height, GREY))
    for tick in axes.ticks(piece.low[0], piece.high[0], step):
        x = piece.x(tick)
        lines.append('<path d="M%.1f %.1fv6" stroke="%s"/><text x="%.1f" y="%.1f" text-anchor="middle" fill="%s">%s</text>'
                     % (x, top + height, GREY, x, top + height + 20, GREY, axes.label(tick, step)))
    for tick in axes.ticks(piece.low[1], piece.high[1], step):
        y = piece.y(tick)
        lines.append('<path d="M%.1f %.1fh-6" stroke="%s"/><text x="%.1f" y="%.1f" text-anchor="end" fill="%s">%s</text>'
                     % (left, y, GREY, left - OFF, y + 4, GREY, axes.label(tick, step)))


def own_words(mesh):
    return "run_front's own quad (%d of %d)" % (mesh.own.sum(), len(mesh.quads)) if getattr(mesh, 'own', None) is not None else ''


def legend(mesh, left, step, scale, lines):
    y = TOP + 12
    rows = [('Quads by scaled Jacobian', None, None)]
    counts = numpy.bincount([colour(QUADS, v) for v in mesh.jacobians], minlength=len(QUADS))
    rows += [('%.1f to %.1f' % (least, least + 0.1), fill, counts[i]) for i, (least, fill) in reversed(list(enumerate(QUADS))) if least >= 0.3 or counts[i]]
    rows += [('', None, None), ('Triangles by least angle', None, None)]
    counts = numpy.bincount([colour(TRIANGLES, v) for v in mesh.angles], minlength=len(TRIANGLES))
    ends = [least for least, _ in TRIANGLES[1:]] + [60]
    rows += [('%d to %d degrees' % (least, ends[i]), fill, counts[i]) for i, (least, fill) in reversed(list(enumerate(TRIANGLES)))]
    for label, fill, count in rows:
        if fill:
            lines.append('<rect x="%d" y="%d" width="24" height="14" fill="%s" stroke="#333333"/>' % (left, y - 12, fill))
            lines.append('<text x="%d" y="%d" fill="%s">%s</text><text x="%d" y="%d" text-anchor="end" fill="%s">%d</text>'
                         % (left + 32, y, INK, label, left + LEGEND - 10, y, GREY, count))
        else:
            lines.append('<text x="%d" y="%d" font-weight="bold" fill="%s">%s</text>' % (left, y, INK, label))
        y += 21
    entries = []
    if len(mesh.kept_edges) or len(mesh.kept_points):
        entries.append(('line, border or point of the file', '<path d="M%d %dh20" stroke="%s" stroke-width="3"/>' % (left + 2, y + 10, KEPT)))
    if getattr(mesh, 'own', None) is not None:
        entries.append((own_words(mesh),
                        '<path d="M%d %dh0" stroke="%s" stroke-width="5" stroke-linecap="round"/>' % (left + 12, y + 10 + 21 * len(entries), OWN)))
    entries += [('q, t: the worst, listed below', '<circle cx="%d" cy="%d" r="8" fill="none" stroke="%s" stroke-width="1.6"/>' % (left + 12, y + 10 + 21 * len(entries), INK))]
    if len(mesh.lost_edges) or len(mesh.lost_points):
        entries.append(('lost line, border or point', '<path d="M%d %dh20" stroke="%s" stroke-width="3"/>' % (left + 2, y + 10 + 21 * len(entries), LOST)))
    for label, shape in entries:
        y += 21
        lines.append(shape + '<text x="%d" y="%d" font-size="12" fill="%s">%s</text>' % (left + 32, y - 6, INK, label))
    y += 28
    lines.append('<g class="scale"><path d="M%d %dv6h%.1fv-6" fill="none" stroke="%s" stroke-width="2"/><text x="%d" y="%d" fill="%s">%.10g, in the units of the file</text></g>'
                 % (left, y, step * scale, INK, left, y + 24, INK, step))
    return y + 40


def draw(mesh, place=0):
    """The SVG of a mesh with points, quads, triangles, jacobians, angles, marks, lost_edges, lost_points, kept_edges and kept_points; `place` is its place on a page with
    several."""
    used = numpy.unique(numpy.concatenate([mesh.quads.ravel(), mesh.triangles.ravel()]))
    windows, drawn = pieces(mesh.points[used])
    right = max(piece.at[0] + piece.size()[0] for piece in windows) + drawn.right
    lines = []
    for i, piece in enumerate(windows):
        name = 'window%d' % i + '-%d' % place * bool(place)
        lines.append(opened(name, piece))
        cells_of(mesh, piece, lines)
        own_of(mesh, piece, lines)
        kept_of(mesh, piece, lines)
        marks_of(mesh, piece, lines)
        lines.append('</g>')
        frame_of(piece, drawn.step, lines)
    wide = max(LEGEND, 40 + round(LETTER * len(own_words(mesh))))
    foot = grouped(right, wide, lines, lambda: legend(mesh, right, drawn.scale, windows[0].scale, lines))
    bottom = max(foot, max(piece.at[1] + piece.size()[1] for piece in windows) + 36)
    size = (right + wide, bottom)
    head = ('<svg xmlns="http://www.w3.org/2000/svg" class="picture" viewBox="0 0 %.0f %.0f" width="%.0f" height="%.0f" font-size="13" '
            'font-family="DejaVu Sans, Verdana, Arial, sans-serif"><rect width="100%%" height="100%%" fill="#ffffff"/>' % (*size, *size))
    return '\n'.join([head, *lines, '</svg>']) + '\n'


def insets(mesh):
    """The marked cells from near, a small picture each with its label, for a page."""
    kinds = [cells for cells in (mesh.quads, mesh.triangles) if len(cells)]
    middles = [mesh.points[cells].mean(axis=1) for cells in kinds]
    found = []
    for label, p in mesh.marks if kinds else ():
        apart = [((own - p) ** 2).sum(axis=1) for own in middles]
        which = min(range(len(kinds)), key=lambda kind: apart[kind].min())
        cell = kinds[which][apart[which].argmin()]
        found.append('<figure>%s<figcaption>%s</figcaption></figure>' % (inset(mesh, cell, label), label))
    return '<div class="insets">%s</div>\n' % ''.join(found) if found else ''


def inset(mesh, cell, label):
    """A cell, outlined, with those around it."""
    corners = mesh.points[cell]
    half, middle = max(float(numpy.ptp(corners, axis=0).max()), 1e-300) * NEAR, (corners.max(axis=0) + corners.min(axis=0)) / 2
    piece, lines = Piece(tuple(middle - half), tuple(middle + half), (0, 0), INSET / (2 * half)), []
    cells_of(around(mesh, piece), piece, lines)
    kept_of(mesh, piece, lines)
    path = outline(piece, mesh.points, cell[None])
    lines.append('<path fill="none" stroke="#ffffff" stroke-width="5" stroke-linejoin="round" d="%s"/><path fill="none" stroke="%s" stroke-width="2.5" stroke-linejoin="round" d="%s"/>'
                 % (path, INK, path))
    return ('<svg class="sheet" viewBox="0 0 %d %d" width="%d" height="%d" role="img" aria-label="%s from near">%s</svg>' % (INSET, INSET, INSET, INSET, label, ''.join(lines)))


def around(mesh, piece):
    """The cells of a mesh that meet a window."""
    def meets(cells):
        corners = mesh.points[cells]
        return ((corners.max(axis=1) >= piece.low) & (corners.min(axis=1) <= piece.high)).all(axis=1) if len(cells) else numpy.zeros(0, dtype=bool)
    quads, left = meets(mesh.quads), meets(mesh.triangles)
    return SimpleNamespace(points=mesh.points, quads=mesh.quads[quads], triangles=mesh.triangles[left], jacobians=numpy.asarray(mesh.jacobians)[quads], angles=numpy.asarray(mesh.angles)[left])
