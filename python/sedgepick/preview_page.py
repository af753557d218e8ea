"""What a preview says: a summary, words for each edge, the page."""
from html import escape
import numpy
from . import preview_picture, quality, report, sheets, slits
from .previews import KINDS

CAUTION = ('Each edge is tried by itself, as the first attempt on the mesh as it is given. A run tries one edge after the other, each on the mesh that those before it left, '
           'so its quads are not these all together.')
POINT = 'Point at an edge, or step through the edges with the keys Page Down and Page Up in the picture: its quad is drawn, and what it gives is said here.'
# the words of the edge that is pointed at stay in view at the foot of the window; without scripts they stand under the picture
SAYS = """<style>.says { position: sticky; bottom: 0; margin: 0; padding: 8px 0; background: var(--paper); border-top: 1px solid var(--line); } @media print { .says { display: none; } }</style>"""


def edge_words(work, edge):
    """An edge and what it would give; nodes have the file's numbers, from 1."""
    shown, ends = edge.shown, 'Edge %d to %d: ' % tuple(sorted(node + 1 for node in edge.ends))
    if shown.refused:
        return ends + 'refused, %s: %s; %s' % (name(shown.refused), KINDS[shown.refused], shown.cost())
    names = ['a new node at (%.6g, %.6g)' % tuple(place) if node is None else str(node + 1) for node, place in zip(edge.nodes, edge.corners)]
    names = names[::-1] if work.surface.clockwise else names
    return ends + 'a quad of the nodes %s and %s; scaled Jacobian %.4f; it replaces %d triangles; %s' % (', '.join(names[:3]), names[3], edge.jacobian, shown.quad.replaced, shown.cost())


def summary(work):
    found = work.looked
    kinds = ['%s %d' % (name(kind), len(found.refused(kind))) for kind in KINDS if found.refused(kind)]
    parts = ' in %d parts' % work.plan.count() if work.plan.count() > 1 else ''
    return ('%s: %d front edges%s, each tried first: %d give a quad, %d refused%s'
            % (work.surface.name, len(found.edges), parts, len(found.quads()), len(found.refused()), ' (%s)' % ', '.join(kinds) if kinds else ''))


def name(kind):
    return kind.replace('_', ' ')


def drawn(work):
    """The picture."""
    surface = work.surface
    cells, hard = surface.triangles.cells, work.plan.hard
    keys, owners = numpy.unique(quality.edge_keys(cells), return_counts=True)
    edges = numpy.intersect1d(numpy.asarray(hard.edges, dtype=numpy.int64), keys[owners == 2])  # those of the boundary are front edges
    nodes = numpy.intersect1d(surface.vertices.cells[:, 0], hard.nodes) if len(hard.nodes) else numpy.zeros(0, dtype=int)
    return preview_picture.draw(preview_picture.Front(surface.points[:, :2], cells, work.looked.edges, [edge_words(work, edge) for edge in work.looked.edges],
                                                      surface.points[slits.ends(edges), :2], surface.points[nodes, :2]))


def sections(work):
    """[(title, rows)] with rows of words, the first of each its name."""
    found, surface, plan = work.looked, work.surface, work.plan
    quads, shown = found.quads(), [edge.shown for edge in found.edges]
    worst = sorted(quads, key=lambda edge: edge.jacobian)[:report.WORST]
    return [
        ('Preview', [('file', surface.name), ('SHA-256 of %s' % surface.name, surface.sha256), ('given', report.given_words(surface)), ('profile', 'grid' if plan.grid else 'none'), ('size', report.size_words(work.options, found.sizes)),
                     ('stop rule', work.options.stop), ('quality', report.quality_words(work.options.quality)), ('parts', '%d (%s)' % (plan.count(), plan.cutter)),
                     ('locked edges', sum(found.joints)), *report.library_rows(),
                     ('options', work.options.words), ('seconds', '%.1f' % work.seconds)]),
        ('Front edges', [('front edges', len(shown)), ('give a quad', len(quads))] + [('refused, %s: %s' % (name(kind), words), len(found.refused(kind))) for kind, words in KINDS.items()]),
        ('Cost', [(name, '%d edges' % sum(map(costs, shown))) for name, costs in (
            ('no insertion, no flip', lambda one: one.insertions + one.flips == 0), ('one insertion', lambda one: one.insertions == 1),
            ('two insertions', lambda one: one.insertions == 2), ('flips', lambda one: one.flips > 0))] + [('most flips of an edge', max((one.flips for one in shown), default=0))]),
        ('Quads with the least scaled Jacobian', list(map(row(work), worst)) or [('none', '')]),
        ('Refused edges', list(map(row(work), found.refused()[:report.LISTED])) + more(len(found.refused())) or [('none', '')]),
        ('Notes', [('warning', words) for words in work.warnings] + [('note', words) for words in surface.notes] or [('none', '')]),
    ]


def row(work):
    """Where an edge is, and what it would give."""
    return lambda edge: ('at (%.6g, %.6g)' % tuple(edge.places[:2].mean(axis=0)), edge_words(work, edge))


def more(count):
    return [('and %d more' % (count - report.LISTED), 'shown in the picture')] if count > report.LISTED else []


def page(work):
    """The page with the picture."""
    warnings = ''.join('<p class="warning">%s</p>' % escape(words) for words in work.warnings)
    shown = '<div id="front">%s</div><p id="says" class="says" aria-live="polite">%s</p>%s' % (drawn(work), POINT, SAYS)
    return report.bodied('Preview of ' + work.surface.name, '<h1>Preview of %s</h1>\n<p>%s</p>\n<p>%s</p>%s\n%s<h2>Quads by scaled Jacobian</h2>\n%s\n<div class="lists">%s</div>'
                         % (escape(work.surface.name), escape(summary(work)), CAUTION, warnings, shown, sheets.draw(work.looked.sheet), report.tables(sections(work))))
