"""A mesh as it grew: a page that steps through the entries of the run's trace. It has the given mesh, as it went to the library, and the trace; its script replays the entries
and draws what it finds, in the file's units."""
import json, os
from html import escape
from . import page_style, picture
from .picture import GREY, INK, QUADS, TOP, TRIANGLES

SCRIPT = os.path.join(os.path.dirname(os.path.abspath(__file__)), 'steps.js')
SPEEDS = (1, 2, 5, 20, 100)  # steps a second
LEGEND = 280
ARRAYS = ('points', 'triangles', 'trace', 'numbers')
STYLE = """<style>.bar { position: sticky; top: 0; z-index: 1; background: var(--paper); padding: 8px 0 4px; border-bottom: 1px solid var(--line); }
.bar button, .bar select { font: inherit; padding: 3px 9px; } .bar input { width: 100%; margin: 8px 0 2px; } #says { margin: 2px 0; font-weight: bold; min-height: 1.45em; }
#log { list-style: none; padding: 0; font-size: 14px; } #log a { color: var(--ink); text-decoration: none; } #log a.here { font-weight: bold; border-left: 4px solid var(--ink); padding-left: 6px; }
#cell { color: var(--dim); min-height: 1.45em; margin: 6px 0 0; } @media print { .bar { position: static; border: 0; } .bar button, .bar select, .bar input { display: none; } }</style>"""
BUTTONS = (('first', 'First', 'the given mesh (Home)'), ('quad-back', '&laquo; Quad', 'back to the quad before (Page Up)'), ('back', '&lsaquo; Back', 'one step back (left arrow)'),
           ('play', 'Play', 'one step after the other, or pause (space)'), ('forward', 'Forward &rsaquo;', 'one step on (right arrow)'),
           ('quad-forward', 'Quad &raquo;', 'on to the next quad (Page Down)'), ('last', 'Last', 'the finished mesh (End)'))
UNFAITHFUL = "The entries do not end in the run's mesh: what this page shows is not to be relied on. Please report it."
HELP = ("Every insertion, flip and quad of the run in order, those of attempts that were refused too; the page replays them on the given mesh. Nodes have the file's numbers, from 1, and "
        'added ones come behind them. Point at a cell for its nodes. The address of a step can be sent: it ends in # and its number.')


def checksum(numbers):
    """FNV-1a of numbers, 32 bits."""
    found = 0x811c9dc5
    for number in numbers:
        found = (found ^ number) * 0x01000193 & 0xffffffff
    return found


def part_of(plan, own, mesh, before):
    """A part as it went to the library, its trace and, to check the page by, the lengths and a checksum of the run's lists; `before` nodes were added by the parts before."""
    cells = [*mesh.triangles.ravel().tolist(), *mesh.quads.nodes.ravel().tolist()]
    return {'points': own.points.ravel(), 'triangles': own.triangles.ravel(), 'trace': mesh.trace, 'numbers': plan.origin[own.nodes] + 1,
            'scale': own.placed.scale, 'shift': list(map(float, own.placed.shift)), 'first': plan.given + before + 1,
            'lists': {'points': len(mesh.points), 'quads': len(mesh.quads), 'triangles': len(mesh.triangles), 'sum': checksum(cells)}}


def parts_of(work):
    """Each part, one after the other; ARRAYS of it are arrays."""
    found, before = [], 0
    for own, mesh in work.result.grown:
        found.append(part_of(work.plan, own, mesh, before))
        before += len(mesh.points) - len(own.points)
    return found


def data_of(work):
    """What the script takes."""
    parts = [{name: value.tolist() if name in ARRAYS else value for name, value in part.items()} for part in parts_of(work)]
    return {'parts': parts, 'clockwise': work.surface.clockwise, 'quads': QUADS, 'triangles': TRIANGLES}


def legend(left, least_jacobian, lines):
    """Classes with the counts of the step; returns where it ends."""
    y = TOP + 12
    count = lambda name, weight='normal': '<text id="count-%s" x="%d" y="%d" text-anchor="end" font-weight="%s" fill="%s"></text>' % (name, left + LEGEND - 10, y, weight, INK if weight == 'bold' else GREY)
    head = lambda label, name: lines.append('<text x="%d" y="%d" font-weight="bold" fill="%s">%s</text>' % (left, y, INK, label) + count(name, 'bold'))

    def row(name, label, fill):
        lines.append('<rect x="%d" y="%d" width="24" height="14" fill="%s" stroke="#333333"/><text x="%d" y="%d" fill="%s">%s</text>' % (left, y - 12, fill, left + 32, y, INK, label) + count(name))

    head('Quads by scaled Jacobian', 'quads')
    for place, (least, fill) in reversed(list(enumerate(QUADS))):
        if least + 0.1 <= min(least_jacobian, 0.3) + 1e-9:
            continue
        y += 21
        row('q%d' % place, '%.1f to %.1f' % (least, least + 0.1), fill)
    y += 34
    head('Triangles by least angle', 'triangles')
    ends = [least for least, _ in TRIANGLES[1:]] + [60]
    for place, (least, fill) in reversed(list(enumerate(TRIANGLES))):
        y += 21
        row('t%d' % place, '%d to %d degrees' % (least, ends[place]), fill)
    for label, name in (('Nodes added', 'added'), ('Edges flipped', 'flips')):
        y += 34 if name == 'added' else 21
        head(label, name)
    return y + 20


def drawn(work):
    """The legend, in a picture whose cells the script draws."""
    lines = []
    foot = picture.grouped(8, LEGEND, lines, lambda: legend(8, work.options.quality.least_jacobian, lines))
    return ('<svg xmlns="http://www.w3.org/2000/svg" class="picture" data-live="" viewBox="0 0 %d %d" width="%d" height="%d" font-size="13" font-family="DejaVu Sans, Verdana, Arial, sans-serif">'
            '%s</svg>\n' % (LEGEND + 8, foot, LEGEND + 8, foot, '\n'.join(lines)))


def bar():
    buttons = ' '.join('<button id="%s" title="%s">%s</button>' % (name, words, label) for name, label, words in BUTTONS)
    speeds = ''.join('<option value="%d"%s>%d a second</option>' % (speed, ' selected' * (speed == 5), speed) for speed in SPEEDS)
    return ('<div class="bar">%s <select id="speed" title="how fast it plays">%s</select><input id="slider" type="range" min="0" max="0" value="0" aria-label="step">'
            '<p id="says" aria-live="polite"></p></div>' % (buttons, speeds))


def entry_count(work):
    """How many entries the traces have: insertions, flips and quads."""
    from .traces import FLIP, HEAD, INSERTION
    found = [0, 0, 0]
    for _, mesh in work.result.grown:
        words, at = mesh.trace.tolist(), 0
        while at < len(words):
            kind = words[at]
            found[0 if kind == INSERTION else 1 if kind == FLIP else 2] += 1
            at += 6 if kind == INSERTION else 3 if kind == FLIP else HEAD + words[at + HEAD - 1]
    return found


def summary(work):
    found, parts = entry_count(work), len(work.result.grown)
    return '%s: %d steps%s: %d insertions, %d flips, %d quads' % (work.surface.name, sum(found), ' in %d parts, one after the other' % parts if parts > 1 else '', *found)


def page(work):
    """The page, which needs nothing beside itself."""
    with open(SCRIPT, encoding='utf-8') as file:
        script = file.read()
    data = json.dumps(data_of(work), separators=(',', ':'))
    name = escape(work.surface.name)
    return page_style.bodied('%s as it grew' % work.surface.name,
                             '%s<h1>%s as it grew</h1>\n<p>%s</p>\n<p>%s</p>\n<p id="unfaithful" class="warning" hidden>%s</p><noscript><p class="warning">This page needs JavaScript.</p></noscript>\n'
                             '%s\n%s<p id="cell" aria-live="polite"></p><h2>Steps</h2>\n<ul id="log"></ul>\n'
                             % (STYLE, name, escape(summary(work)), HELP, UNFAITHFUL, bar(), drawn(work)),
                             '<script>const DATA = %s;</script>\n<script>\n%s</script>\n' % (data.replace('</', '<\\/'), script))
