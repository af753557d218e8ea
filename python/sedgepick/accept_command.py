"""sedgepick-accept: judges a mesh file against the triangles that it was made of, exactly.

  sedgepick-accept slab.msh quads.msh
  sedgepick-accept slab.msh recombined.msh --thin 0 --report verdict.html
  sedgepick-accept slab.msh quads.inp --near 1e-9 --json

GIVEN has triangles, and may have lines and groups. JUDGED has quads and triangles, whoever made it.
Accepted is a mesh whose quads turn left at each node and have no corner sharper than --least-angle,
whose triangles have no angle under --thin, which covers the given region once with the same
boundary, and which has the given lines and borders of groups as edges. The judge is the proved
function sedgepick_accept; there is no tolerance but 1e-9 of a cosine.

Nodes of JUDGED are given nodes where x and y are the same bit for bit. A format that rounds moves
them: --near DISTANCE takes a node for the given one within that distance, and the given mesh is
then judged with its nodes as JUDGED has them, which the verdict says. Coordinates go to the judge
times a power of two, which rounds nothing; where there is none that takes all of them within its
range, the files are refused.

Exit status: 0 accepted, 1 not accepted, 2 wrong options or refused: a file that cannot be read, or
is beyond the judge's limits."""
import argparse
import json
import os
import sys
from html import escape
import numpy
from . import (
    NoLibrary, Refused, files, library, matching, meshes, planes, quality, surfaces, verdicts,
)
from .options import PAGES, angle_of, number_from
from .report import bodied, lines, many, tables


def arguments(words):
    head, text = __doc__.split('\n', 1)
    parser = argparse.ArgumentParser(
        prog='sedgepick-accept', description=text.strip('\n'),
        formatter_class=argparse.RawDescriptionHelpFormatter,
    )
    add = parser.add_argument
    add('given', metavar='GIVEN', help='the mesh file with the triangles')
    add('judged', metavar='JUDGED', help='the mesh file with the quads')
    add(
        '--near', type=number_from(0.0, sys.float_info.max), metavar='DISTANCE',
        help='a node of JUDGED within this distance of a given one is that one',
    )
    add(
        '--least-angle', dest='cosine', type=angle_of, default=0.90630778703665, metavar='DEGREES',
        help="least angle of a quad's corner, from 8.11 to 60 degrees; 25 if left out",
    )
    add(
        '--thin', type=number_from(0.0, 60.0), default=10.0, metavar='DEGREES',
        help=(
            'least angle of a triangle, from 0, which asks nothing, to 60 degrees; %(default)g if '
            'left out'
        ),
    )
    add('--free', action='store_true', help='do not ask for the lines and borders of GIVEN')
    add(
        '--from', dest='form', metavar='FORMAT',
        help="meshio's name of GIVEN's format, where the suffix does not say it",
    )
    add('--judged-from', metavar='FORMAT', help="that of JUDGED's")
    add(
        '--report', metavar='FILE',
        help='the verdict, clause by clause: .html a page, otherwise text',
    )
    add('--json', action='store_true', help='the verdict as JSON on standard output')
    add('-q', '--quiet', action='store_true', help='no words on standard output')
    add('--version', action='version', version='sedgepick-accept ' + library.VERSION)
    return parser.parse_args(words)


class Pair:
    """Two files, matched and judged."""

    def __init__(self, options):
        self.options = options
        with named(options.given):
            self.surface = surfaces.checked(files.read(options.given, options.form))
            if self.surface.quads:
                raise surfaces.Fault(
                    'it has quads: what is judged stands for the triangles of a file without them'
                )
        with named(options.judged):
            self.points, self.quads, self.left, *self.places, self.sha256 = meshes.read_any(
                options.judged, options.judged_from
            )
            check_nodes(self.points, self.quads, self.left)
            self.points = planes.onto(self.surface, self.points)
        given = self.surface.points
        self.match = (
            matching.near(given, self.points, options.near) if options.near
            else matching.by_bits(given, self.points)
        )
        with named(options.judged):
            self.judge()

    def judge(self):
        """Both meshes by the given numbers, and the verdict."""
        surface, number, options = self.surface, self.match.number, self.options
        points = numpy.zeros((self.match.given + self.match.added, 2))
        points[:self.match.given] = surface.points[:, :2]
        points[number] = self.points[:, :2]
        turned = lambda cells: number[cells][:, ::-1] if surface.clockwise else number[cells]
        numbers = numpy.zeros(len(points), dtype=numpy.int64)
        numbers[number] = numpy.arange(1, len(number) + 1)
        joints = () if options.free else verdicts.joints_of(surface)
        self.placed = points
        self.found = verdicts.judge(
            points[:self.match.given], surface.triangles.cells, points, turned(self.quads),
            turned(self.left), joints, options.cosine, options.thin, numbers,
        )
        used = numpy.concatenate([number[self.quads].ravel(), number[self.left].ravel()])
        self.dropped = len(numpy.setdiff1d(surface.triangles.cells, used))

    def accepted(self):
        return bool(self.found.verdict.accepted)

    def faults(self):
        """What does not hold, with the offender's place in the file."""
        where, found = dict(zip(('quad', 'triangle'), self.places)), []
        for clause, words in self.found.clauses():
            kind, number, rest = (words or '').split(' ', 2) if words else ('', '', '')
            if kind in where:
                words = (
                    '%s %s, cell %d of the file, %s'
                    % (kind, number, where[kind][int(number) - 1], rest)
                )
            found += [(clause, words)] if words else []
        return found

    def least(self, cells):
        return float(quality.least_angles(self.points, cells).min()) if len(cells) else None

    def summary(self):
        quads, left = len(self.quads), len(self.left)
        angles = ''.join(
            'least angle of %s %.1f degrees, ' % (name, self.least(cells))
            for name, cells in (('quads', self.quads), ('triangles', self.left)) if len(cells)
        )
        return (
            '%s: %s; %s and %s (%.1f %% quads), %s%s added, %s dropped%s'
            % (
                os.path.basename(self.options.judged),
                'accepted' if self.accepted() else 'not accepted', many(quads, 'quad'),
                many(left, 'triangle'), 100 * quads / max(quads + left, 1), angles,
                many(self.match.added, 'node'), many(self.dropped, 'node'), self.near_words(),
            )
        )

    def near_words(self):
        return (
            '; %d nodes lie up to %g off their given ones, and are judged as %s has them' % (
                self.match.moved, self.options.near, os.path.basename(self.options.judged)
            )
            if self.options.near and self.match.moved else ''
        )

    def sections(self):
        """[(title, rows)] of the report."""
        options, faults = self.options, dict(self.faults())
        rows = [
            (name, 'no: %s' % faults[name] if name in faults else words)
            for name, words in self.found.rows()
        ]
        least = [
            ('least angle of %s' % name, '%.4f degrees' % self.least(cells))
            for name, cells in (('quads', self.quads), ('triangles', self.left)) if len(cells)
        ]
        thin = 'an angle of at least %g degrees' % options.thin if options.thin else 'nothing'
        near = 'within %g%s' % (options.near, self.near_words()) if options.near else 'bit for bit'
        given = [
            ('given', options.given),
            ('SHA-256 of it', self.surface.sha256),
            ('judged', options.judged),
            ('SHA-256 of it', self.sha256),
            ('asked of quads', 'a cosine of at most %.14g and 1e-9' % options.cosine),
            ('asked of triangles', thin),
            ('nodes matched', near),
            ('library', 'sedgepick %s' % library.VERSION),
            ('commit', library.commit()),
        ]
        cells = [('quads', len(self.quads)), ('triangles', len(self.left)), *least]
        return [
            ('Files', given),
            ('Verdict', rows + [('nodes dropped', self.dropped)]),
            ('Mesh', cells),
        ]

    def facts(self):
        """What --json prints."""
        options, faults = self.options, dict(self.faults())
        return {
            'accepted': self.accepted(),
            'clauses': [
                {'name': name, 'holds': words is None, 'offender': faults.get(name)}
                for name, words in self.found.clauses()
            ],
            'quads': len(self.quads), 'triangles': len(self.left),
            'least_angle_of_quads': self.least(self.quads),
            'least_angle_of_triangles': self.least(self.left), 'nodes_added': self.match.added,
            'nodes_dropped': self.dropped, 'near': options.near, 'nodes_moved': self.match.moved,
            'groups': [int(size) for size in self.found.verdict.sizes],
            'odd_groups': int(self.found.verdict.odd), 'cosine': options.cosine,
            'thin': options.thin, 'given': {'name': options.given, 'sha256': self.surface.sha256},
            'judged': {'name': options.judged, 'sha256': self.sha256}, 'version': library.VERSION,
        }


class named:
    """Puts a file's name before a fault."""

    def __init__(self, path):
        self.path = path

    def __enter__(self):
        return self

    def __exit__(self, kind, fault, trace):
        if isinstance(fault, (surfaces.Fault, Refused, OSError)):
            raise surfaces.Fault('%s: %s' % (self.path, fault)) from None


def check_nodes(points, quads, left):
    """Every node of a cell is there, and lies where a judge can look at it."""
    for word, cells in (('quad', quads), ('triangle', left)):
        files.check_nodes(word, cells, len(points))
    wrong = numpy.flatnonzero(~numpy.isfinite(points[:, :2]).all(axis=1))
    if len(wrong):
        raise surfaces.Fault('node %d is not at a finite place' % (wrong[0] + 1))


def report_of(pair, page):
    title = (
        'sedgepick-accept: %s against %s'
        % (os.path.basename(pair.options.judged), os.path.basename(pair.options.given))
    )
    if not page:
        return lines(title, pair.sections())
    warned = ''.join('<p class="warning">%s</p>' % escape(words) for _, words in pair.faults())
    return bodied(title, '<h1>%s</h1>\n<p>%s</p>%s\n%s'
                  % (escape(title), escape(pair.summary()), warned, tables(pair.sections())))


def main(words=None):
    options = arguments(words)
    try:
        pair = Pair(options)
        if options.report:
            with open(options.report, 'w', encoding='utf-8') as file:
                file.write(report_of(pair, options.report.lower().endswith(PAGES)))
    except (surfaces.Fault, Refused, NoLibrary, OSError, MemoryError) as fault:
        print('sedgepick-accept: %s' % fault, file=sys.stderr)
        return 2
    if options.json:
        print(json.dumps(pair.facts(), indent=1))
    elif not options.quiet:
        print('\n'.join([pair.summary()] + ['%s: no; %s' % fault for fault in pair.faults()]))
    return 0 if pair.accepted() else 1
