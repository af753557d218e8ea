"""The report of a run, as text and as a page with the picture."""
import os
from dataclasses import dataclass
from datetime import datetime
from html import escape
import numpy
from . import closing, library, losses, meshing, picture, planes, quality, sheets, slits
from .front import Quality
from .msh import meshio
from .page_style import bodied
from .previews import KINDS
from .surfaces import visible

WORST = 10   # cells that a list names
LISTED = 50  # lost edges or points that a list names


@dataclass
class Drawn:
    """What the picture shows."""
    points: object
    quads: object
    triangles: object
    jacobians: object
    angles: object
    marks: list
    lost_edges: list
    lost_points: list
    kept_edges: object   # lines and borders of the file that stand
    kept_points: object
    own: object = None   # of each quad, whether it is run_front's own; where the mesh was finished


def summary(work):
    """A line on the cells, and one on the file's lines, points and borders where it has such."""
    result, given = work.result, work.surface
    left, quads = len(result.triangles), len(result.quads)
    cells = ('%s: %s to %s and %s (%.1f %% quads), %s%s added, %s dropped, %s%.1f s'
             % (given.name, many(len(given.triangles.cells), 'triangle'), many(quads, 'quad'), many(left, 'triangle'), 100 * quads / max(quads + left, 1), least_words(work),
                many(len(result.added), 'node'), many(meshing.dropped(work), 'node'), 'accepted, ' if work.verdict else '', work.seconds))
    return '\n'.join([cells] + ['; '.join(loss.words() for loss in work.losses)] * bool(work.losses))


def least_words(work):
    """The least angles of quads and of triangles, where there are such."""
    kinds = (('quads', work.result.quads), ('triangles', work.result.triangles))
    return ''.join('least angle of %s %.1f degrees, ' % (name, quality.least_angles(work.points, cells).min()) for name, cells in kinds if len(cells))


def many(count, word):
    return '%d %s%s' % (count, word, '' if count == 1 else 's')


def slab_words(work):
    """What a file of a job was given, was charged and left."""
    return '%s: %s%s' % (work.surface.name, account(work.slab), '; nothing is written: ' + work.fault if work.fault else '')


def account(slab):
    return 'share %d, entitled to %d attempts, limit %d, charged %d, leaves %d' % (slab.share, slab.entitled, slab.limit, slab.charged, slab.left)


def job_words(job):
    return 'job: %d of %d attempts charged in %d files, each with a share of %d' % (job.charged, job.allowance, job.done, job.share)


def middle(points, cell):
    return points[cell, :2].mean(axis=0)


def worst(points, cells, values, letter, words):
    """[(label, place, words)] of the cells with the least values."""
    order = numpy.argsort(values, kind='stable')[:WORST]
    return [('%s%d' % (letter, i + 1), middle(points, cells[place]), words % values[place]) for i, place in enumerate(order)]


def sections(work):
    """[(title, rows)] with rows of words, the first of each its name."""
    result, points, surface = work.result, work.points, work.surface
    jacobians, least = quality.scaled_jacobians(points, result.quads), quality.least_angles(points, result.quads)
    angles = quality.least_angles(points, result.triangles)
    total = lambda name: sum(getattr(counts, name) for counts in result.counts)
    after = numpy.bincount(quality.components(result.triangles)) if len(result.triangles) else []
    made = 2 * len(result.quads) + len(result.triangles)
    quad_rows = worst(points, result.quads, jacobians, 'q', 'scaled Jacobian %.4f')
    triangle_rows = worst(points, result.triangles, angles, 't', 'least angle %.2f degrees')
    place = lambda row: (row[0], row[2] + ' at (%.6g, %.6g)' % tuple(row[1]))
    quads, left = len(result.quads), len(result.triangles)
    counted = [('quads', '%d (%.2f %% of the cells)' % (quads, 100 * quads / max(quads + left, 1))),
               ('triangles left over', '%d (%.1f %% of what the cells stand for, a quad counting as two)'
                % (left, 100 * left / max(made, 1))),
               ('nodes added', len(result.added)), ('nodes in no cell', '%d, %s' % (meshing.dropped(work), 'kept in the file' if work.options.keep_nodes else 'left out')),
               ('components of triangles', '%d before, %d after%s' % (work.given_components, len(after), ', the largest of %d' % max(after) if len(after) else ''))]
    lost = [(loss.what, loss.stand()) for loss in work.losses]
    if lost and not work.options.free:
        lost.append(('kept by', '%d locked edges%s' % (sum(result.joints), ', and slits' if result.notes else '')))
    replaced = ('triangles that a quad replaced', '%d to %d, %.2f on average' % (result.replaced.min(), result.replaced.max(), result.replaced.mean())) \
        if len(result.quads) else None
    if result.finished:
        replaced = ('mean scaled Jacobian, quads under 0.5', '%.3f, %d' % (jacobians.mean(), (jacobians < 0.5).sum()))
    return [
        ('Run', [('file', surface.name), *digests(work), ('given', given_words(surface)),
                 ('profile', 'grid' if work.options.grid else 'none'),
                 ('size', size_words(work.options, result.sizes)),
                 *([('in the job', account(work.slab))] if work.slab else []), ('stop rule', work.options.stop), ('quality', quality_words(work.options.quality)),
                 ('parts', 'one' if len(result.sizes) == 1 else '%d (%s), %s' % (len(result.sizes), result.cutter, 'finished as one' if result.finished else
                                                                                 '%d edges between them, all found' % work.cuts)),
                 ('coordinates rounded', '%d of given nodes on their way to the library, %d of added ones on their way back' % result.rounded),
                 *library_rows(), ('options', work.options.words), ('seconds', '%.1f' % work.seconds)]),
        *([('Verdict', work.verdict)] if work.verdict else []),
        ('Result', counted),
        *([('Finishing', closing.rows(surface.triangles.cells, result))] if result.finished else []),
        ('Attempts', [('attempts', total('attempts')), ('pairs of side nodes tried', total('trials'))] + [('refused: ' + words, total(name)) for name, words in KINDS.items()] + [('ended by a limit', total('limit'))]),
        ('Area', [('before', '%.15g' % work.areas[0]), ('after', '%.15g' % work.areas[1]), ('boundary', 'every edge found')] + exact_words(work)),
        ('Quads', [('least scaled Jacobian', '%.4f' % jacobians.min()), ('least angle', '%.2f degrees' % least.min()), replaced] + list(map(place, quad_rows))
         if len(result.quads) else [('none', '')]),
        ('Quality sheet', sheets.worst_words(result.sheet) + steps(work)),
        ('Leftover triangles', [('under 10 degrees', int((angles < 10).sum()))] + list(map(place, triangle_rows)) if len(angles) else [('none', '')]),
        ('Lines, points and borders of the file', lost + [(loss.what, at(points, nodes)) for loss in work.losses for nodes in loss.lost[:LISTED]]
         or [('none in the file', '')]),
        ('Notes', [('warning', words) for words in work.warnings] + [('note', words) for words in surface.notes] or [('none', '')]),
    ], Drawn(points[:, :2], result.quads, result.triangles, jacobians, angles, [row[:2] for row in quad_rows[:5] + triangle_rows[:5]],
             [points[nodes, :2] for loss in work.losses for nodes in loss.lost if numpy.ndim(nodes)],
             [points[nodes, :2] for loss in work.losses for nodes in loss.lost if not numpy.ndim(nodes)], *kept(work),
             result.finished.own if result.finished else None)


def steps(work):
    """The rows of the histogram."""
    return [('scaled Jacobian ' * (i < sheets.STEPS) + name, bar) for i, (name, bar) in enumerate(sheets.histogram(work.result.sheet))]


def kept(work):
    """The places of the lines, borders and points of the file that stand."""
    hard = losses.hard(work.surface)
    edges = numpy.intersect1d(hard.edges, quality.edge_keys(work.result.quads, work.result.triangles))
    nodes = numpy.intersect1d(work.surface.vertices.cells[:, 0], numpy.concatenate([work.result.quads.ravel(), work.result.triangles.ravel()]))
    return work.points[slits.ends(edges), :2], work.points[nodes, :2]


def job_rows(works, job):
    """[(title, rows)] of the job itself."""
    outcome = lambda work: '; %d quads and %d triangles' % (len(work.result.quads), len(work.result.triangles)) if not work.fault else ''
    return [('Job', [('allowance', '%d attempts' % job.allowance), ('files', '%d, each with a share of %d' % (job.meshes, job.share)),
                     ('charged', '%d attempts' % job.charged), ('left', '%d attempts, behind the last file' % job.left),
                     ('each file', 'run once, whole, with all memory that the library takes')]),
            ('Files', [('%d of %d' % (place, len(works)), slab_words(work) + outcome(work)) for place, work in enumerate(works, 1)])]


def digests(work):
    """By which the file that was read and the one that was written can be told from others."""
    output, read = work.options.output, work.surface.name
    made = 'standard output' if output == '-' else os.path.basename(output)
    kinds = (' as read', ' as written') if read == made else ('', '')
    return [('SHA-256 of %s%s' % (read, kinds[0]), work.surface.sha256), ('SHA-256 of %s%s' % (made, kinds[1]), work.outputs.digest(output))]


def library_rows():
    """Which library ran: what it says of itself."""
    return [('library', 'sedgepick %s, interface %d' % (library.version(), library.abi())), ('commit', library.commit()), ('build', library.build()), ('meshio', meshio.__version__)]


def given_words(surface):
    return '%d triangles, %d nodes' % (len(surface.triangles.cells), planes.given_count(surface))


def size_words(options, taken):
    """The size, or those of the parts."""
    sizes = sorted({'%.6g' % size for size in taken}, key=float)
    return ('auto: ' if options.size is None and not options.grid else '') + (sizes[0] if len(sizes) == 1 else '%s to %s, part by part' % (sizes[0], sizes[-1]))


def quality_words(q):
    return ('scaled Jacobian at least %.6g, angle at least %.6g degrees (cosine at most %.14g), side nodes at %.6g to %.6g sizes, %d pairs%s'
            % (q.least_jacobian, q.least_angle(), q.largest_cosine, q.side_low, q.side_high, q.pairs, ' (the standard set)' if q == Quality() else ''))


def exact_words(work):
    """The claim of the grid profile."""
    if not work.exact:
        return []
    area, step = work.exact
    return [('cells without sign, summed', '%d halves of squares of %.17g, before and after, exactly' % (area, step))]


def at(points, nodes):
    ends = ['(%.6g, %.6g)' % tuple(points[node, :2]) for node in numpy.atleast_1d(nodes)]
    return 'lost: ' + ' to '.join(ends)


def text(work):
    return lines('sedgepick-mesh: report', sections(work)[0])


def job_text(works, job):
    """The job, then each file that is written."""
    return '\n'.join([lines('sedgepick-mesh: report of a job', job_rows(works, job))]
                     + [lines('%s in the job' % work.surface.name, sections(work)[0]) for work in works if not work.fault])


def lines(head, titled):
    out, wide = [head, ''], max(len(name) for _, rows in titled for name, _ in rows)
    for title, rows in titled:
        out += [title] + ['  %-*s  %s' % (wide, visible(name), visible(str(value))) for name, value in rows] + ['']
    return '\n'.join(line.rstrip() for line in out)


def tables(titled):
    cells = lambda pairs: ''.join('<tr><td>%s</td><td>%s</td></tr>' % (escape(visible(name)), escape(visible(str(value)))) for name, value in pairs)
    return ''.join('<section><h2>%s</h2><table>%s</table></section>\n' % (escape(title), cells(pairs)) for title, pairs in titled)


def body(work, place=0):
    """A file's name, summary, warnings, picture and lists; `place` is its place on a page with several."""
    rows, drawn = sections(work)
    bars = steps(work)  # drawn above
    rows = [(title, [row for row in own if row not in bars]) for title, own in rows]
    warnings = ''.join('<p class="warning">%s</p>' % escape(words) for words in work.warnings)
    return ('<h1>%s</h1>\n<p class="date">%s</p>\n<p>%s</p>%s\n%s%s<h2>Quads by scaled Jacobian</h2>\n%s\n<div class="lists">%s</div>'
            % (escape(work.surface.name), datetime.now().astimezone().strftime('%Y-%m-%d %H:%M %Z'), escape(summary(work)).replace('\n', '<br>\n'), warnings, picture.draw(drawn, place), picture.insets(drawn), sheets.draw(work.result.sheet), tables(rows)))


def page(work):
    return bodied(work.surface.name, body(work))


def job_page(works, job):
    faults = ''.join('<p class="warning">%s</p>' % escape(slab_words(work)) for work in works if work.fault)
    return bodied('Job', '<h1>Job</h1>\n<p>%s</p>%s\n%s%s' % (escape(job_words(job)), faults, tables(job_rows(works, job)),
                                                              ''.join(body(work, place) for place, work in enumerate(works) if not work.fault)))
