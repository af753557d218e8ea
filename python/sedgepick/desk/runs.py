"""What a task does, in a child process of its own: reads a file, looks at its front, or meshes it. It takes the package as the command does, and is the one place of the
desk that does. Started as `python3 -m sedgepick.desk.runs`; the task is a line of JSON on standard input, and what it says are lines of JSON on standard output."""
import json, os, resource, signal, sys, threading, time
from datetime import datetime
import numpy
from .. import files, groups, library, losses, mesh_files, meshing, options, parts, preview_edges, preview_page, quality, report, sheets, sizes, slits, steps_page, surfaces
from ..apart import lower
from ..front import EVEN_COMPONENTS, MOST_GIVEN, Refused
from ..previews import KINDS
from . import fields, packing, papers

DATA, MESH, REPORT, SHEET, TABLE = 'data.bin', 'mesh', 'report.html', 'sheet.html', 'quality.csv'
JOINT = 'joint'      # the group of the edges that are locked at the desk
WORST = 12           # cells that the page lists
MOST_STEPS = 200000  # triangles of a mesh whose steps the page can take: their replay takes some seconds
PROGRESS = 0.1       # seconds between two words on it
NOTHING = numpy.zeros(0)


class NotAccepted(surfaces.Fault):
    """The mesh was made and judged, and is not accepted; a sheet says which clauses do not hold."""

    def __init__(self, words, output):
        super().__init__(words)
        self.output = output


class Told:
    """Says how far the task is."""
    last = 0.0

    def stage(self, words, done=0, count=0):
        now = time.monotonic()
        if done in (0, count) or now - self.last > PROGRESS:
            self.last = now
            say(stage=words, done=done, count=count)


def say(**facts):
    sys.stdout.write(json.dumps(facts) + '\n')
    sys.stdout.flush()


# ---- the child's life

def confine(task):
    """The limits of this process; it ends with the server, whose end of the pipe is then closed."""
    lower(resource.RLIMIT_AS, int(task['megabytes']) << 20)
    lower(resource.RLIMIT_CPU, 2 * int(task['seconds']) + 10)
    lower(resource.RLIMIT_CORE, 0)
    lower(resource.RLIMIT_FSIZE, 4 << 30)
    threading.Thread(target=follow_server, daemon=True).start()


def follow_server():
    """Ends this process and what it started once the server is gone."""
    os.read(0, 1)
    os.killpg(os.getpgrp(), signal.SIGKILL)


def main():
    task = json.loads(read_line())
    confine(task)
    try:
        facts = {'read': read, 'front': look, 'mesh': mesh}[task['kind']](task, Told())
        say(state='done', **facts)
    except NotAccepted as fault:
        refuse(str(fault), sheet=True, output=fault.output)
    except (surfaces.Fault, library.NoLibrary, Refused, OSError) as fault:
        refuse(str(fault))
    except MemoryError:
        refuse('it takes over %d MB of memory' % task['megabytes'])
    os._exit(0)  # threads that still run have nothing but memory


def read_line():
    """The first line of standard input, without what may follow."""
    found = b''
    while not found.endswith(b'\n'):
        part = os.read(0, 1)
        if not part:
            break
        found += part
    return found


def refuse(words, **more):
    field = fields.field_of(words)
    say(state='refused', words=plain(words), field=field, **more)


def plain(words):
    """A fault of the command in the words of the page, which has fields and no options."""
    words = words.replace(', or --flatten sets every z to 0', '').replace('leave --grid out', 'leave the grid profile out')
    for field in fields.FIELDS:
        if field.option:
            words = words.replace(field.option + ' ', field.label.lower() + ' ').replace(field.option + ':', field.label.lower() + ':')
    return words


# ---- the file

def taken(task, told, words=()):
    """The file read and checked, with what is locked at the desk among its lines: a Work of the command."""
    told.stage('Reading the file')
    values = task.get('values', {})
    output = stem(task['name']) + '-quads' + fields.filled(values)['format']
    chosen = options.arguments([*words, '--output=' + output, '--', task['name']], '')
    surface = files.read(task['path'], None, chosen.limits)
    surface.name = surfaces.visible(task['name'])
    surface = surfaces.checked(surface, chosen.settings.flatten)
    work = mesh_files.Work(surface, chosen.settings, options=chosen, given_components=int(quality.components(surface.triangles.cells).max()) + 1)
    lock(surface, task.get('joints', ()))
    return work


def stem(name):
    """A file's name without its suffix, as it is shown: it names no place on the disk."""
    return surfaces.visible(os.path.splitext(name)[0].replace('/', '_').replace('\\', '_'))[:80] or 'slab'


def lock(surface, pairs):
    """Puts edges among the lines of the file, in a group of their own; a Fault where one is no edge."""
    if not len(pairs):
        return
    pairs = numpy.array(pairs, dtype=numpy.int64).reshape(-1, 2)
    keys = quality.keys(quality.sides(surface.triangles.cells))
    wrong = numpy.flatnonzero(~numpy.isin(quality.keys(pairs), keys))
    if len(wrong):
        raise surfaces.Fault('a locked edge, between the nodes %d and %d, is no edge of the mesh' % tuple(pairs[wrong[0]] + 1))
    lines, count = surface.lines, len(surface.lines.cells)
    more = lambda values, fill: numpy.concatenate([values, numpy.full(len(pairs), fill, dtype=values.dtype)])
    name = next(name for name in (JOINT, *('%s %d' % (JOINT, i) for i in range(2, 999))) if name not in lines.sets and name not in surface.names)
    number = max([number for number, _ in surface.names.values()] + [0]) + 1
    tags = {tag: more(values, number if tag == 'gmsh:physical' else 0) for tag, values in lines.tags.items()}
    sets = {own: more(values, False) for own, values in lines.sets.items()}
    sets[name] = numpy.arange(count + len(pairs)) >= count
    surface.lines = surfaces.Marked(numpy.concatenate([lines.cells.reshape(-1, 2), pairs]), tags, sets)
    if surface.names:
        surface.names[name] = (number, 1)


def planned(work):
    """Cuts the work into parts."""
    settings, surface = work.settings, work.surface
    hard = losses.hard(surface, settings.free)
    work.plan = parts.planned(surface.points, surface.triangles.cells, 0.0 if settings.grid else settings.size, hard, settings.grid, False, settings.stop == EVEN_COMPONENTS)
    surface.notes += work.plan.told


def words32(array):
    return numpy.ascontiguousarray(array, dtype='<u4')


def kept_of(surface):
    """(pairs, nodes): the lines and borders that are edges of triangles, and the points, that a run keeps."""
    hard, cells = losses.hard(surface), surface.triangles.cells
    edges = numpy.intersect1d(numpy.asarray(hard.edges, dtype=numpy.int64), quality.keys(quality.sides(cells)))
    marked = numpy.concatenate([surface.vertices.cells[:, 0], *(own for name, own in surface.hard.items() if name != 'point of the geometry')]).astype(numpy.int64)
    return slits.ends(edges), numpy.intersect1d(marked, cells)


def file_quads(surface):
    """The quads of the file, which stay as they are; their nodes in a row, counterclockwise."""
    found = numpy.concatenate([numpy.zeros((0, 4), dtype=numpy.int64), *groups.kept(surface)])
    return words32(numpy.where((quality.areas(surface.points, found) < 0)[:, None], found[:, ::-1], found))


def groups_of(surface):
    """[[name, what, how many]] of the groups of the file."""
    kinds = (('triangles', surface.triangles), ('line edges', surface.lines), ('points', surface.vertices))
    found = [[name, what, int(numpy.count_nonzero(values))] for what, marked in kinds for name, values in marked.sets.items() if numpy.any(values)]
    return found + [[name, 'nodes', len(own)] for name, own in surface.hard.items() if name != 'point of the geometry']


def read(task, told):
    """The given mesh, for the page to draw."""
    work = taken(task, told)
    surface, cells = work.surface, work.surface.triangles.cells
    keys, owners = numpy.unique(quality.keys(quality.sides(cells)), return_counts=True)
    pairs, nodes = kept_of(surface)
    angles, mean = quality.least_angles(surface.points, cells), quality.mean_edge(surface.points, cells)
    used = surface.points[numpy.unique(cells), :2]
    facts = {'name': surface.name, 'sha256': surface.sha256, 'nodes': len(used), 'mean_edge': mean, 'least_angle': float(angles.min()),
             'low': used.min(axis=0).tolist(), 'high': used.max(axis=0).tolist(), 'groups': groups_of(surface), 'notes': surface.notes, 'clockwise': bool(surface.clockwise)}
    write(task, facts, {'points': surface.points[:, :2].astype('<f8'), 'triangles': words32(cells), 'angles': angles.astype('<f4'), 'front': words32(slits.ends(keys[owners == 1])),
                        'kept': words32(pairs), 'kept_nodes': words32(nodes), 'file_quads': file_quads(surface)})
    return {}


def write(task, facts, arrays):
    with open(os.path.join(task['folder'], DATA), 'wb') as file:
        file.write(packing.packed(facts, arrays))


# ---- the front

def look(task, told):
    """What each edge of the front would give, tried first."""
    work = taken(task, told, fields.words_of(task['values']))
    planned(work)
    plan, chosen, told_part = work.plan, work.options, lambda done, count: told.stage('Looking at the front', done, count)
    told.stage('Looking at the front', 0, plan.count())
    first = None if chosen.raw or chosen.size is not None or chosen.grid else [taken_size(plan.fitted(which)) for which in range(plan.count())]
    found = work.looked = preview_edges.looked(plan, chosen.stop, chosen.quality, first, told_part)
    kinds = [None, *KINDS]
    corners = numpy.array([edge.corners if edge.nodes else numpy.zeros((4, 2)) for edge in found.edges], dtype='<f8').reshape(-1, 8)
    facts = {'words': [preview_page.edge_words(work, edge) for edge in found.edges], 'kinds': kinds[1:], 'summary': preview_page.summary(work).split(': ', 1)[1],
             'locked': int(sum(found.joints)), 'size': report.size_words(chosen, found.sizes), 'caution': preview_page.CAUTION}
    write(task, facts, {'ends': words32([edge.ends for edge in found.edges]), 'places': numpy.array([edge.places for edge in found.edges], dtype='<f8'), 'corners': corners,
                        'refused': numpy.array([kinds.index(edge.shown.refused) for edge in found.edges], dtype='|u1'),
                        'jacobians': numpy.array([edge.jacobian for edge in found.edges], dtype='<f4'),
                        'cost': words32([(edge.shown.insertions, edge.shown.flips) for edge in found.edges])})
    return {}


def taken_size(own):
    """The size that a run of this part takes, in the units of the file."""
    return sizes.single(own.points, own.triangles, own.size) / own.placed.scale


# ---- the run

class Room:
    """The files of a run under names of the desk's own, in its folder; what the report calls them is another name."""

    def __init__(self, folder):
        self.folder, self.made = folder, {}

    def room(self, path):
        self.made[path] = os.path.join(self.folder, MESH + os.path.splitext(path)[1])
        return self.made[path]

    def digest(self, path):
        return papers.sha256(self.made[path])


def mesh(task, told):
    """The run: the mesh, its report, its sheet, and what the page draws."""
    begin = time.perf_counter()
    work = taken(task, told, fields.words_of(task['values']))
    chosen, surface = work.options, work.surface
    work.outputs = Room(task['folder'])
    told.stage('Cutting it into parts' if len(surface.triangles.cells) > MOST_GIVEN else 'Running the front')
    planned(work)
    steps = len(surface.triangles.cells) <= MOST_STEPS
    told.stage('Running the front', 0, work.plan.count())
    result = parts.ran(work.plan, chosen.stop, chosen.quality, lambda done, count: told.stage('Running the front', done, count), chosen.jobs, meshing.chosen(work.settings, work.plan), trace=True)
    rounds = rounds_of(work.plan, result)
    told.stage('Closing what is left' if not chosen.raw else 'Checking the mesh')
    meshing.finish(work, result)
    mesh_files.check_losses(work)
    told.stage('Writing the mesh and judging it')
    try:
        mesh_files.written(work)
    except surfaces.Fault as fault:
        if work.judged is None or work.judged.verdict.accepted:
            raise
        text(task, SHEET, papers.sheet(papers.facts_of(work, {**drawn_facts(work, rounds)[0], 'date': now()})))
        os.remove(work.outputs.made[chosen.output])
        raise NotAccepted(str(fault), chosen.output) from fault
    work.seconds = time.perf_counter() - begin
    told.stage('Writing the report and the sheet')
    finished = drawn_facts(work, rounds)
    text(task, REPORT, report.page(work))
    cells = work.number[work.result.quads] + 1
    text(task, TABLE, sheets.table(work.result.sheet, cells[:, ::-1] if surface.clockwise else cells))
    facts, arrays = finished
    if steps:
        facts['steps'], own = steps_of(work)
        arrays.update(own)
    facts['date'] = now()
    text(task, SHEET, papers.sheet(papers.facts_of(work, facts)))
    write(task, facts, arrays)
    return {'output': chosen.output}


def now():
    return datetime.now().astimezone().strftime('%Y-%m-%d %H:%M %Z')


def text(task, name, content):
    with open(os.path.join(task['folder'], name), 'w', encoding='utf-8', errors='backslashreplace') as file:
        file.write(content)


def rounds_of(plan, result):
    """{the nodes of a quad, ascending: the round that placed it}"""
    found, following = {}, plan.given
    for own, mesh in result.grown:
        number = numpy.concatenate([plan.origin[own.nodes], numpy.arange(following, following + len(mesh.points) - len(own.points))])
        following += len(mesh.points) - len(own.points)
        nodes = numpy.sort(number[mesh.quads.nodes.astype(int).reshape(-1, 4)], axis=1)
        found.update(zip(map(tuple, nodes.tolist()), map(int, mesh.quads.rounds)))
    return found


def drawn_facts(work, rounds):
    """(facts, arrays) of the finished mesh."""
    result, points, surface = work.result, work.points, work.surface
    jacobians, least = quality.scaled_jacobians(points, result.quads), quality.least_angles(points, result.quads)
    angles = quality.least_angles(points, result.triangles)
    own = [rounds.get(key, 0) for key in map(tuple, numpy.sort(result.quads, axis=1).tolist())]
    if result.finished:
        own = [found if mine else 0 for found, mine in zip(own, result.finished.own)]
    pairs, nodes = kept_of(surface)
    order = lambda values: numpy.argsort(values, kind='stable')[:WORST].tolist()
    facts = {'name': surface.name, 'output': work.options.output, 'sha256': surface.sha256, 'output_sha256': work.outputs.digest(work.options.output), 'summary': report.summary(work),
             'verdict': [[str(name), str(words)] for name, words in work.verdict or ()], 'accepted': bool(work.verdict), 'warnings': list(map(plain, work.warnings)), 'notes': surface.notes,
             'quads': len(result.quads), 'left': len(result.triangles), 'added': len(result.added), 'dropped': meshing.dropped(work), 'seconds': work.seconds,
             'least_jacobian': float(jacobians.min()) if len(jacobians) else None, 'least_angle': float(least.min()) if len(least) else None,
             'mean_jacobian': float(jacobians.mean()) if len(jacobians) else None,
             'worst_quads': order(jacobians), 'worst_triangles': order(angles), 'losses': [loss.words() for loss in work.losses], 'rounds': max(own, default=0),
             'size': report.size_words(work.options, result.sizes), 'options': work.options.words}
    return facts, {'points': points[:, :2].astype('<f8'), 'quads_of': words32(result.quads), 'left_of': words32(result.triangles), 'jacobians': jacobians.astype('<f4'),
                   'quad_angles': least.astype('<f4'), 'angles': angles.astype('<f4'), 'rounds_of': words32(own), 'number': words32(work.number + 1),
                   'kept': words32(pairs), 'kept_nodes': words32(nodes), 'file_quads': file_quads(surface)}


def steps_of(work):
    """(facts, arrays) that the replay of the steps takes: each part and its trace. An array is named by what it is and the place of its part."""
    found, arrays = [], {}
    for place, part in enumerate(steps_page.parts_of(work)):
        for name in steps_page.ARRAYS:
            arrays['steps_%s_%d' % (name, place)] = numpy.asarray(part.pop(name)).astype('<f8' if name == 'points' else '<u4')
        found.append(part)
    return {'parts': found, 'clockwise': bool(work.surface.clockwise)}, arrays


if __name__ == '__main__':
    main()
