"""Planes in any position. The library meshes x and y; a surface that lies otherwise is turned into
a sheet, plane by plane side by side, and written where it lies.

Given nodes come back at their coordinates bit for bit. In words and pictures places are those of
the sheet, and a note says how it lies. Nothing here is proved."""
from __future__ import annotations
from dataclasses import dataclass
import numpy
from . import quality
from .arrays import Floats, Wholes
from .joints import Hard
from .surfaces import Fault

NEAR = 1e-6   # of the extent: what a node may lie off its plane; it is written where it is
MOST = 0.05   # of the extent: how far --flatten moves a node at most
GAP = 0.05    # of the largest plane's extent: between planes on the sheet
STEEP = 0.7   # of a normal's z: planes below are drawn with z upward
DUST = 1e-13   # of the extent: what rounding leaves of a zero
AXES = 'xyz'


@dataclass
class Frame:
    """The axes of a plane: where its zero lies, and what x and y of the sheet are in the file."""
    zero: Floats
    along: Floats
    across: Floats
    shift: float = 0.0   # on the sheet, in x
    start: float = 0.0   # where the plane begins there
    extent: float = 1.0  # of the plane

    def there(self, points):
        """x and y on the sheet."""
        ways = points - self.zero
        return numpy.column_stack([ways @ self.along + self.shift, ways @ self.across])

    def back(self, places):
        """x, y and z in the file."""
        return self.zero + (places[:, :1] - self.shift) * self.along + places[:, 1:2] * self.across

    def words(self):
        shown = lambda way: next(
            ('%s%s' % ('-' if way[i] < 0 else '', AXES[i]) for i in range(3) if abs(way[i]) == 1),
            '(%.6g, %.6g, %.6g)' % tuple(plain(way)),
        )
        return (
            'x along %s and y along %s from (%.10g, %.10g, %.10g)'
            % (shown(self.along), shown(self.across), *plain(self.zero, self.extent))
        )


@dataclass
class Place:
    """Where the nodes of a sheet lie in the file."""
    points: Floats   # of the file's nodes
    # the file's node of each node of the sheet: first all of them, then those that lie in further
    # planes once more
    node: Wholes
    plane: Wholes    # of each node of the sheet
    frames: list[Frame]

    def first(self, count):
        """Of so many nodes, the sheet's and those added behind, the one that each is written as."""
        return numpy.concatenate([self.node, numpy.arange(len(self.node), count)])

    def in_file(self, sheet):
        """x, y and z of the nodes of the sheet and of those added behind them."""
        added = sheet[len(self.node):, :2]
        starts = numpy.array([frame.start for frame in self.frames])
        plane = numpy.maximum(numpy.searchsorted(starts, added[:, 0], side='right') - 1, 0)
        found = numpy.concatenate([self.points[self.node], numpy.zeros((len(added), 3))])
        for i, frame in enumerate(self.frames):
            own = numpy.flatnonzero(plane == i)
            found[len(self.node) + own] = frame.back(added[own])
        return found


def plain(numbers, extent=1.0):
    """Numbers for words: what is nothing beside the extent but what rounding left is 0, without a
    sign."""
    return [float(number) if abs(number) > DUST * extent else 0.0 for number in numbers]


def normal_of(points, triangles):
    """The sum of the triangles' normals, each as long as twice its area."""
    a, b, c = (points[triangles[:, i]] for i in range(3))
    return numpy.cross(b - a, c - a)


def area_of(points, triangles):
    return float(numpy.linalg.norm(normal_of(points, triangles), axis=1).sum()) / 2


def fit_plane(points, triangles):
    """(frame, distance of each of the triangles' nodes) of the plane that fits best; it is seen
    from where most triangles are counterclockwise."""
    nodes = numpy.unique(triangles)
    own = points[nodes]
    zero = own.mean(axis=0)
    summed = normal_of(points, triangles).sum(axis=0)
    extent = extent_of(own)
    upright = [i for i in (2, 1, 0) if numpy.ptp(own[:, i]) <= NEAR * extent]
    if upright:
        frame = along_axes(own, upright[0], summed[upright[0]])
        return frame, abs(own[:, upright[0]] - frame.zero[upright[0]])
    normal = (
        numpy.linalg.svd(own - zero, full_matrices=False)[2][2] if len(own) > 3
        else summed / (numpy.linalg.norm(summed) or 1.0)
    )
    normal = normal if normal @ summed >= 0 else -normal
    flat = numpy.array([1.0, 0, 0]) if abs(normal[2]) >= STEEP else numpy.cross([0, 0, 1.0], normal)
    along = flat - (flat @ normal) * normal
    along /= numpy.linalg.norm(along)
    frame = Frame(zero, along, numpy.cross(normal, along), extent=extent)
    far = abs((own - zero) @ normal)
    frame.zero = frame.back(frame.there(own).min(axis=0)[None])[0]
    return frame, far


def along_axes(own, across, turn):
    """The frame of a plane across an axis: two of the coordinates as they are, the first with its
    sign changed where the plane is seen from behind."""
    along, up = {2: (0, 1), 1: (0, 2), 0: (1, 2)}[across]
    behind = turn > 0 if across == 1 else turn < 0  # x and z as they are look along y
    frame = Frame(numpy.zeros(3), numpy.eye(3)[along] * (-1.0 if behind else 1.0), numpy.eye(3)[up])
    frame.zero[across] = own[0, across]
    return frame


def extent_of(points):
    return float(numpy.ptp(points, axis=0).max())


def is_level(points, used):
    """Whether the nodes lie in a plane z = const, which needs no sheet."""
    return numpy.ptp(points[used, 2]) <= NEAR * numpy.ptp(points[used, :2], axis=0).max()


def lay(surface, flatten=False):
    """Lays the surface on a sheet where it does not lie in a plane z = const: afterwards its points
    are those of the sheet, and `place` says where they are in the file. A Fault where it is not
    made of planes."""
    points, cells = surface.points, surface.triangles.cells
    used = numpy.unique(cells)
    if is_level(points, used):
        return
    frame, far = fit_plane(points, cells)
    extent = extent_of(points[used])
    if far.max() > NEAR * extent and flatten:
        frame = flatten_nodes(surface, used, frame, far, extent)
        if is_level(surface.points, used):
            return
    elif far.max() > NEAR * extent:
        return lay_several(surface, frame, far, extent)
    surface.place = Place(
        surface.points, numpy.arange(len(points)), numpy.zeros(len(points), dtype=int), [frame]
    )
    surface.points = numpy.column_stack([frame.there(surface.points), numpy.zeros(len(points))])
    surface.notes.append(
        'the surface is meshed in its plane and written where it lies; places in words and '
        'pictures are in the plane, %s'
        % frame.words()
    )


def flatten_nodes(surface, used, frame, far, extent):
    """Moves the nodes onto the plane, and says so; where a plane across an axis fits about as well,
    onto that one. The plane's frame."""
    points, cells = surface.points, surface.triangles.cells
    if far.max() > MOST * extent:
        raise Fault(
            'not nearly flat: --flatten would move %s by %.6g, which is over %g %% of the extent. '
            'Mesh its planes, or cut it into such as are nearly flat'
            % (at(points, used[far.argmax()]), far.max(), 100 * MOST)
        )
    moved = points.copy()
    axis = next((i for i in (2, 1, 0) if numpy.ptp(points[used, i]) <= 4 * far.max()), None)
    if axis is not None:
        moved[used, axis] = (points[used, axis].max() + points[used, axis].min()) / 2
        frame = along_axes(moved[used], axis, normal_of(points, cells).sum(axis=0)[axis])
    else:
        moved[used] = frame.back(frame.there(points[used]))
    ways = numpy.linalg.norm(moved - points, axis=1)
    before, after = area_of(points, cells), area_of(moved, cells)
    surface.points = moved
    surface.notes.append(
        '--flatten moved %d of %d nodes onto their plane, by up to %.6g (%s); the area changes '
        'from %.10g to %.10g, by %+.3g %%'
        % (
            (ways > 0).sum(), len(used), ways.max(), at(points, int(ways.argmax())), before, after,
            100 * (after / before - 1),
        )
    )
    return frame


def at(points, node):
    return 'node %d at (%.10g, %.10g, %.10g)' % (node + 1, *points[node])


def regions(points, triangles, off):
    """A number for each triangle, from 0: those that share an edge and lie in one plane, within
    this distance, have the same."""
    keys, owner = (
        quality.keys(quality.sides(triangles)), numpy.tile(numpy.arange(len(triangles)), 3)
    )
    order = numpy.argsort(keys, kind='stable')
    keys, owner = keys[order], owner[order]
    pairs = [
        (owner[:-step][same], owner[step:][same])
        for step in range(1, int(numpy.unique(keys, return_counts=True)[1].max()))
        for same in [keys[step:] == keys[:-step]]
    ]
    a, b = (
        (numpy.concatenate(own) for own in zip(*pairs)) if pairs
        else (numpy.zeros(0, dtype=int),) * 2
    )
    normals = normal_of(points, triangles)
    lengths = numpy.linalg.norm(normals, axis=1)
    normals = normals / numpy.where(lengths > 0, lengths, 1)[:, None]
    apart = lambda one, other: abs(
        (
            (points[triangles[other]] - points[triangles[one, 0]][:, None]) * normals[one][:, None]
        ).sum(axis=2)
    ).max(axis=1, initial=0)
    same = (numpy.maximum(apart(a, b), apart(b, a)) <= off) & (
        abs((normals[a] * normals[b]).sum(axis=1)) > 0.5
    )
    return quality.joined(len(triangles), a[same], b[same])


def lay_several(surface, frame, far, extent):
    """Lays planes side by side. A node of several planes has a number in each; an edge of several
    is kept in each."""
    points, cells = surface.points, surface.triangles.cells
    used, region = numpy.unique(cells), regions(points, cells, NEAR * extent)
    count = int(region.max()) + 1
    found = (
        [fit_plane(points, cells[region == i]) for i in range(count)] if 2 * count <= len(cells)
        else []
    )
    if not found or max(own.max() for _, own in found) > NEAR * extent:
        raise Fault(
            'not plane: %s lies %.6g off the plane that fits best, and the surface is not made of '
            'a few planes. --flatten moves the nodes of a surface that is nearly flat onto that '
            'plane'
            % (at(points, used[far.argmax()]), far.max())
        )
    frames = [own for own, _ in found]
    node, plane, sheet, sheet_cells = (
        numpy.arange(len(points)), numpy.full(len(points), -1), numpy.zeros((len(points), 2)),
        cells.copy(),
    )
    begin = 0.0
    for i, own in enumerate(frames):
        mine = numpy.unique(cells[region == i])
        flat = own.there(points[mine])
        own.start, own.shift = begin, begin - flat[:, 0].min()
        begin += numpy.ptp(flat[:, 0]) + GAP * extent
        number = numpy.arange(len(points))
        again = mine[plane[mine] >= 0]
        number[again] = len(node) + numpy.arange(len(again))
        node, plane, sheet = (
            numpy.concatenate([node, again]),
            numpy.concatenate([plane, numpy.zeros(len(again), dtype=int)]),
            numpy.concatenate([sheet, numpy.zeros((len(again), 2))]),
        )
        plane[number[mine]] = i
        sheet[number[mine]] = own.there(points[mine])
        sheet_cells[region == i] = number[cells[region == i]]
    surface.place = Place(points, node, plane, frames)
    surface.points = numpy.column_stack([sheet, numpy.zeros(len(sheet))])
    surface.triangles.cells = sheet_cells
    surface.lines.cells = on_sheet(surface.lines.cells, quality.sides(sheet_cells), node)
    surface.notes.append(
        'the surface has %d planes; each is meshed by itself and written where it lies, and edges '
        'that they share are kept. Places in words and pictures are on a sheet with the planes '
        'side by side'
        % count
    )


def on_sheet(lines, sides, node):
    """The lines by the sheet's numbers, each in the first plane that has it as an edge; as they are
    where none has."""
    named = quality.keys(node[sides])
    order = numpy.argsort(named, kind='stable')
    place = numpy.minimum(numpy.searchsorted(named[order], quality.keys(lines)), len(named) - 1)
    there = named[order][place] == quality.keys(lines)
    found = sides[order[place]]
    same = node[found[:, 0]] == lines[:, 0]
    return numpy.where(there[:, None], numpy.where(same[:, None], found, found[:, ::-1]), lines)


def find_joined(surface):
    """What other planes and the file's quads have of the triangles: keys of edges, and nodes. They
    are kept whatever else is not."""
    cells, quads = (
        surface.triangles.cells,
        surface.quads.cells if surface.quads else numpy.zeros((0, 4), dtype=numpy.int64),
    )
    node = surface.place.node if surface.place else numpy.arange(len(surface.points))
    sides = quality.sides(cells)
    sheet, named = numpy.unique(
        numpy.column_stack([quality.keys(sides), quality.keys(node[sides])]), axis=0
    ).T
    every, planes = numpy.unique(named, return_counts=True)
    kept = numpy.union1d(every[planes > 1], quality.keys(quality.sides(quads)))
    again = numpy.union1d(node[len(numpy.unique(node)):], quads)
    return Hard(sheet[numpy.isin(named, kept)], numpy.flatnonzero(numpy.isin(node, again)))


def number_nodes(surface, count, used):
    """(nodes that are written, the number of each of so many nodes in the file, -1 where it is left
    out) of the nodes that cells have; a node of several planes is one."""
    first = surface.place.first(count) if surface.place else numpy.arange(count)
    nodes = numpy.unique(first[used])
    number = numpy.full(count, -1)
    number[nodes] = numpy.arange(len(nodes))
    return nodes, number[first]


def in_file(surface, points):
    """x, y and z of points of the sheet, as they are written."""
    return surface.place.in_file(points) if surface.place else points


def read_back(surface, points, number, found):
    """The points of the sheet as a file has them: `number` is the place of each in what was found
    there. A node that is where it was is there on the sheet, too."""
    points = points.copy()
    if surface.place is None:
        there = numpy.flatnonzero(number >= 0)
        points[there, :2] = found[number[there], :2]
        return points
    before = surface.place.in_file(points)
    moved = numpy.flatnonzero((number >= 0) & (found[number] != before).any(axis=1))
    plane = numpy.zeros(len(points), dtype=int)
    plane[:len(surface.place.plane)] = surface.place.plane
    for i, frame in enumerate(surface.place.frames):
        own = moved[plane[moved] == i]
        points[own, :2] = frame.there(found[number[own]])
    return points


def rows(surface):
    """[(name, words)] for the report: what the verdict is on."""
    kept = (
        [('quads of the file', '%d, kept as they are and not judged' % len(surface.quads.cells))]
        if surface.quads else []
    )
    if surface.place is None:
        return kept
    frames = surface.place.frames
    exact = len(frames) == 1 and abs(frames[0].along).max() == abs(frames[0].across).max() == 1
    if exact:
        words = 'in the plane, by two of the coordinates as they are'
    else:
        words = (
            'in %s, turned into the xy-plane, which rounds coordinates; given nodes are written as '
            'they stand in the file'
            % ('the plane' if len(frames) == 1 else 'the planes')
        )
    return [('judged', words), *kept]


def given_count(surface):
    """How many nodes of the file the triangles have."""
    cells = surface.triangles.cells
    return len(numpy.unique(surface.place.node[cells] if surface.place else cells))


def cells_back(number, nodes, cells, own):
    """Cells of a file by the sheet's numbers: where they are those that were written, these;
    otherwise by the nodes that were written."""
    return own if numpy.array_equal(cells, number[own]) else nodes[cells]


def onto(surface, points):
    """Nodes of another file on the sheet of this one: those that lie at a given node's place are
    there on the sheet, too."""
    if surface.place is None:
        return points
    if len(surface.place.frames) > 1:
        raise Fault(
            'it has %d planes: such are judged one by one; write a file for each'
            % len(surface.place.frames)
        )
    known = {tuple(place): node for node, place in enumerate(surface.place.points.tolist())}
    found = numpy.column_stack([surface.place.frames[0].there(points), numpy.zeros(len(points))])
    for i, place in enumerate(map(tuple, points.tolist())):
        if place in known:
            found[i] = surface.points[known[place]]
    return found
