"""Groups by name, in and out. Gmsh has a number and a name for each, one a cell; Abaqus and MED
have sets, of cells and of nodes; most other formats have a number for each cell and no names."""
import numpy
from .surfaces import Marked

# integer arrays of cells that stand for groups
TAGS = (
    'gmsh:physical', 'gmsh:geometrical', 'medit:ref', 'CellEntityIds', 'nastran:ref',
    'netgen:index', 'avsucd:material', 'tetgen:ref', 'su2:tag', 'group',
)
NUMBERS = 'group'  # the array of numbers where the file has sets and no numbers


def cell_sets(mesh):
    """{name: for each block of cells a list of true and false}."""
    sizes = [len(block.data) for block in mesh.cells]
    found = {}
    for name, members in (mesh.cell_sets or {}).items():
        if not name.startswith('gmsh:'):
            own = [
                members[i] if i < len(members) and members[i] is not None else []
                for i in range(len(sizes))
            ]
            found[name] = [
                numpy.isin(numpy.arange(size), numpy.asarray(some, dtype=numpy.int64).ravel())
                for size, some in zip(sizes, own)
            ]
    for names, number in families(mesh, 'cell_tags'):
        for name in names:
            rows = found.setdefault(name, [numpy.zeros(size, dtype=bool) for size in sizes])
            for i, numbers in enumerate(mesh.cell_data['cell_tags']):
                rows[i] |= numpy.asarray(numbers).ravel() == number
    return found


def node_sets(mesh):
    """{name: nodes}"""
    found = {
        name: numpy.asarray(nodes).astype(numpy.int64).ravel()
        for name, nodes in (mesh.point_sets or {}).items()
    }
    for names, number in families(mesh, 'point_tags'):
        for name in names:
            own = numpy.flatnonzero(numpy.asarray(mesh.point_data['point_tags']).ravel() == number)
            found[name] = numpy.union1d(found.get(name, own), own)
    return found


def families(mesh, kind):
    """(names, number) of MED's families."""
    data = mesh.cell_data if kind == 'cell_tags' else mesh.point_data
    return (
        [(names, number) for number, names in (getattr(mesh, kind, None) or {}).items()]
        if kind in (data or {}) else []
    )


def physical(mesh):
    """{name: (number, dimension)}: Gmsh's names."""
    found = {}
    for name, value in (mesh.field_data or {}).items():
        pair = numpy.atleast_1d(numpy.asarray(value, dtype=object))
        if pair.shape == (2,) and all(isinstance(number, (int, numpy.integer)) for number in pair):
            found[name] = (int(pair[0]), int(pair[1]))
    return found


def with_sets(marked):
    """The cells with a set for each of their numbers that has no name."""
    tag = next((name for name in TAGS if name in marked.tags), None)
    if tag is None or not len(marked.cells):
        return marked
    bare = ~numpy.any([*marked.sets.values(), numpy.zeros(len(marked.cells), dtype=bool)], axis=0)
    numbers = numpy.unique(marked.tags[tag][bare])
    more = {
        '%s_%d' % (tag.replace(':', '_'), n): bare & (marked.tags[tag] == n) for n in numbers if n
    }
    return Marked(marked.cells, marked.tags, {**marked.sets, **more})


def with_all(marked, name):
    """The cells with a set of this name for those that are in none: a deck names its cells by
    sets."""
    bare = ~numpy.any([*marked.sets.values(), numpy.zeros(len(marked.cells), dtype=bool)], axis=0)
    return (
        Marked(marked.cells, marked.tags, {**marked.sets, name: bare})
        if bare.any() and name not in marked.sets else marked
    )


def combine(blocks):
    """(numbers of the cells of each block, {number: names}): a number for each combination of sets,
    from 1; 0 for none."""
    found, rows = {(): 0}, []
    for _, marked in blocks:
        names = list(marked.sets)
        which = numpy.array(
            [marked.sets[name] for name in names], dtype=bool
        ).reshape(len(names), len(marked.cells)).T
        kinds, inverse = (
            numpy.unique(which, axis=0, return_inverse=True) if len(which)
            else (which, numpy.zeros(0, dtype=int))
        )
        own = [
            found.setdefault(tuple(name for name, has in zip(names, kind) if has), len(found))
            for kind in kinds
        ]
        rows.append(numpy.array(own, dtype=numpy.int64)[inverse.ravel()])
    return rows, {number: names for names, number in found.items() if number}


def as_node_sets(blocks, sets):
    """The blocks without vertices, and the sets of nodes with those that the vertices are in."""
    sets = dict(sets)
    for kind, marked in blocks:
        if kind == 'vertex':
            for name, has in (
                with_sets(marked).sets or {'points': numpy.ones(len(marked.cells), dtype=bool)}
            ).items():
                if has.any():
                    sets[name] = numpy.union1d(
                        sets.get(name, []), marked.cells[has, 0]
                    ).astype(numpy.int64)
    return [block for block in blocks if block[0] != 'vertex'], sets


def with_line_nodes(blocks, sets, beams):
    """(blocks, sets of nodes): each group of lines is a set of its nodes too, since supports and
    loads are given by nodes; lines stay cells where they are to be beams."""
    sets = dict(sets)
    for kind, marked in blocks:
        if kind == 'line':
            for name, has in with_all(with_sets(marked), 'lines').sets.items():
                if has.any():
                    sets[name] = numpy.union1d(
                        sets.get(name, []), marked.cells[has]
                    ).astype(numpy.int64)
    return [block for block in blocks if beams or block[0] != 'line'], sets


def as_vertices(blocks, sets):
    """The blocks with a vertex for each node of the sets, those that are there among them."""
    if not sets:
        return blocks
    own = next(
        (marked for kind, marked in blocks if kind == 'vertex'),
        Marked(numpy.zeros((0, 1), dtype=numpy.int64)),
    )
    more = numpy.setdiff1d(numpy.concatenate(list(sets.values())), own.cells).astype(numpy.int64)
    nodes = numpy.concatenate([own.cells[:, 0], more])
    longer = lambda values: numpy.concatenate([values, numpy.zeros(len(more), dtype=values.dtype)])
    found = {name: longer(has) for name, has in own.sets.items()}
    for name, members in sets.items():
        found[name] = found.get(name, False) | numpy.isin(nodes, members)
    return (
        [block for block in blocks if block[0] != 'vertex']
        + [
            (
                'vertex',
                Marked(
                    nodes[:, None], {name: longer(values) for name, values in own.tags.items()},
                    found,
                ),
            )
        ]
    )


def gmsh_groups(blocks, names):
    """(arrays of numbers, names) as Gmsh's 2.2 takes them: an element has a physical and a
    geometrical number."""
    tags = arrays(blocks)
    if TAGS[0] in tags or not any(marked.sets for _, marked in blocks):
        other = next(
            iter(tags.values()),
            [numpy.ones(len(marked.cells), dtype=numpy.int64) for _, marked in blocks],
        )
        return (
            {name: tags.get(name, other) for name in TAGS[:2]},
            {name: numpy.array(pair) for name, pair in names.items()},
        )
    rows, found = combine(blocks)
    named = {}
    for (_, marked), own in zip(blocks, rows):
        named.update(
            {
                '+'.join(found[n]): numpy.array([n, min(marked.cells.shape[1] - 1, 2)])
                for n in numpy.unique(own) if n
            }
        )
    return {TAGS[0]: rows, TAGS[1]: rows}, named


def arrays(blocks):
    """{name: numbers for each block}"""
    every = {name for _, marked in blocks for name in marked.tags}
    return {
        name: [
            marked.tags.get(name, numpy.zeros(len(marked.cells), dtype=numpy.int64))
            for _, marked in blocks
        ]
        for name in TAGS if name in every
    }


def number_groups(blocks, names):
    """(arrays of numbers, words on what they stand for) for a format that has no names."""
    tags = arrays(blocks)
    if tags:
        used = {int(n) for rows in tags[next(iter(tags))] for n in numpy.unique(rows)}
        return (
            tags,
            [
                '%d is %s' % (number, name)
                for name, (number, _) in sorted(names.items(), key=lambda item: item[1])
                if number in used
            ],
        )
    rows, found = combine(blocks)
    return (
        ({NUMBERS: rows}, ['%d is %s' % (number, '+'.join(own)) for number, own in found.items()])
        if found else ({}, [])
    )


def med_groups(mesh, blocks, node_sets):
    """Puts the sets into a meshio mesh as MED's families: those of nodes above zero, those of cells
    below."""
    rows, found = combine([(kind, with_sets(marked)) for kind, marked in blocks])
    mesh.cell_data['cell_tags'] = [-own for own in rows]
    mesh.cell_tags = {-number: list(names) for number, names in found.items()}
    every = numpy.arange(len(mesh.points))
    (own,), found = combine(
        [
            (
                'vertex',
                Marked(
                    every[:, None], {},
                    {name: numpy.isin(every, nodes) for name, nodes in node_sets.items()},
                ),
            )
        ]
    )
    mesh.point_data['point_tags'] = own
    mesh.point_tags = {number: list(names) for number, names in found.items()}
