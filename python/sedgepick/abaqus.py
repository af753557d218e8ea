"""Abaqus files. meshio 5.0.0 gives the ELSET of an *ELEMENT line to other cells where an earlier
line has none, drops a set's cells in blocks that come behind it, and does not know sets of sets; so
the sets are read here, and the rest by meshio. What is written is written here: elements of shells
and beams, as CalculiX takes them, and each set once."""
import re
import unicodedata
import numpy
from .library import VERSION

ELEMENTS = {'quad': 'S4', 'triangle': 'S3', 'line': 'B31'}  # shells and beams
ROW = 12      # numbers in a line of a set; Abaqus and CalculiX take 16
LONGEST = 80  # characters of a name


def statements(lines):
    """(keyword, {parameter: value}, rows of words) of each keyword line."""
    found = []
    for line in map(str.strip, lines):
        if line.startswith('**') or not line:
            continue
        if line.startswith('*'):
            keyword, *words = [word.strip() for word in line[1:].split(',')]
            pairs = [word.partition('=') for word in words]
            found.append(
                (
                    keyword.upper(),
                    {name.strip().upper(): value.strip() for name, _, value in pairs}, [],
                )
            )
        elif found:
            found[-1][2].append([word.strip() for word in line.split(',') if word.strip()])
    return found


def members(parameters, rows, known, there):
    """The numbers that a set's rows list, by themselves, in steps or as other sets; of steps those
    that are `there`: a step of 1 may list billions."""
    numbers = set()
    for row in rows:
        if 'GENERATE' in parameters:
            steps = range(
                *(lambda first, last, step=1, *_: (first, last + 1, step))(*map(int, row))
            )
            numbers |= {number for number in there if number in steps}
            continue
        for word in row:
            numbers |= {int(word)} if word.lstrip('-').isdigit() else known.get(word.upper(), set())
    return numbers


def first_numbers(found, keyword):
    """The first number of each row under a keyword: those of nodes or elements, and of an element
    over several rows a few others."""
    return {
        int(row[0]) for kind, _, rows in found if kind == keyword for row in rows
        if row and row[0].isdigit()
    }


def read_sets(lines, widths):
    """(cell sets, node sets): {name: places in each block of cells}, {name: nodes}. `widths` are
    the numbers of nodes of the cells, block by block."""
    nodes, blocks, cells, points, names = {}, [], {}, {}, {}
    found = statements(lines)
    there = {'NSET': first_numbers(found, 'NODE'), 'ELSET': first_numbers(found, 'ELEMENT')}
    for keyword, parameters, rows in found:
        own = None
        if keyword == 'NODE':
            own = {int(row[0]) for row in rows}
            nodes.update({int(row[0]): len(nodes) + i for i, row in enumerate(rows)})
        elif keyword == 'ELEMENT':
            flat = [word for row in rows for word in row]
            ids = [int(word) for word in flat[::widths[len(blocks)] + 1]]
            blocks.append({number: place for place, number in enumerate(ids)})
            own = set(ids)
        for kind, sets in (('ELSET', cells), ('NSET', points)):
            name = parameters.get(kind)
            if (
                name
                and (
                    keyword == kind
                    or own is not None and kind == {'NODE': 'NSET', 'ELEMENT': 'ELSET'}[keyword]
                )
            ):
                more = members(parameters, rows, sets, there[kind]) if own is None else own
                sets[name.upper()] = sets.get(name.upper(), set()) | more
                names.setdefault((kind, name.upper()), name)
    if len(blocks) != len(widths):
        raise ValueError('other blocks')
    placed = lambda numbers, block: numpy.array(
        sorted(block[n] for n in numbers if n in block), dtype=numpy.int64
    )
    return (
        {
            names['ELSET', name]: [placed(numbers, block) for block in blocks]
            for name, numbers in cells.items()
        },
        {names['NSET', name]: placed(numbers, nodes) for name, numbers in points.items()},
    )


def repair(path, mesh):
    """The mesh that meshio read with its sets."""
    from .reading import encoding_of
    with open(path, encoding=encoding_of(path) or 'latin-1') as file:
        lines = file.readlines()
    try:
        mesh.cell_sets, mesh.point_sets = read_sets(
            lines, [numpy.shape(block.data)[1] for block in mesh.cells]
        )
    except (ValueError, IndexError, KeyError):
        pass
    return mesh


def plain(name):
    """A name as Abaqus and CalculiX take it without quotes: ASCII letters, digits, _ and -, a
    letter first."""
    bare = (
        unicodedata.normalize('NFKD', name).encode('ascii', 'ignore').decode() if not name.isascii()
        else name
    )
    bare = re.sub(r'[^A-Za-z0-9_-]+', '_', bare)
    return (bare if bare[:1].isalpha() else 'set_' + bare)[:LONGEST]


def labels(found):
    """{name: name in the file}: no two are the same, also where capitals do not count, as in both
    programs."""
    given, taken = {}, set()
    # those that need no change keep their names
    for name in sorted(found, key=lambda name: (plain(name) != name, name)):
        label, number = plain(name), 1
        while label.upper() in taken:
            number += 1
            label = '%s_%d' % (plain(name)[:LONGEST - 5], number)
        taken.add(label.upper())
        given[name] = label
    return given


def label_words(given):
    """What became of the names that the format does not take; '' where it takes all."""
    changed = ["'%s' is %s" % pair for pair in sorted(given.items()) if pair[0] != pair[1]]
    return 'abaqus takes other names of groups: %s' % ', '.join(changed) if changed else ''


def short(value):
    """A coordinate in at most 20 characters, which is what CalculiX reads: the shortest that give
    the double back where there are such."""
    return repr(value) if len(repr(value)) <= 20 else '%.13e' % value


def rows_of(numbers):
    """Numbers as the lines of a set."""
    return [', '.join(map(str, numbers[i:i + ROW])) for i in range(0, len(numbers), ROW)]


def write(path, mesh):
    """Writes nodes, elements and sets; a deck includes the file (docs/DECKS.md). Each set is one
    *ELSET or *NSET."""
    lines, first = ['** nodes, elements and sets, by sedgepick %s' % VERSION, '*NODE'], [1]
    lines += [
        '%d, %s' % (i, ', '.join(map(short, point)))
        for i, point in enumerate(mesh.points.tolist(), 1)
    ]
    for block in mesh.cells:
        lines += ['*ELEMENT, TYPE=' + ELEMENTS[block.type]]
        lines += [
            '%d, %s' % (i, ', '.join(map(str, nodes)))
            for i, nodes in enumerate((block.data + 1).tolist(), first[-1])
        ]
        first.append(first[-1] + len(block.data))
    for name, places in mesh.cell_sets.items():
        lines += [
            '*ELSET, ELSET=' + name,
            *rows_of(
                [start + place for start, own in zip(first, places) for place in own.tolist()]
            ),
        ]
    for name, nodes in mesh.point_sets.items():
        lines += ['*NSET, NSET=' + name, *rows_of((nodes + 1).tolist())]
    with open(path, 'w', encoding='ascii') as file:
        file.write('\n'.join(lines) + '\n')
