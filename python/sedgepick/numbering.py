"""Nodes with a number each: a number that stands at two places is refused, where meshio would take
one of them without a word."""
import re
import numpy
from . import abaqus
from .msh import GMSH_READERS
from .reading import encoding_of
from .surfaces import Fault


def refuse(numbers, places):
    """A Fault where a number has two places. `places` is a row for each number."""
    numbers, places = numpy.asarray(numbers), numpy.asarray(places, dtype=float)
    order = numpy.argsort(numbers, kind='stable')
    same = (
        order[1:][numbers[order[1:]] == numbers[order[:-1]]],
        order[:-1][numbers[order[1:]] == numbers[order[:-1]]],
    )
    apart = numpy.flatnonzero((places[same[0]] != places[same[1]]).any(axis=1))
    if len(apart):
        one, other = same[1][apart[0]], same[0][apart[0]]
        raise Fault(
            'node %d stands at two places, (%s) and (%s): mend the file'
            % (numbers[one], *(', '.join('%.10g' % x for x in places[i]) for i in (one, other)))
        )


def watch():
    """From now on meshio's readers of Gmsh's formats refuse such nodes."""
    for module, less in GMSH_READERS:
        module._read_nodes = watch_reader(module._read_nodes, less)


def watch_reader(plain, less):
    def read_nodes(*words):
        points, tags, *more = plain(*words)
        refuse(numpy.asarray(tags) + less, points)
        return (points, tags, *more)
    return read_nodes


def check(path, form):
    """The same of the text formats whose nodes have numbers."""
    if form not in ('abaqus', 'nastran'):
        return
    with open(path, encoding=encoding_of(path) or 'latin-1') as file:
        found = abaqus_nodes(file) if form == 'abaqus' else nastran_nodes(file)
    rows = [
        (number, [number_of(word) for word in (words + ['0'] * 3)[:3]]) for number, words in found
    ]
    if rows:
        refuse([number for number, _ in rows], [place for _, place in rows])


def abaqus_nodes(lines):
    return [
        (int(row[0]), row[1:]) for keyword, _, rows in abaqus.statements(lines) if keyword == 'NODE'
        for row in rows if row and row[0].isdigit()
    ]


def nastran_nodes(lines):
    """(number, words of its place) of each GRID, in small, large and free fields."""
    found, lines = [], list(lines)
    for place, line in enumerate(lines):
        if not line.startswith('GRID'):
            continue
        if ',' in line:
            fields = [word.strip() for word in line.split(',')]
        elif line.startswith('GRID*'):
            further = (
                lines[place + 1][8:24]
                if place + 1 < len(lines) and lines[place + 1].startswith('*') else ''
            )
            fields = ['GRID', *(line[i:i + 16].strip() for i in range(8, 72, 16)), further.strip()]
        else:
            fields = [line[i:i + 8].strip() for i in range(0, 48, 8)]
        if len(fields) > 3 and fields[1].isdigit():
            found.append((int(fields[1]), fields[3:6]))
    return found


def number_of(word):
    """A number as Abaqus and Nastran write it (1.5-3 is 1.5e-3); nan, which equals none, where it
    is none."""
    try:
        return float(
            re.sub(r'(?<=[\d.])(?=[+-]\d)', 'e', word.upper().replace('D', 'E')) if word else 0.0
        )
    except ValueError:
        return float('nan')
