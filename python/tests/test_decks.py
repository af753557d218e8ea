"""Tests of decks: the sets and elements of a .inp, its names, and a plate from geometry to deflection by CalculiX, as docs/DECKS.md has it."""
import math, os, re, shutil, subprocess, sys, unittest
from case import COMMAND, Case, meshio, set_up
from common import FILES, ROOT, grid

if meshio:
    import numpy
    from sedgepick import abaqus, files, surfaces, writing

COLUMNS = os.path.join(FILES, 'columns.msh')
DECKS = os.path.join(ROOT, 'examples', 'decks')
PAGE = os.path.join(ROOT, 'docs', 'DECKS.md')
SIDE, THICK, MODULUS, POISSON, LOAD = 6.0, 0.2, 30e9, 0.2, 10e3  # of the plate: m, N/m2


def setUpModule():
    set_up()


def statements(path):
    """[(keyword, {parameter: value}, numbers)] of a file."""
    with open(path) as file:
        found = abaqus.statements(file)
    return [(keyword, words, [int(word) for row in rows for word in row] if keyword in ('NSET', 'ELSET') else rows) for keyword, words, rows in found]


def navier():
    """The deflection of the centre by thin-plate theory."""
    series = sum(16 * LOAD / (math.pi ** 6 * m * n) * math.sin(m * math.pi / 2) * math.sin(n * math.pi / 2) / ((m / SIDE) ** 2 + (n / SIDE) ** 2) ** 2
                 for m in range(1, 60, 2) for n in range(1, 60, 2))
    return series * 12 * (1 - POISSON ** 2) / (MODULUS * THICK ** 3)


class Sets(Case):
    def sets(self, path, kind):
        """{name: numbers} of the sets, each of which must stand in one block."""
        found = [(words[kind], numbers) for keyword, words, numbers in statements(path) if keyword == kind]
        self.assertEqual(len(found), len({name.upper() for name, _ in found}), 'a set has several blocks')
        self.assertTrue(all(numbers for _, numbers in found))
        return dict(found)

    def elements(self, path):
        return {words['TYPE']: len(rows) for keyword, words, rows in statements(path) if keyword == 'ELEMENT'}

    def test_line_groups_are_node_sets(self):
        """Each group of lines is the set of the nodes that its edges have; lines are no elements."""
        self.good(COLUMNS, '-o', self.path('a.inp'))
        given = files.read(COLUMNS)
        nodes = {tuple(point) for point in given.points[numpy.unique(given.lines.cells[given.lines.sets['wall']])]}
        written = meshio.read(self.path('a.inp'))
        found = self.sets(self.path('a.inp'), 'NSET')
        self.assertEqual({tuple(written.points[n - 1]) for n in found['wall']}, nodes)
        self.assertEqual((set(found), len(found['column'])), ({'wall', 'column'}, 12))
        self.assertLessEqual(set(self.elements(self.path('a.inp'))), {'S4', 'S3'})
        self.assertEqual(set(self.sets(self.path('a.inp'), 'ELSET')), {'slab'})

    def test_beams(self):
        self.good(COLUMNS, '-o', self.path('a.inp'), '--beams')
        found, cells = self.elements(self.path('a.inp')), self.sets(self.path('a.inp'), 'ELSET')
        self.assertEqual((found['B31'], len(cells['wall']), len(self.sets(self.path('a.inp'), 'NSET')['wall'])), (6, 6, 7))
        self.good(COLUMNS, '-o', self.path('b.inp'), '--beams', '--least-jacobian', '1', '--least-angle', '60')  # which leaves triangles
        again = files.read(self.path('b.inp'))  # nodes of the wall are not marked once more
        self.assertEqual((len(again.lines.cells), int(again.lines.sets['wall'].sum()), set(again.hard)), (6, 6, {'column'}))

    def test_a_set_of_quads_and_triangles_is_one_block(self):
        """Where a group has cells of two kinds its set stands once, and has both."""
        points, triangles = grid(3, 3)
        path = self.stored(points, [('triangle', triangles[:-1])])
        self.good(path, '-o', self.path('a.inp'))
        kinds = self.elements(self.path('a.inp'))
        self.assertEqual(set(kinds), {'S4', 'S3'})
        self.assertEqual(self.sets(self.path('a.inp'), 'ELSET'), {'surface': list(range(1, sum(kinds.values()) + 1))})

    def test_lines_in_no_group(self):
        points, triangles = grid(3, 3)
        self.good(self.stored(points, [('triangle', triangles), ('line', [(0, 1), (1, 2)])]), '-o', self.path('a.inp'))
        found, written = self.sets(self.path('a.inp'), 'NSET'), meshio.read(self.path('a.inp'))
        self.assertEqual([tuple(written.points[n - 1]) for n in found['lines']], points[:3])


class Names(Case):
    def test_labels(self):
        names = ['slab', 'Slab', 'outer wall', 'outer_wall', '1', 'Träger', 'a.b', '', 'x' * 90, 'x' * 91, '-1']
        found = abaqus.labels(names)
        self.assertEqual(len({label.upper() for label in found.values()}), len(names))
        for name, label in found.items():
            self.assertRegex(label, r'^[A-Za-z][A-Za-z0-9_-]{0,79}$', name)
        self.assertEqual((found['outer_wall'], found['Träger'], found['1'], found['Slab'], found['slab']), ('outer_wall', 'Trager', 'set_1', 'Slab', 'slab_2'))

    def test_changes_are_told(self):
        cells = numpy.array([[0, 1, 2], [0, 2, 3]])
        marked = surfaces.Marked(cells, {}, {'south bay': numpy.array([True, False]), 'south_bay': numpy.array([False, True])})
        points = numpy.array([[0.0, 0, 0], [1, 0, 0], [1, 1, 0], [0, 1, 0]])
        notes = writing.make(self.path('a.inp'), 'a.inp', None, points, [('triangle', marked)], {}, {'foot': numpy.array([2])})
        self.assertEqual(notes, ["abaqus takes other names of groups: 'south bay' is south_bay_2"])
        again = files.read(self.path('a.inp'))
        self.assertEqual({name: has.tolist() for name, has in again.triangles.sets.items()}, {'south_bay': [False, True], 'south_bay_2': [True, False]})
        self.assertEqual(again.hard['foot'].tolist(), [2])
        self.assertEqual(writing.make(self.path('b.inp'), 'b.inp', None, points, [('triangle', surfaces.Marked(cells))], {}, {}), [])


class Plate(Case):
    def commands(self):
        with open(PAGE) as file:
            return [line.strip().split() for line in file if re.match(r'    (gmsh|sedgepick-mesh|ccx) ', line)]

    def ran(self, words):
        words = [sys.executable, COMMAND, *words[1:]] if words[0] == 'sedgepick-mesh' else words
        done = subprocess.run(words, cwd=self.folder, capture_output=True, text=True, stdin=subprocess.DEVNULL)
        self.assertEqual(done.returncode, 0, '%s: %s' % (' '.join(words), (done.stdout + done.stderr)[-800:]))
        return done

    def deflection(self):
        """By CalculiX, over that of thin-plate theory; the supports carry the load but for what lies on their own nodes."""
        with open(os.path.join(self.folder, 'deck.dat')) as file:
            words = file.read().split()
        sag, carried = float(words[words.index('CENTRE') + 7]), float(words[-1])
        self.assertTrue(0.9 < carried / (LOAD * SIDE ** 2) < 1, carried)
        return -sag / navier()

    @unittest.skipUnless(shutil.which('ccx'), 'CalculiX is not installed')
    def test_page(self):
        """The page's commands, as they stand there; without Gmsh the stored mesh is taken."""
        commands = self.commands()
        self.assertEqual([words[0] for words in commands], ['gmsh', 'sedgepick-mesh', 'ccx'])
        for name in ('plate.geo', 'deck.inp', 'plate.msh'):
            shutil.copy(os.path.join(DECKS, name), self.folder)
        for words in commands if shutil.which('gmsh') else commands[1:]:
            done = self.ran(words)
            if words[0] == 'sedgepick-mesh':
                with open(PAGE) as file:
                    self.assertIn('    ' + done.stderr, file.read())
        self.assertTrue(0.97 < self.deflection() < 1.03, self.deflection())

    @unittest.skipUnless(shutil.which('ccx'), 'CalculiX is not installed')
    def test_stored_mesh(self):
        """The mesh that is stored, and what the page says of its result."""
        shutil.copy(os.path.join(DECKS, 'deck.inp'), self.folder)
        self.good(os.path.join(DECKS, 'plate.msh'), '-o', self.path('plate.inp'))
        self.ran(['ccx', 'deck'])
        self.assertTrue(0.97 < self.deflection() < 1.03, self.deflection())
        with open(PAGE) as file:
            told = float(re.search(r'The result is ([\d.]+) of it', file.read())[1])
        self.assertAlmostEqual(self.deflection(), told, delta=0.005)

    def test_the_page_has_the_deck(self):
        """Each line of the deck but its heading and its comment."""
        with open(os.path.join(DECKS, 'deck.inp')) as file:
            lines = file.read().split('\n')
        with open(PAGE) as file:
            page = file.read()
        self.assertIn('\n'.join('    ' + line for line in lines[2:-1] if not line.startswith('**')), page)


if __name__ == '__main__':
    unittest.main()
