#!/usr/bin/env python3
"""Tests of tools/convert, tools/draw, tools/change-definition, tools/landing-note, tools/check-docs, tools/design-counts, tools/fuzz and tools/test: python3 tools/test_tools.py"""
import contextlib, glob, io, math, os, random, re, shutil, subprocess, sys, tempfile, time, unittest
import unittest.mock
import xml.etree.ElementTree as xml
from importlib.machinery import SourceFileLoader
from importlib.util import module_from_spec, spec_from_loader

HERE = os.path.dirname(os.path.abspath(__file__))
ROOT = os.path.dirname(HERE)
sys.dont_write_bytecode = True
sys.path.insert(0, HERE)
from mesh import metrics, picture, placing, texts
from mesh.lines import Source


def script(name):
    module = module_from_spec(spec_from_loader(name, SourceFileLoader(name, os.path.join(HERE, name))))
    module.__spec__.loader.exec_module(module)
    return module


CONVERT, DRAW, CHANGE, NOTE = script('convert'), script('draw'), script('change-definition'), script('landing-note')
DOCS, FUZZ, COUNTS = script('check-docs'), script('fuzz'), script('design-counts')

SQUARE = [(0.0, 0.0, 0.0), (1.0, 0.0, 0.0), (1.0, 1.0, 0.0), (0.0, 1.0, 0.0)]
S_TEXT = """triangles points size stop
2 4 3ff0000000000000 0
n0 n1 n2
0 1 2
0 2 3
x y z
0000000000000000 0000000000000000 0000000000000000
3ff0000000000000 0000000000000000 0000000000000000
3ff0000000000000 3ff0000000000000 0000000000000000
0000000000000000 3ff0000000000000 0000000000000000
"""


def msh22(points, elements):
    """Elements as (type, nodes from 1)."""
    lines = ['$MeshFormat', '2.2 0 8', '$EndMeshFormat', '$Nodes', str(len(points))]
    lines += ['%d %s %s %s' % (i + 1, *point) for i, point in enumerate(points)] + ['$EndNodes', '$Elements', str(len(elements))]
    lines += ['%d %d 2 1 1 %s' % (i + 1, kind, ' '.join(map(str, nodes))) for i, (kind, nodes) in enumerate(elements)]
    return '\n'.join(lines + ['$EndElements']) + '\n'


MSH_22 = msh22(SQUARE, [(15, [1]), (1, [1, 2]), (2, [1, 2, 3]), (2, [1, 3, 4])])
MSH_41 = """$MeshFormat
4.1 0 8
$EndMeshFormat
$PhysicalNames
1
2 1 "Gebäude"
$EndPhysicalNames
$Nodes
2 4 10 40
1 1 1 2
10
20
0 0 0 0.5
1 0 0 0.75
2 1 0 2
30
40
1 1 0
0 1 0
$EndNodes
$Elements
2 3 1 3
1 1 1 1
1 10 20
2 1 2 2
2 10 20 30
3 10 30 40
$EndElements
"""
OBJ = """# a square
o square
v 0 0 0
v 1 0 0
vn 0 0 1
v 1 1 0 1.0
f 1//1 2//1 3//1
v 0 1 0
f -4 -2 -1
"""
VTK_HEAD = '# vtk DataFile Version 3.0\na square\nASCII\nDATASET '
VTK_POINTS = 'POINTS 4 double\n0 0 0 1 0 0\n1 1 0 0 1\n0\n'
VTK_GRID = VTK_HEAD + 'UNSTRUCTURED_GRID\n' + VTK_POINTS + 'CELLS 3 11\n2 0 1\n3 0 1 2\n3 0 2 3\nCELL_TYPES 3\n3\n5\n5\nCELL_DATA 3\nSCALARS a double\n'
VTK_POLYDATA = VTK_HEAD + 'POLYDATA\n' + VTK_POINTS + 'LINES 1 3\n2 0 1\nPOLYGONS 2 8\n3 0 1 2\n3 0 2 3\n'
VTK_51 = (VTK_HEAD.replace('3.0', '5.1') + 'UNSTRUCTURED_GRID\nFIELD FieldData 1\nt 1 1 double\n0.5\n' + VTK_POINTS + 'METADATA\nINFORMATION 0\n\n'
          'CELLS 3 6\nOFFSETS vtktypeint64\n0 3 6\nCONNECTIVITY vtktypeint64\n0 1 2 0 2\n3\nCELL_TYPES 2\n5\n5\n')


def content(path):
    with open(path, 'rb') as file:
        return file.read()


class Case(unittest.TestCase):
    def setUp(self):
        folder = tempfile.TemporaryDirectory()
        self.addCleanup(folder.cleanup)
        self.folder = folder.name

    def file(self, name, content):
        path = os.path.join(self.folder, name)
        with open(path, 'wb') as file:
            file.write(content if isinstance(content, bytes) else content.encode())
        return path

    def run_tool(self, tool, *words):
        """(status, standard output, standard error)"""
        out, err = io.StringIO(), io.StringIO()
        with contextlib.redirect_stdout(out), contextlib.redirect_stderr(err):
            status = tool.main([str(word) for word in words])
        return status, out.getvalue(), err.getvalue()

    def convert(self, name, content, *words, to='text'):
        return self.run_tool(CONVERT, self.file(name, content), '--to', to, *words)

    def converted(self, name, content, *words, to='text'):
        status, out, err = self.convert(name, content, *words, to=to)
        self.assertEqual((status, err), (0, ''))
        return out

    def fails(self, name, content, line, message, *words, to='text'):
        """With the file's name, the line and the message, and nothing written."""
        status, out, err = self.convert(name, content, '--size', 1, *words, to=to)
        self.assertEqual((status, out), (1, ''))
        place = '%s%s: ' % (os.path.join(self.folder, name), ':%d' % line if line else '')
        self.assertIn(place, err)
        self.assertIn(message, err)


class ToText(Case):
    def test_square_in_every_form(self):
        forms = {'a.msh': MSH_22, 'b.msh': MSH_41, 'c.obj': OBJ, 'd.vtk': VTK_GRID, 'e.vtk': VTK_POLYDATA, 'f.vtk': VTK_51, 'g.txt': S_TEXT}
        for name, content in forms.items():
            with self.subTest(name):
                self.assertEqual(self.converted(name, content, '--size', 1), S_TEXT)
                self.assertEqual(self.converted(name, content.replace('\n', '\r\n'), '--size', 1) if name != 'g.txt' else S_TEXT, S_TEXT)

    def test_call(self):
        self.assertEqual(self.converted('a.msh', MSH_22, '--size', 1, '--capacity', 9, '--slots', 7, to='call'), 'capacity slots\n9 7\n' + S_TEXT)
        self.assertIn('capacity slots\n8192 16384\n', self.converted('a.msh', MSH_22, '--size', 1, to='call'))
        self.fails('a.msh', MSH_22, 0, '--capacity 3 should be from 4', '--capacity', 3, to='call')
        self.fails('a.msh', MSH_22, 0, '--slots 16385 should be from 2', '--slots', 16385, to='call')

    def test_size_and_stop(self):
        out = self.converted('a.msh', MSH_22, '--size', '0.1', '--stop', 1)
        self.assertIn('\n2 4 %s 1\n' % texts.bits(0.1), out)
        self.assertIn('the mean edge here is 1.083', self.convert('a.msh', MSH_22)[2])
        self.fails('a.msh', MSH_22, 0, 'the size is 9.0; it is 0 or from 1/64 to 8', '--size', 9)
        self.fails('a.msh', MSH_22, 0, 'the size is 0.0125 as scaled', '--size', 0.1, '--scale', '1/8')

    def test_unused_nodes(self):
        points = [(0.5, 0.5, 9)] + SQUARE
        mesh = msh22(points, [(1, [1, 2]), (2, [2, 3, 4]), (2, [2, 4, 5])])
        status, out, err = self.convert('a.msh', mesh, '--size', 1)
        self.assertEqual((status, out), (0, S_TEXT))
        self.assertIn('1 nodes that no triangle has are dropped', err)
        kept = self.converted('a.msh', mesh, '--size', 1, '--keep-nodes', '--flatten')
        self.assertIn('\n2 5 ', kept)
        self.assertIn('\n1 2 3\n1 3 4\n', kept)

    def test_decimals_become_the_nearest_doubles(self):
        words = ['0.1', '-1e-7', '.5', '7.99999999999999999999', '4.9406564584124654e-324', '+2.', '-0.0', '1E0']
        points = [(word, '0', '0') for word in words]
        out = self.converted('a.msh', msh22(points, [(2, [1, 2, 3])]), '--size', 0, '--keep-nodes')
        self.assertEqual([line.split()[0] for line in out.split('\n')[5:-1]], [texts.bits(float(word)) for word in words])

    def test_remarks(self):
        status, out, err = self.convert('a.msh', msh22(SQUARE, [(2, [1, 3, 2]), (2, [1, 3, 4]), (2, [3, 4, 1])]), '--size', 1)
        self.assertEqual(status, 0)
        self.assertIn('1 of 3 triangles are clockwise', err)
        self.assertIn('1 triangles repeat others', err)
        raised = msh22([(x, y, 2.5) for x, y, _ in SQUARE], [(2, [1, 2, 3])])
        self.assertIn('z is 2.5; points that the run adds have z 0', self.convert('b.msh', raised, '--size', 1)[2])


class Errors(Case):
    def test_not_ascii(self):
        self.fails('a.msh', MSH_22.replace('2.2 0 8', '2.2 1 8'), 2, 'not ASCII: the file is binary')
        self.fails('a.vtk', VTK_GRID.replace('ASCII', 'BINARY'), 3, 'not ASCII: the file is BINARY')
        self.fails('a.msh', MSH_22.replace('1.0 0.0 0.0', '1.0 é 0.0').encode(), 7, 'not ASCII: byte c3')
        self.fails('a.obj', OBJ.encode().replace(b'v 1 1', b'v \x00 1'), 6, 'not ASCII: byte 00')

    def test_other_cells(self):
        other = lambda kind, nodes: msh22(SQUARE, [(2, [1, 2, 3]), (kind, nodes)])
        self.fails('a.msh', other(3, [1, 2, 3, 4]), 14, 'a quadrangle; only triangles of 3 nodes')
        self.fails('a.msh', other(9, [1, 2, 3, 4, 1, 2]), 14, 'a second-order triangle of 6 nodes')
        self.fails('a.msh', other(4, [1, 2, 3, 4]), 14, 'a tetrahedron')
        self.fails('a.msh', other(99, [1]), 14, 'element type 99')
        self.fails('a.msh', MSH_41.replace('2 1 2 2\n', '2 1 3 2\n'), 26, 'a quadrangle')
        self.fails('a.obj', OBJ + 'f 1 2 3 4\n', 10, 'a face of 4 vertices; only triangles')
        self.fails('a.obj', OBJ + 'surf 0 1 0 1\n', 10, "'surf' is not taken")
        self.fails('a.vtk', VTK_GRID.replace('3\n5\n5\n', '3\n5\n9\n'), 16, 'a quad; only triangles')
        self.fails('a.vtk', VTK_GRID.replace('3\n5\n5\n', '3\n22\n5\n'), 15, 'a second-order triangle')
        self.fails('a.vtk', VTK_POLYDATA.replace('2 8\n3 0 1 2\n', '2 9\n4 0 1 2 3\n'), 12, 'a cell of 4 nodes')
        self.fails('a.vtk', VTK_POLYDATA.replace('POLYDATA', 'STRUCTURED_GRID'), 4, 'dataset STRUCTURED_GRID')

    def test_not_plane(self):
        bent = [(x, y, x) for x, y, _ in SQUARE]
        self.fails('a.msh', msh22(bent, [(2, [1, 2, 3])]), 7, 'not plane: z is 1.0 here and 0.0 at line 6')
        self.assertEqual(self.converted('a.msh', msh22(bent, [(2, [1, 2, 3]), (2, [1, 3, 4])]), '--size', 1, '--flatten'), S_TEXT)

    def test_too_far(self):
        wide = msh22([(0, 0, 0), (8, 0, 0), (40, 3, 0)], [(2, [1, 2, 3])])
        self.fails('a.msh', wide, 8, 'x of node 3 is 40.0, beyond 8 in magnitude, and the largest is 40.0: give --scale 0.125 or --fit')
        self.fails('a.msh', wide, 8, '10.0 as scaled, beyond 8 in magnitude, and the largest is 10.0: give --scale 0.125', '--scale', '1/4')
        self.assertIn(texts.bits(5.0), self.converted('a.msh', wide, '--size', 8, '--scale', '1/8'))

    def test_nodes(self):
        cells = lambda *nodes: msh22(SQUARE, [(2, nodes)])
        self.fails('a.msh', cells(1, 2, 2), 13, 'node 2 stands twice in a triangle')
        self.fails('a.msh', cells(1, 2, 9), 13, 'node 9 is not in $Nodes')
        self.fails('a.msh', cells(1, 2), 13, 'a triangle has 3 nodes, not 2')
        self.fails('a.msh', MSH_22.replace('\n4 0.0', '\n3 0.0'), 9, 'node 3 is given twice')
        self.fails('a.obj', OBJ.replace('f -4', 'f -5'), 9, 'vertex -5 is not there')
        self.fails('a.obj', OBJ.replace('f -4', 'f 5'), 9, 'vertex 5 is not there: the file has 4')
        self.fails('a.vtk', VTK_GRID.replace('3 0 2 3', '3 0 2 4'), 12, 'point 4 is not there: the file has 4')
        self.fails('a.vtk', VTK_51.replace('0 1 2 0 2', '0 1 2 0 0'), 19, 'node 0 stands twice')

    def test_not_finite(self):
        for word in ('nan', '-inf', 'Infinity', 'NaN'):
            self.fails('a.msh', msh22([(0, 0, 0), (1, 0, 0), (0, word, 0)], [(2, [1, 2, 3])]), 8, 'y is %s; coordinates are finite' % word)
        self.fails('a.obj', OBJ.replace('v 1 1', 'v 1e999 1'), 6, 'x is 1e999, beyond the largest double')
        self.fails('a.vtk', VTK_GRID.replace('0 1\n0\n', '0 1\nnan\n'), 8, 'z is nan')

    def test_not_numbers(self):
        self.fails('a.msh', MSH_22.replace('\n4 0.0', '\n4 1_0'), 9, "x should be a decimal number, not '1_0'")
        self.fails('a.msh', MSH_22.replace('2 2 1 1 1 3 4', '2 2 1 1 1 x 4'), 16, "a node number should be a whole number, not 'x'")

    def test_sections(self):
        self.fails('a.msh', MSH_22.replace('$Nodes\n4', '$Nodes\n5'), 10, 'the section ends where node 5 of 5 should follow')
        self.fails('a.msh', MSH_22.replace('$Nodes\n4', '$Nodes\n3'), 9, 'should be $EndNodes')
        self.fails('a.msh', MSH_22.replace('$EndElements\n', ''), 16, 'the file ends where $EndElements should follow')
        self.fails('a.msh', MSH_22.replace('2.2 0', '4 0'), 2, 'version 4; versions 2.2 and 4.1 are read')
        self.fails('a.msh', '$Comments\nx\n' + MSH_22, 1, '$Comments has no $EndComments')
        self.fails('a.vtk', VTK_GRID.replace('CELL_TYPES 3\n3\n', 'CELL_TYPES 2\n'), 15, '3 cells, but 2 cell types')
        self.fails('a.dat', 'solid\n', 1, '--from says which')

    def test_limits(self):
        fan = [(math.cos(i / 20), math.sin(i / 20), 0) for i in range(66)]
        mesh = msh22(fan, [(2, [1, i, i + 1]) for i in range(2, 66)])
        self.fails('a.msh', mesh, 0, '64 triangles and 66 points; the program takes at most 64 triangles and 64 points; sedgepick-mesh takes any number')
        self.assertIn('\n64 66 ', self.converted('a.msh', mesh, '--size', 1, to='call'))
        many = msh22(SQUARE, [(2, [1, 2, 3])] * 4097)
        self.fails('a.msh', many, 0, '4097 triangles and 3 points; the library takes at most 4096', to='call')

    def test_damaged_files(self):
        """Whatever stands in a file, the tools answer with a result or an error of their own."""
        chance = random.Random(3)
        with open(os.path.join(ROOT, 'answers/small/grid-0008.out')) as file:
            answer = file.read()
        for name, whole in (('a.msh', MSH_22), ('b.msh', MSH_41), ('c.obj', OBJ), ('d.vtk', VTK_GRID), ('e.vtk', VTK_51), ('f.txt', S_TEXT), ('g.out', answer)):
            for _ in range(60):
                data = bytearray(whole.encode())
                for _ in range(chance.randrange(1, 4)):
                    at = chance.randrange(len(data))
                    data[at:at + chance.randrange(3)] = chance.choice((b'', b'9', b'-', b'\n', b' ', b'nan', b'1e308', b'\xff', b'$', b'99999999999999999999'))
                path = self.file(name, bytes(data))
                to = 'obj' if name == 'g.out' else 'text'
                self.assertIn(self.run_tool(CONVERT, path, '--to', to, '--size', 1, '--flatten')[0], (0, 1))
                self.assertIn(self.run_tool(DRAW, path)[0], (0, 1))

    def test_directions(self):
        self.fails('a.msh', MSH_22, 0, 'a mesh file goes to text or call', to='obj')
        answer = os.path.join(ROOT, 'answers/small/grid-0008.out')
        self.assertIn('an answer goes to msh22, msh41, obj, vtk', self.run_tool(CONVERT, answer, '--to', 'text', '--size', 1)[2])
        self.fails('a.out', 'refused\n7\n', 0, 'refused with 7: x or y is not finite', to='obj')
        status, out, err = self.run_tool(CONVERT, os.path.join(self.folder, 'none.msh'), '--to', 'text')
        self.assertEqual((status, out), (1, ''))
        self.assertIn('No such file', err)


class Fitting(Case):
    def fitted(self, points):
        """The map; it takes every coordinate within 8 and back, exactly."""
        mesh = CONVERT.read(Source('a.msh', msh22(points, [(2, [1, 2, 3])]).encode()), 'msh')
        map = placing.fit(mesh)
        moved = placing.moved(mesh, map)
        placing.check_range(moved, map)
        self.assertEqual(map.rounded(mesh.points, moved.points), 0)
        self.assertEqual([map.back(point) for point in moved.points], mesh.points)
        return map

    def test_scale_alone(self):
        self.assertEqual(self.fitted([(0, 0, 0), (8, 0, 0), (0, -8, 0)]).options(), '--scale 1')
        self.assertEqual(self.fitted([(0, 0, 0), (20.1, 0, 0), (0.1, 10.3, 0)]).options(), '--scale 0.25')
        self.assertEqual(self.fitted([(-1e300, 0, 0), (1e300, 0, 0), (0, 1, 0)]).scale, 2.0 ** -994)

    def test_shift(self):
        map = self.fitted([(500123.1, 5300000.7, 0), (500133.1, 5300000.7, 0), (500123.3, 5300006.9, 0)])
        self.assertEqual(map.options(), '--scale 1 --shift -500128 -5300004')

    def test_any(self):
        chance = random.Random(12)
        for _ in range(500):
            x, y = (chance.choice((0, 1, -1)) * 10 ** chance.uniform(-9, 9) for _ in 'xy')
            width = 10 ** chance.uniform(-9, 9)
            points = [(x + chance.random() * width, y + chance.random() * width, 0) for _ in range(3)]
            self.assertLessEqual(self.fitted(points).scale, 1.0)

    def test_said_and_undone(self):
        far = [(x * 10 + 1000.1, y * 30 - 2000.3, 0) for x, y, _ in SQUARE]
        mesh = msh22(far, [(2, [1, 2, 3]), (2, [1, 3, 4])])
        status, text, err = self.convert('a.msh', mesh, '--size', 4, '--fit')
        self.assertEqual(status, 0)
        said = err.split('fitted by ')[1].split()
        self.assertEqual(self.convert('a.msh', mesh, '--size', 4, *said)[1], text)
        back = self.converted('a.txt', text, *said, to='obj')
        self.assertEqual([tuple(map(float, line.split()[1:])) for line in back.split('\n')[:4]], far)


class RoundTrips(Case):
    def test_inputs_through_every_form(self):
        """text -> mesh file -> text gives the same bytes."""
        for name in ('ring-0008', 'grid-0002', 'stretched-0008', 'tiny-0000'):
            path = os.path.join(ROOT, 'answers/small', name + '.in')
            with open(path) as file:
                text = file.read()
            mesh = texts.read(Source(path, text.encode()))
            for to, suffix in (('msh22', 'msh'), ('msh41', 'msh'), ('obj', 'obj'), ('vtk', 'vtk')):
                with self.subTest(name=name, to=to):
                    between = self.converted('a.txt', text, to=to)
                    words = ['--size', repr(mesh.size), '--stop', mesh.stop, '--keep-nodes']
                    self.assertEqual(self.convert('a.' + suffix, between, *words)[1], text)

    def test_answers(self):
        """As many quads and triangles as the answer has, over the same points."""
        path = os.path.join(ROOT, 'answers/small/grid-0008.out')
        mesh = texts.read(Source(path, content(path)))
        outs = {to: self.run_tool(CONVERT, path, '--to', to)[1] for to in CONVERT.WRITERS}
        quad = ' '.join(str(node + 1) for node in mesh.quads[0])
        triangle = ' '.join(str(node + 1) for node in mesh.triangles[-1])
        self.assertIn('\n1 3 2 1 1 %s\n' % quad, outs['msh22'])
        self.assertIn('\n27 2 2 2 2 %s\n' % triangle, outs['msh22'])
        self.assertIn('\n2 1 3 17\n1 %s\n' % quad, outs['msh41'])
        self.assertIn('\n27 %s\n$EndElements' % triangle, outs['msh41'])
        self.assertEqual([len(line.split()) - 1 for line in outs['obj'].split('\n') if line.startswith('f ')], [4] * 17 + [3] * 10)
        self.assertTrue(outs['vtk'].endswith('CELL_TYPES 27\n' + '9\n' * 17 + '5\n' * 10))
        points = [tuple(map(float, line.split()[1:])) for line in outs['obj'].split('\n') if line.startswith('v ')]
        self.assertEqual(points, mesh.points)

    def test_z_that_is_not_finite(self):
        text = S_TEXT.replace('3ff0000000000000 0000000000000000\n', '3ff0000000000000 7ff8000000000000\n')
        self.fails('a.txt', text, 9, 'z of point 2 is nan (--flatten sets every z to 0)', to='obj')
        self.assertIn('v 1.0 1.0 0.0\n', self.converted('a.txt', text, '--flatten', to='obj'))

    def test_empty_answer(self):
        empty = '%s\n1 0 0 0 0 0 0 0 0\n%s\n0 0 0 0\n%s\n%s\n%s\n%s\n' % (texts.COUNTS, texts.LENGTHS, texts.QUAD, texts.TRIANGLE, texts.POINT, texts.SIZES)
        for to in CONVERT.WRITERS:
            self.converted('a.out', empty, to=to)
        status, out, err = self.run_tool(DRAW, self.file('a.out', empty))
        self.assertEqual((status, err), (0, ''))
        xml.fromstring(out)


class Texts(Case):
    def test_form(self):
        bad = {
            S_TEXT[:-1]: (10, 'no newline'), S_TEXT + '\n': (11, 'end of the text'), S_TEXT.replace('0 2 3', '0 2 4'): (5, 'node 4 is not there'),
            S_TEXT.replace('0 1 2', '0 1  2'): (4, 'parted by one space'), S_TEXT.replace('0 1 2', '0 01 2'): (4, 'decimal number'),
            S_TEXT.replace('3ff0000000000000 0\n', '3FF0000000000000 0\n'): (2, 'hexadecimal'), S_TEXT.replace('x y z', 'x y'): (6, "should be 'x y z'"),
            'hello\n': (1, "should be 'triangles points size stop'"), S_TEXT[:60]: (4, 'no newline'), '': (1, 'should be'),
        }
        for text, (line, message) in bad.items():
            with self.subTest(message=message):
                status, out, err = self.run_tool(DRAW, self.file('a.txt', text))
                self.assertEqual((status, out), (1, ''))
                self.assertIn('a.txt:%d: ' % line, err)
                self.assertIn(message, err)

    def test_births(self):
        """A quad's record says the edge between its first two nodes, the smaller first, and its place in the list."""
        path = os.path.join(ROOT, 'crates/sedgepick/stdout')
        text = content(path).decode()
        self.assertIn('\n0 1 2 3 0 1 1 2\n', text)
        birth, = texts.read(Source(path, text.encode())).births
        self.assertEqual((birth.edge, birth.round, birth.replaced), ((0, 1), 1, 2))
        bad = {'1 2 3 0 1 0 1 2': 'edge', '0 1 2 3 1 2 1 2': 'edge', '0 1 2 3 0 1 0 2': 'round 1, not 0', '0 1 2 3 0 1 2 2': 'round 1, not 2',
               '0 1 2 4 0 1 1 2': 'node 4', '0 1 2 3 0 1 1': 'decimal number', '0 1 2 3': 'decimal number'}
        bad['1 0 3 2 1 0 1 2'] = 'not from 1 0'
        for line, message in bad.items():
            status, out, err = self.run_tool(DRAW, self.file('a.out', text.replace('0 1 2 3 0 1 1 2', line)))
            self.assertEqual((status, out), (1, ''))
            self.assertIn('a.out:6: ', err)
            self.assertIn(message, err)

    def test_stored_texts_are_read(self):
        """Every stored answer is an answer or a refusal; an answer has front edges unless it says that the front is empty, and the
        scaled Jacobian of its quads is what a run asks for."""
        for path in glob.glob(ROOT + '/answers/small/*.out') + glob.glob(ROOT + '/answers/calls/*.out'):
            try:
                mesh = texts.read(Source(path, content(path)))
            except texts.Refused as refused:
                self.assertIn(refused.number, texts.REFUSALS)
                continue
            self.assertEqual(mesh.counts['front_empty'], not metrics.front_edges(mesh), path)
            given = given_of(path[:-4])
            replaced = sum(birth.replaced for birth in mesh.births)
            self.assertEqual(len(mesh.triangles) + replaced, len(given.triangles) + 2 * mesh.counts['mismatch_insertions'], path)
            self.assertEqual('trials' in mesh.counts, path.startswith(ROOT + '/answers/calls'))
            asked = least_jacobian(path[:-4] + '.call')
            for quad in mesh.quads:
                corners = [mesh.points[node] for node in quad]
                least = metrics.min_scaled_jacobian(corners)
                self.assertGreaterEqual(least, asked)
                self.assertAlmostEqual(least, least_sine(corners), delta=1e-12)


def given_of(stem):
    path = next(stem + suffix for suffix in ('.in', '.call') if os.path.exists(stem + suffix))
    return texts.read(Source(path, content(path)))


def least_jacobian(path):
    """What the stored call asks of its quads; a text has no set."""
    if not os.path.exists(path):
        return 0.3
    form = texts.Form(Source(path, content(path)))
    form.names(texts.CALL)
    form.numbers(texts.CALL)
    return (texts.set_of(form) or (0.3,))[0]


def least_sine(corners):
    """At a corner the scaled Jacobian is the sine of the angle between the sides."""
    sines = []
    for i in range(4):
        (ax, ay, _), (bx, by, _), (cx, cy, _) = corners[i - 1], corners[i], corners[(i + 1) % 4]
        u, v = (cx - bx, cy - by), (ax - bx, ay - by)
        sines.append((u[0] * v[1] - u[1] * v[0]) / math.hypot(*u) / math.hypot(*v))
    return min(sines)


class Drawing(Case):
    def svg(self, *words):
        status, out, err = self.run_tool(DRAW, *words)
        self.assertEqual((status, err), (0, ''))
        return xml.fromstring(out)

    def count(self, root, group, tag):
        found = [g for g in root.iter('{http://www.w3.org/2000/svg}g') if g.get('id') == group]
        return sum(len(list(g.iter('{http://www.w3.org/2000/svg}' + tag))) for g in found)

    def test_stored_answers(self):
        for name in ('deep-0002', 'grid-0008', 'graded-0004', 'ring-0008', 'clockwise-0004', 'repeats-0003', 'slots-0001'):
            path = os.path.join(ROOT, 'answers/small', name + '.out')
            try:
                mesh = texts.read(Source(path, content(path)))
            except texts.Refused:
                continue
            root = self.svg(path, '--input', path[:-4] + '.in')
            self.assertEqual(len(list(root.iter('{http://www.w3.org/2000/svg}polygon'))), len(mesh.quads) + len(mesh.triangles))
            self.assertEqual(self.count(root, 'added', 'circle'), mesh.counts['mismatch_insertions'])
            self.assertEqual(self.count(root, 'front', 'line'), len(metrics.front_edges(mesh)))
            self.assertEqual(self.count(root, 'loose', 'path'), len(mesh.points) - len({node for cell in mesh.cells() for node in cell}))
            width, height = float(root.get('width')), float(root.get('height'))
            for polygon in root.iter('{http://www.w3.org/2000/svg}polygon'):
                for pair in polygon.get('points').split():
                    x, y = map(float, pair.split(','))
                    self.assertTrue(picture.LEFT <= x <= width and picture.TOP <= y <= height)

    def test_input(self):
        root = self.svg(self.file('s.txt', S_TEXT))
        self.assertEqual(self.count(root, 'cells', 'polygon'), 2)
        self.assertEqual(self.count(root, 'front', 'line'), 4)
        quality = texts.QUALITY + '\n3fd3333333333333 3fed0079302dd768 3fe0000000000000 400199999999999a 64\n'
        joints = 'joints\n2\nu v\n0 2\n1 3\n'
        grid = 'grid\n1\n'
        for more in ('', quality, joints, grid, quality + joints + grid):
            self.assertEqual(len(list(self.svg(self.file('s.call', 'capacity slots\n9 9\n' + more + S_TEXT)).iter('{http://www.w3.org/2000/svg}polygon'))), 2)
        self.assertEqual(self.run_tool(DRAW, self.file('s.call', 'capacity slots\n9 9\n' + quality.replace(' 64', '') + S_TEXT))[0], 1)

    def test_file(self):
        out = os.path.join(self.folder, 'out.svg')
        self.assertEqual(self.run_tool(DRAW, self.file('s.txt', S_TEXT), '-o', out, '--title', 'a < b & c'), (0, '', ''))
        self.assertIn('a < b & c', [element.text for element in xml.parse(out).iter()])

    def test_refusal(self):
        out = os.path.join(self.folder, 'out.svg')
        status, written, err = self.run_tool(DRAW, self.file('a.out', 'refused\n9\n'), '-o', out)
        self.assertEqual((status, written), (1, ''))
        self.assertIn('refused with 9: the run needs a slot', err)
        self.assertFalse(os.path.exists(out))

    def test_given_points(self):
        path = os.path.join(ROOT, 'answers/small/deep-0002.out')
        self.assertEqual(self.count(self.svg(path), 'added', 'circle'), 33)
        self.assertEqual(self.count(self.svg(path, '--points', 40), 'added', 'circle'), 8)
        self.assertIn('49 given points, but the answer has 48', self.run_tool(DRAW, path, '--points', 49)[2])
        self.assertIn('does not answer', self.run_tool(DRAW, path, '--input', self.file('s.txt', S_TEXT))[2])
        self.assertIn('is an answer, not an input', self.run_tool(DRAW, path, '--input', path)[2])
        with open(path[:-4] + '.in') as file:
            head, tail = file.read().split('x y z\n')
        moved = head + 'x y z\n' + texts.bits(0.125) + tail[16:]
        self.assertIn('point 0 differs', self.run_tool(DRAW, path, '--input', self.file('m.txt', moved))[2])

    def test_labels_of_axes(self):
        """Each lies inside the picture, right of the y-axis' name, and apart from the next."""
        for shift in (0.0, 1234.5678, -7654321.25, 1e9):
            points = [(x + shift, y - shift, z) for x, y, z in SQUARE]
            frame = picture.Frame(points)
            self.assertGreaterEqual(frame.left - 10 - frame.widest(1), 24)
            self.assertGreater(len(frame.ticks(0)), 1)
            self.assertLess(frame.widest(0), frame.step * frame.scale)
            labels = [picture.label(tick, frame.step) for tick in frame.ticks(0)]
            self.assertEqual(len(set(labels)), len(labels))

    def test_no_picture_of_what_is_not_finite(self):
        for word in ('7ff8000000000000', '7ff0000000000000', '7fe0000000000000'):
            status, out, err = self.run_tool(DRAW, self.file('s.txt', S_TEXT.replace('0000000000000000 3ff0000000000000', '0000000000000000 ' + word)))
            self.assertEqual((status, out), (1, ''))
            self.assertIn('s.txt:10: point 3 is at', err)

    def test_flat_and_tiny(self):
        for x in ('0000000000000001', '0000000000000000', '01a56e1fc2f8f359', '4020000000000000'):
            self.svg(self.file('s.txt', S_TEXT.replace('3ff0000000000000 ', x + ' ').replace(x + ' 0\n', '3ff0000000000000 0\n')))

    def test_colours(self):
        """The lightness rises with the scaled Jacobian, in steps that can be told apart without colour."""
        light = [lightness(colour) for colour in picture.CLASSES]
        self.assertTrue(all(b - a > 8 for a, b in zip(light, light[1:])))
        self.assertEqual([picture.colour(value) for value in (0.3, 0.4, 0.65, 0.9, 1.0)], [picture.CLASSES[i] for i in (0, 1, 3, 6, 6)])
        self.assertEqual([picture.colour(value) for value in (0.2, math.inf, math.nan)], [picture.BELOW] * 3)

    def test_by_round(self):
        """Every quad has the fill of its round's band; the bands take the rounds in order, and the lightness rises with them."""
        light = [lightness(colour) for colour in picture.ROUNDS]
        self.assertTrue(all(b - a > 8 for a, b in zip(light, light[1:])))
        for name in ('deep-0002', 'grid-0008', 'edge-001', 'single-0000'):
            path = os.path.join(ROOT, 'answers/small', name + '.out')
            mesh = texts.read(Source(path, content(path)))
            root = self.svg(path, '--by', 'round')
            fills = [(p[0].text, p.get('fill')) for p in root.iter('{http://www.w3.org/2000/svg}polygon') if p[0].text.startswith('quad')]
            self.assertEqual(len(fills), len(mesh.quads))
            for (words, fill), quad, birth in zip(fills, mesh.quads, mesh.births):
                self.assertIn('quad %d %d %d %d, round %d, grown from %d %d, in place of %d triangle' % (*quad, birth.round, *birth.edge, birth.replaced), words)
            places = [picture.ROUNDS.index(fill) for _, fill in fills]
            self.assertEqual(places, sorted(places))
            self.assertEqual(self.count(root, 'numbers', 'text'), len(mesh.quads))
            shades = picture.by_round(mesh)
            self.assertEqual([sum(fill == own for fill in shades.fills) for _, own, _ in shades.rows], [count for _, _, count in shades.rows])
            self.assertEqual(sum(count for _, _, count in shades.rows), len(mesh.quads))

    def test_square(self):
        self.assertEqual(metrics.min_scaled_jacobian(SQUARE), 1.0)
        self.assertEqual(metrics.min_scaled_jacobian([SQUARE[0]] * 4), math.inf)


class Examples(Case):
    """examples/: the inputs are those of the meshes, the picture is that of the answer."""

    def test_inputs(self):
        for name, mesh, size in (('slab', 'slab', 0.6), ('leftovers', 'slab', 0.5), ('plate', 'plate', 0.4)):
            path = os.path.join(ROOT, 'examples', '%s')
            self.assertEqual(self.run_tool(CONVERT, path % mesh + '.msh', '--to', 'text', '--size', size), (0, content(path % name + '.in').decode(), ''))

    def test_pictures(self):
        for name, size in (('slab', 0.6), ('leftovers', 0.5)):
            path = os.path.join(ROOT, 'examples', name)
            words = ['--input', path + '.in', '--title', 'slab.msh, size %s' % size]
            self.assertEqual(self.run_tool(DRAW, path + '.out', *words), (0, content(path + '.svg').decode(), ''))
        slab = os.path.join(ROOT, 'examples/slab')
        words = ['--input', slab + '.in', '--title', 'slab.msh, size 0.6', '--by', 'round']
        self.assertEqual(self.run_tool(DRAW, slab + '.out', *words), (0, content(os.path.join(ROOT, 'examples/rounds.svg')).decode(), ''))


class Programs(Case):
    """What the gate runs the program on: the square, and among the stored texts a long one."""

    def file(self, *names):
        return content(os.path.join(ROOT, *names)).decode()

    def test_square(self):
        self.assertEqual(self.file('crates/sedgepick/stdin'), S_TEXT)

    def test_long(self):
        self.assertGreater(len(self.file('answers/small/edge-long.in')), 3800)
        mesh = texts.read(Source('stdout', self.file('answers/small/edge-long.out').encode()))
        self.assertGreater(mesh.counts['mismatch_insertions'], 0)
        self.assertGreater(len(mesh.triangles), 0)
        self.assertGreater(len(mesh.quads), 0)


def lightness(colour):
    """L* of CIELAB."""
    linear = [(v / 12.92 if v <= 0.04045 else ((v + 0.055) / 1.055) ** 2.4) for v in (int(colour[i:i + 2], 16) / 255 for i in (1, 3, 5))]
    return 116 * (0.2126 * linear[0] + 0.7152 * linear[1] + 0.0722 * linear[2]) ** (1 / 3) - 16


class Changes(unittest.TestCase):
    def test_each_text_stands_once_in_the_definition(self):
        self.assertEqual(CHANGE.misplaced(), [])
        self.assertGreater(len(CHANGE.CHANGES), 50)


class DesignCounts(unittest.TestCase):
    SOURCE = """// The first that is over; n where there is none.
pub fn first_over(w: &[u32], n: usize, over: bool) -> usize
    requires { n ≤ length w.now }
    ensures { First w.now n result }
{
    let mut i = 0;
    while i < n {
        if over {
            return i;
        }
        i += 1;
    }
    n
}

// Kept (1): C reads these numbers.
pub enum Found {
    Nothing,
    At(usize),
}

fn walk(w: &[u32], mut c: usize) -> usize {
    while c < 9 {
        c = next(w, c);
    }
    c
}
"""

    def counted(self, source):
        with tempfile.TemporaryDirectory() as made:
            os.makedirs(f'{made}/crates/one/src')
            with open(f'{made}/crates/one/src/lib.rt', 'w', encoding='utf-8') as f:
                f.write(source)
            said = io.StringIO()
            with unittest.mock.patch.object(COUNTS, 'ROOT', made), contextlib.redirect_stdout(said):
                COUNTS.main([])
        return {m[0]: (int(m[1]), int(m[2])) for m in re.findall(r'^(\w+) +(\d+) found, +(\d+) of them kept', said.getvalue(), re.M)}

    def test_places(self):
        found = self.counted(self.SOURCE)
        self.assertEqual(found, dict(own_options=(1, 1), flags=(0, 0), numbers=(1, 0), twins=(0, 0), loops=(1, 0), by_hand=(0, 0), clauses=(0, 0),
                                     together=(0, 0), lengths=(1, 0), searches=(0, 0), switches=(1, 0), walked=(0, 0), aliases=(0, 0)))

    def test_twin_and_kept_loop(self):
        twin = self.SOURCE.replace('first_over', 'first_under').split('// Kept')[0].replace('    while', '    // Kept (3): a reason.\n    while')
        found = self.counted(self.SOURCE + '\n' + twin)
        self.assertEqual((found['twins'], found['loops'], found['lengths']), ((1, 0), (2, 1), (2, 0)))


class Docs(unittest.TestCase):
    """Each check of tools/check-docs passes on the pages as they are, and notices a page that was changed for it."""

    @classmethod
    def setUpClass(cls):
        cls.tree, cls.pages = DOCS.Tree(ROOT), DOCS.load_pages(ROOT)
        cls.before = {check: check(cls.tree, cls.pages) for check in DOCS.CHECKS}

    def noticed(self, check, page, old, new, fault):
        """With `old` of the page as `new` the check has one fault more, which matches."""
        self.assertIn(old, self.pages[page])
        before = self.before[check]
        after = check(self.tree, dict(self.pages, **{page: self.pages[page].replace(old, new, 1)}))
        more = [line for line in after if line not in before]
        self.assertTrue(more, (page, new))
        self.assertRegex(more[0], fault)

    def test_pages_as_they_are(self):
        self.assertEqual([fault for faults in self.before.values() for fault in faults], [])

    def test_links(self):
        self.noticed(DOCS.check_links, 'README.md', '(docs/REFUSALS.md)', '(docs/REFUSAL.md)', 'no file docs/REFUSAL.md')
        self.noticed(DOCS.check_links, 'README.md', 'REQUIREMENTS.md#quality-set', 'REQUIREMENTS.md#quality', 'no heading')
        self.noticed(DOCS.check_links, 'docs/GRID.md', '(REQUIREMENTS.md#grid-profile)', '(#grid)', 'no heading')

    def test_commands(self):
        self.noticed(DOCS.check_commands, 'CONTRIBUTING.md', 'rt check\n', 'rt checks\n', 'no test is named for the command rt checks')
        self.noticed(DOCS.check_commands, 'CONTRIBUTING.md', 'rt must-fail rules\n', '', 'no page has the command rt must-fail rules')
        with unittest.mock.patch.dict(DOCS.COMMANDS, {'rt fmt': {'tools/test': 'rt fmt', 'tools/none': 'x'}}):
            self.assertIn('CONTRIBUTING.md: tools/test or tools/none does not run rt fmt', DOCS.check_commands(self.tree, self.pages))

    def test_names(self):
        for kind, old, new in [
            ('a statement', '`exact_value`', '`exact_values`'),
            ('a crate with a function', '`mesher::run_front`', '`mesher::run_fronts`'),
            ('a function', '`segments_cross`', '`segments_crossed`'),
            ('a file', '`root/specs/Nan.antt`', '`root/specs/Nans.antt`'),
            ('a definition', '`Text.reply`', '`Text.replied`'),
        ]:
            with self.subTest(kind):
                self.noticed(DOCS.check_names, 'docs/READING.md', old, new, 'no %s in the tree' % re.escape(new.strip('`')))
        self.noticed(DOCS.check_names, 'CONTRIBUTING.md', '`Rattle.laws.specs.Kit`', '`Rattle.laws.specs.Kits`', 'no Rattle.laws.specs.Kits in the tree')
        self.noticed(DOCS.check_names, 'docs/CHECK-TIME.md', '`rules/set_ignored`', '`rules/set_minded`', 'no rules/set_minded in the tree')
        self.noticed(DOCS.check_names, 'docs/GRID.md', '`--grid`', '`--grids`', 'no --grids in the tree')
        self.noticed(DOCS.check_names, 'docs/LIBRARY.md', '`sedgepick_sheet`', '`sedgepick_sheets`', 'no sedgepick_sheets in the tree')
        self.noticed(DOCS.check_names, 'docs/LIBRARY.md', '`enum sedgepick_quad`', '`enum sedgepick_quads`', 'no enum sedgepick_quads in the tree')

    def test_statements(self):
        page = 'docs/REQUIREMENTS.md'
        self.noticed(DOCS.check_statements, page, '`keeps_account` in', '`keeps_accounts` in', 'no keeps_accounts in crates/account/proofs/Demand.antt')
        self.noticed(DOCS.check_statements, page, 'crates/account/proofs/Demand.antt', 'crates/account/proofs/Demands.antt', 'no file crates/account/proofs/Demands.antt')
        births = self.pages[page][self.pages[page].index('### Births'):self.pages[page].index('### Trials')]
        self.noticed(DOCS.check_statements, page, births, births[:births.index('Proved:')], 'nothing proves or tests Births')

    def test_counts(self):
        stated = DOCS.COUNT.search(self.pages['docs/ARCHITECTURE.md']).group(0)
        self.noticed(DOCS.check_counts, 'docs/ARCHITECTURE.md', stated, '7<!--crates-->', '7 crates are stated, the tree has %d' % self.tree.counts()['crates'])
        self.noticed(DOCS.check_counts, 'docs/ARCHITECTURE.md', stated, '7<!--crate-->', 'no count is called crate')

    def test_put_right(self):
        right = '%d<!--crates--> in `account/specs/Gridded.antt`, `crates/account/specs/Gridded.antt`' % self.tree.counts()['crates']
        self.assertEqual(DOCS.put_right(self.tree, '7<!--crates--> in `exact/specs/Gridded.antt`, `crates/exact/specs/Gridded.antt`'), right)
        self.assertEqual(DOCS.put_right(self.tree, right), right)
        self.assertEqual(DOCS.put_right(self.tree, '`exact/another_standard` `exact/half_steps`'), '`rules/another_standard` `exact/half_steps`')
        self.assertEqual(DOCS.put_right(self.tree, '`exact/high_word_first`, `traces/high_word_first`').count('traces/'), 1)

    def test_words(self):
        for words in ('document 01', 'Papers 2 and 8', 'Demand 3'):
            self.noticed(DOCS.check_words, 'docs/GRID.md', 'The grid profile is', words + ' is', words[:-6] if 'and' in words else words)

    def test_comments(self):
        for path, text, faults in [
            ('crates/root/src/lib.rt', '// A root.\n// So it is.\nfn f()\n', []),
            ('crates/root/src/lib.rt', 'fn f()\n\n    // So it is.\n', ['crates/root/src/lib.rt:3: a comment begins with "So"']),
            ('crates/root/specs/Nan.antt', '-- The same of a NaN.\n', ['crates/root/specs/Nan.antt:1: a comment begins with "The same"']),
            ('crates/root/proofs/Cut.antt', '-- And so on\n', []),
            ('crates/root/proofs/Cut.antt', '-- see Paper 4\n', ['crates/root/proofs/Cut.antt:1: Paper 4 has a name in docs/REQUIREMENTS.md']),
            ('crates/root/must-fail/a.edit', "# document 01's\n", ['crates/root/must-fail/a.edit:1: document 01 has a name in docs/REQUIREMENTS.md']),
        ]:
            with self.subTest(text):
                self.assertEqual(DOCS.comment_faults(path, text), faults)
                with unittest.mock.patch.object(self.tree, 'text', lambda read, at=path, say=text: say if read == at else ''):
                    with unittest.mock.patch.object(self.tree, 'files', [path]):
                        self.assertEqual(DOCS.check_comments(self.tree, self.pages), faults)

    def test_lengths(self):
        self.noticed(DOCS.check_lengths, 'README.md', 'Sedgepick', 'x' * 8192, 'over 8192 bytes')
        self.noticed(DOCS.check_lengths, 'docs/GRID.md', 'The grid profile is', 'x' * 121, '121|characters')

    def test_lists(self):
        self.noticed(DOCS.check_lists, 'docs/CHECK-TIME.md', '`rules/set_ignored`', '', 'the edit rules/set_ignored is missing')
        self.noticed(DOCS.check_lists, 'docs/ARCHITECTURE.md', '`run_sheets` |', '|', 'the crate run_sheets is missing')
        self.noticed(DOCS.check_lists, 'docs/REFUSALS.md', '| 15 | `OFF_GRID` |', '| 15 | |', 'refusal 15, OFF_GRID, is missing')


@unittest.skipUnless(shutil.which('rt'), 'the kit is not installed')
class Contributing(unittest.TestCase):
    """The proof of CONTRIBUTING.md, from hole to green, and its edit, in a copy of the crates that it needs."""

    def setUp(self):
        self.page = content(os.path.join(ROOT, 'CONTRIBUTING.md')).decode()
        self.folder = tempfile.mkdtemp()
        self.addCleanup(shutil.rmtree, self.folder)
        lines = re.findall(r'^(\w+):(.*)$', content(os.path.join(ROOT, 'crates.txt')).decode(), re.M)
        needed = {'rules'}
        for crate, below in reversed(lines):
            if crate in needed:
                needed.update(below.split())
        for crate in needed:
            shutil.copytree(os.path.join(ROOT, 'crates', crate), os.path.join(self.folder, 'crates', crate), ignore=shutil.ignore_patterns('out'))
        with open(os.path.join(self.folder, 'crates.txt'), 'w') as file:
            file.writelines(f'{crate}:{below}\n' for crate, below in lines if crate in needed)
        self.crate = os.path.join(self.folder, 'crates', 'rules')
        self.proof = os.path.join(self.crate, 'proofs', 'standard_quality', 'Answers.antt')

    def rt(self, *words):
        ran = subprocess.run(['rt', *words], cwd=self.crate, stdout=subprocess.PIPE, stderr=subprocess.STDOUT, text=True)
        return ran.returncode, ran.stdout

    def block(self, kind):
        return re.search('^```%s\n(.*?)^```' % kind, self.page, re.M | re.S).group(1)

    def files(self):
        return {path: content(path) for path in glob.glob(self.crate + '/**/*', recursive=True) if path.endswith(('.rt', '.antt')) and '/out/' not in path}

    def test_from_hole_to_green(self):
        proved = content(self.proof).decode()
        self.assertEqual(self.block('antt'), proved)
        self.assertIn(self.block('rust').rstrip(), content(os.path.join(ROOT, 'crates/rules/src/lib.rt')).decode())
        shutil.rmtree(os.path.dirname(self.proof))
        status, told = self.rt('check')
        self.assertEqual(status, 1, told)
        printed = re.search(r'with these lines.*\n((?:    .*\n| *\n)+)', told).group(1)
        self.assertIn('returns c = ?', printed)
        os.mkdir(os.path.dirname(self.proof))
        for text, words, said in [(printed.replace('\n    ', '\n').strip() + '\n', ['--allow-holes'], 'holes=1'), (proved, [], 'logic=proved')]:
            with open(self.proof, 'w') as file:
                file.write(text)
            self.assertIn(said, self.rt('check', *words)[1])
        before = self.files()
        self.assertEqual((self.rt('fmt')[0], self.files()), (0, before))
        status, told = self.rt('verdict')
        self.assertEqual(status, 0, told)
        self.assertIn(self.block('edit'), content(os.path.join(ROOT, 'crates/rules/must-fail/another_standard.edit')).decode())
        self.crate = self.folder
        status, told = self.rt('must-fail', 'rules')
        self.assertEqual(status, 0, told)
        self.assertIn('must-fail rules/another_standard.edit: refused', told)


class Landings(unittest.TestCase):
    SPEC = """use lib.Dec.{leb}

-- the first
unfoldable pub one : N
one = 1

module _ (n : N) where
  pub two : N
  two =
      -- inside
      n

pub record Both : Type 0 where
  pub two : N
"""
    SOURCE = """pub fn long(a: u32) -> u32
    requires { a < 3 }
    ensures { first
        and second }
    ensures { third }
{
    a
}

fn inner() -> u32
    ensures { fourth }
{
    0
}

pub fn bare(a: u32) -> u32 {
    a
}
"""

    def test_declarations(self):
        self.assertEqual(NOTE.declared(self.SPEC), [('one', 'unfoldable pub one : N\none = 1\n'), ('two', 'pub two : N\ntwo =\nn\n'),
                                                    ('Both', 'pub record Both : Type 0 where\npub two : N\n')])

    def test_contracts(self):
        self.assertEqual(list(NOTE.contracts(self.SOURCE, 'ensures', True)), [('long', 'ensures { first and second }\nensures { third }')])
        self.assertEqual(list(NOTE.contracts(self.SOURCE, 'requires', True)), [('long', 'requires { a < 3 }')])
        self.assertEqual(list(NOTE.contracts(self.SOURCE, 'ensures', False)), [('inner', 'ensures { fourth }')])

    def test_moved(self):
        before = {'a': [('X', '1')], 'b': [('X', '1')], 'c': [('X', '1')], 'd': [('X', '1')], 'e': [('X', '1'), ('Y', '2')]}
        after = {'a': [('X', '1')], 'b': [('X', '2')], 'c': [('Y', '1')], 'e': [('X', '1'), ('Y', '3'), ('Z', '2')], 'f': [('X', '1')]}
        self.assertEqual(NOTE.moved(before, after), ([('X', 'b')], [('X', 'f'), ('Y', 'e')], [('X', 'd')]))

    def test_a_row_for_each_paper(self):
        page = content(NOTE.PAGE).decode()
        for number, before, after in NOTE.papers():
            self.assertEqual(page.count('| %d %s | %s |' % (number, NOTE.TITLES[number], after.replace('+', ' with '))), 1)
            self.assertIn('\n## Paper %d: ' % number, page)
        self.assertEqual(sorted(number for number, _, _ in NOTE.papers()), list(range(1, 15)))


class Fuzz(unittest.TestCase):
    def test_ends_within_its_time(self):
        """In the midst of the files that a child tries, not behind the last of them."""
        class Slow:
            @staticmethod
            def main(words):
                time.sleep(0.5)
                return 1
        with tempfile.TemporaryDirectory() as folder:
            begin = time.monotonic()
            found = FUZZ.tried(Slow, folder, [('.msh', b'x')] * 40, begin + 2)
            self.assertLess(time.monotonic() - begin, 12)
            self.assertTrue(1 <= len(found) < 40, len(found))
            self.assertEqual({status for status, *_ in found}, {1})
            self.assertEqual(len(FUZZ.tried(Slow, folder, [('.msh', b'x')] * 3)), 3)

    def test_over_the_limit(self):
        """A file that is over it once is tried again and has its own answer; one that is over it each time hangs, and the files after it are tried."""
        with tempfile.TemporaryDirectory() as folder:
            class Hangs:
                @staticmethod
                def main(words):
                    given = content(words[0])
                    with open(os.path.join(folder, 'begun'), 'ab') as file:
                        file.write(given)
                    if given == b'h' or given == b's' and content(file.name).count(b's') < 2:
                        time.sleep(60)
                    return 1
            with unittest.mock.patch.object(FUZZ, 'LIMIT', 4.0), contextlib.redirect_stdout(io.StringIO()) as said:
                found = FUZZ.tried(Hangs, folder, [('.msh', letter) for letter in (b'a', b's', b'b', b'h', b'c')])
            self.assertEqual([status for status, *_ in found], [1, 1, 1, None, 1])
            self.assertEqual([content(os.path.join(folder, 'begun')).count(letter) >= 2 for letter in (b's', b'h')], [True, True])
            self.assertIn('once more', said.getvalue())


class Running(unittest.TestCase):
    """tools/test in a tree of its own, whose steps are what a test says."""

    def setUp(self):
        self.root = tempfile.mkdtemp()
        self.addCleanup(shutil.rmtree, self.root)
        self.write('tools/test', content(os.path.join(HERE, 'test')).decode())
        for path in ('tools/check-docs', 'tools/run-definition', 'bin/cargo'):
            self.write(path, '#!/bin/sh\nexit 0\n')
        self.write('tools/test_tools.py', 'import sys\nclass Drawing(): pass\nprint("tried", sys.argv[1:])\n')
        for path in ('crates/sedgepick/stdin', 'crates/sedgepick/stdout', *('examples/%s.%s' % (name, end) for name in ('slab', 'plate', 'leftovers') for end in ('in', 'out'))):
            self.write(path, '')
        self.write('python/setup.cfg', '[flake8]\n')
        self.write('python/sedgepick/__init__.py', '')

    def write(self, path, text):
        path = os.path.join(self.root, path)
        os.makedirs(os.path.dirname(path), exist_ok=True)
        with open(path, 'w') as file:
            file.write(text)
        os.chmod(path, 0o755)

    def run_test(self, *words):
        """(exit status, what is said)"""
        ran = subprocess.run([os.path.join(self.root, 'tools/test'), *words], stdout=subprocess.PIPE, stderr=subprocess.STDOUT, text=True,
                             env=dict(os.environ, PATH=os.path.join(self.root, 'bin') + ':' + os.environ['PATH']))
        return ran.returncode, ran.stdout

    def test_all_pass(self):
        status, said = self.run_test('docs', 'tools')
        self.assertEqual((status, said.split('\n')[-3:]), (0, ['tools/test: passed: docs tools', 'tools/test: ok', '']))

    def test_goes_on_after_a_failure(self):
        self.write('tools/check-docs', '#!/bin/sh\necho a fault\nexit 3\n')
        status, said = self.run_test('docs', 'tools')
        self.assertEqual(status, 1)
        for words in ('a fault\nFAILED: docs (exit status 3)', 'tried []', 'tools/test: passed: tools\ntools/test: FAILED: docs\n'):
            self.assertIn(words, said)

    def test_a_step_ends_at_its_first_failure(self):
        self.write('bin/cargo', '#!/bin/sh\necho "cargo $1"\n[ "$1" != test ]\n')
        status, said = self.run_test('reference')
        self.assertEqual((status, said.count('cargo test'), said.count('cargo run')), (1, 1, 0))

    def test_quick(self):
        self.write('tools/check-docs', '#!/bin/sh\nexit 1\n')
        status, said = self.run_test('quick')
        self.assertEqual(status, 1)
        self.assertIn('FAILED: docs', said)
        self.assertRegex(said, 'tools/test: passed: reference tools')

    def test_skipped(self):
        """What is not built is passed over with its name, and has failed where it was asked for."""
        status, said = self.run_test()
        self.assertEqual(status, 0)
        self.assertIn('\n  program: crates/sedgepick/out/sedgepick is not there\n', said)
        self.assertEqual([self.run_test(name)[0] for name in ('program', 'roots', 'bindings', 'python')], [1] * 4)

    def test_names(self):
        self.assertIn("tried ['Drawing.test_square']", self.run_test('Drawing.test_square')[1])
        self.write('reference/src/lib.rs', 'fn turns() {}\n')
        self.write('bin/cargo', '#!/bin/sh\necho "cargo $*"\n')
        self.assertRegex(self.run_test('turns')[1], 'cargo test .*reference/Cargo.toml turns\n')
        self.write('tools/python-tests', 'import sys\nprint("python", sys.argv[1:])\n')
        self.write('python/tests/test_filing.py', '')
        self.assertIn("python ['test_filing.Order']", self.run_test('test_filing.Order')[1])
        self.assertIn("python ['test_filing', 'test_job']", self.run_test('python', 'test_filing', 'test_job')[1])
        status, said = self.run_test('none_such')
        self.assertEqual((status, said.split(';')[0]), (2, 'tools/test: none_such is no step and no test'))


if __name__ == '__main__':
    unittest.main()
