"""Tests of groups by name, from each format that has names to each other one, and of the programs that read what is written."""
import os, re, shutil, subprocess, unittest
from importlib.util import find_spec
from case import Case, meshio, set_up
from common import FILES, grid

if meshio:
    import numpy
    from sedgepick import files, names, surfaces

COLUMNS = os.path.join(FILES, 'columns.msh')
HDF = find_spec('h5py') is not None
NAMED = ('msh', 'inp') + ('med',) * HDF  # formats with names
INP = """** two blocks without a set before one that has it
*NODE
10, 0, 0, 0
20, 1, 0, 0
30, 1, 1, 0
** inside the nodes
40, 0, 1, 0
50, 2, 0, 0
60, 2, 1, 0
*ELEMENT, TYPE=S3
1, 10, 20, 30
2, 10, 30, 40
*ELSET, ELSET=early
1
*ELEMENT, TYPE=S3, ELSET=Right
5, 20, 50, 60
** inside the cells
7, 20, 60, 30
*ELEMENT, TYPE=B31, ELSET=wall
9, 20, 30
*NSET, NSET=corner
10, 50
*NSET, NSET=both
corner, 40
*ELSET, ELSET=every, GENERATE
1, 7, 1
*ELSET, ELSET=two
early, RIGHT
"""


def setUpModule():
    set_up()


class Names(Case):
    def counted(self, path):
        """Triangles or quads, lines and points of each group."""
        mesh, found = files.read(path), {}
        for marked in (mesh.triangles, mesh.lines, mesh.vertices):
            for name, has in marked.sets.items():
                if has.any():
                    found[name] = found.get(name, 0) + int(has.sum())
        for name, nodes in mesh.hard.items():
            if name != 'point of the geometry':
                found[name] = found.get(name, 0) + len(nodes)
        return found

    def test_from_each_format_to_each(self):
        """Groups of cells, lines and points go from file to file; a run that makes no quads keeps every cell."""
        none = ['--least-jacobian', '1', '--least-angle', '60', '--beams']  # without beams a .inp has no lines, and their group is one of nodes
        want = {'slab': 642, 'wall': 6, 'column': 12}
        for first in NAMED:
            self.good(COLUMNS, '-o', self.path('a.' + first), *none)
            self.assertEqual(self.counted(self.path('a.' + first)), want, first)
            for second in NAMED:
                with self.subTest(first=first, second=second):
                    self.good(self.path('a.' + first), '-o', self.path('b.' + second), *none)
                    self.assertEqual(self.counted(self.path('b.' + second)), want)

    def test_formats_without_names_say_so(self):
        self.assertIn('note: vtu holds no names of groups; in its numbers (gmsh:physical) 1 is slab, 3 is column, 4 is wall', self.good(COLUMNS, '-o', self.path('a.vtu')).stderr)
        self.assertIn('note: obj holds no groups; left out are slab', self.good(COLUMNS, '-o', self.path('a.obj')).stderr)
        self.good(COLUMNS, '-o', self.path('a.inp'))
        with open(self.path('in.inp'), 'w') as file:
            file.write(INP)
        self.assertRegex(self.good(self.path('in.inp'), '-o', self.path('b.vtu')).stderr, r'in its numbers \(group\) .*\d is wall')
        mesh = meshio.read(self.path('b.vtu'))
        self.assertEqual(len(numpy.unique(numpy.concatenate(mesh.cell_data['group']))), 6)

    def test_cells_without_a_group_have_a_set(self):
        points, triangles = grid(3, 3)
        self.good(self.stored(points, [('triangle', triangles), ('line', [(0, 1), (1, 2)])]), '-o', self.path('a.inp'), '--stop', '0', '--beams')
        with open(self.path('a.inp')) as file:
            self.assertEqual(sorted(set(re.findall(r'ELSET=(\w+)', file.read()))), ['lines', 'surface'])

    def test_sets_of_an_abaqus_file(self):
        with open(self.path('in.inp'), 'w') as file:
            file.write(INP)
        found = files.read(self.path('in.inp'))
        rows = {name: has.astype(int).tolist() for name, has in found.triangles.sets.items()}
        self.assertEqual(rows, {'early': [1, 0, 0, 0], 'Right': [0, 0, 1, 1], 'wall': [0, 0, 0, 0], 'every': [1, 1, 1, 1], 'two': [1, 0, 1, 1]})
        self.assertEqual(found.lines.sets['wall'].tolist(), [True])
        self.assertEqual({name: nodes.tolist() for name, nodes in found.hard.items()}, {'corner': [0, 4], 'both': [0, 3, 4]})

    def test_points_of_both_kinds(self):
        """Vertices of the file and its sets of nodes become one list of vertices."""
        vertices = surfaces.Marked(numpy.array([[3], [5]]), {'medit:ref': numpy.array([7, 8])}, {'top': numpy.array([True, False])})
        ((kind, found),) = names.as_vertices([('vertex', vertices)], {'top': numpy.array([5, 9]), 'foot': numpy.array([3, 4])})
        self.assertEqual((kind, found.cells.ravel().tolist()), ('vertex', [3, 5, 4, 9]))
        self.assertEqual(found.tags['medit:ref'].tolist(), [7, 8, 0, 0])
        self.assertEqual({name: has.tolist() for name, has in found.sets.items()}, {'top': [True, True, False, True], 'foot': [True, False, True, False]})

    def test_cells_in_several_groups(self):
        """Gmsh's format takes one group a cell: those in several have one with all names."""
        with open(self.path('in.inp'), 'w') as file:
            file.write(INP)
        self.good(self.path('in.inp'), '-o', self.out)
        mesh, quads, triangles = self.mesh()
        self.assertEqual(len(quads) * 2 + len(triangles), 4)
        self.assertIn('Right+every+two', mesh.field_data)
        self.assertEqual({name.split('+')[0]: int(value[1]) for name, value in mesh.field_data.items() if name in ('wall', 'corner+both', 'both')}, {'wall': 1, 'corner': 0, 'both': 0})


class Programs(Case):
    def reads(self, path, *more):
        return self.good(COLUMNS, '-o', self.path(path), *more)

    @unittest.skipUnless(shutil.which('ccx'), 'CalculiX is not installed')
    def test_calculix(self):
        """A slab on its columns under 10 kN on the square metre: what the columns carry is the load, but for what lies on their own nodes."""
        self.reads('quads.inp', '--beams')
        with open(self.path('deck.inp'), 'w') as file:
            file.write('*INCLUDE, INPUT=quads.inp\n*MATERIAL, NAME=C30\n*ELASTIC\n33e9, 0.2\n*SHELL SECTION, ELSET=slab, MATERIAL=C30\n0.25\n'
                       '*BEAM SECTION, ELSET=wall, MATERIAL=C30, SECTION=RECT\n0.2, 0.2\n0., 0., 1.\n*BOUNDARY\ncolumn, 1, 3\n'
                       '*STEP\n*STATIC\n*DLOAD\nslab, P, -10000.\n*NODE PRINT, NSET=column, TOTALS=ONLY\nRF\n*END STEP\n')
        ran = subprocess.run(['ccx', 'deck'], capture_output=True, text=True, cwd=self.folder, stdin=subprocess.DEVNULL)
        self.assertIn('Job finished', ran.stdout, ran.stdout[-800:])
        with open(self.path('deck.dat')) as file:
            force = float(file.read().split()[-1])
        self.assertTrue(0.9 < abs(force) / (12 * 9 * 10000) < 1, force)

    @unittest.skipUnless(shutil.which('pvbatch'), 'ParaView is not installed')
    def test_paraview(self):
        script = self.path('read.py')
        with open(script, 'w') as file:
            file.write('import sys\nfrom paraview.simple import *\nfor name in sys.argv[1:]:\n    reader = OpenDataFile(name)\n    reader.UpdatePipeline()\n'
                       '    found = reader.GetDataInformation()\n    print("read", found.GetNumberOfCells(), found.GetNumberOfPoints())\n')
        names = ['a.vtu', 'a.vtk'] + ['a.xdmf'] * HDF
        for name in names:
            self.reads(name)
        mesh, quads, triangles = self.mesh(self.path('a.vtu'), 'vtu')
        ran = subprocess.run(['pvbatch', script, *map(self.path, names)], capture_output=True, text=True, timeout=300, stdin=subprocess.DEVNULL)
        want = len(quads) + len(triangles) + 6
        self.assertEqual(re.findall(r'read (\d+) (\d+)', ran.stdout), [(str(want + 12), str(len(mesh.points)))] * 2 + [(str(want), str(len(mesh.points)))] * HDF, ran.stderr)

    @unittest.skipUnless(HDF and shutil.which('mdump'), "MED's tools are not installed")
    def test_med(self):
        self.reads('a.med')
        ran = subprocess.run(['mdump', '--structure', self.path('a.med'), 'NODALE', 'FULL_INTERLACE', '1'], capture_output=True, text=True, errors='replace', timeout=60, stdin=subprocess.DEVNULL)
        for words in ('MED_SEG2 : 6', 'Nombre de familles : 4'):
            self.assertIn(words, ran.stdout)

    @unittest.skipUnless(shutil.which('gmsh'), 'Gmsh is not installed')
    def test_gmsh(self):
        self.reads('a.msh')
        ran = subprocess.run(['gmsh', self.path('a.msh'), '-check', '-'], capture_output=True, text=True, stdin=subprocess.DEVNULL)
        self.assertNotIn('Error', ran.stdout + ran.stderr)
        self.assertRegex(ran.stdout + ran.stderr, r'\d+ elements')


if __name__ == '__main__':
    unittest.main()
