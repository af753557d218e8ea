"""Tests of what the command says of files that it cannot read or write: the file, the line where it stops, and what to do."""
import os, signal, subprocess, sys, unittest
from case import COMMAND, Case, meshio, set_up
from common import FILES

if meshio:
    import numpy
    from sedgepick import files, surfaces, writing

L_SLAB = os.path.join(FILES, 'l-slab-41.msh')


def setUpModule():
    set_up()


class Given(Case):
    def put(self, name, content):
        with open(self.path(name), 'wb') as file:
            file.write(content if isinstance(content, bytes) else content.encode())
        return self.path(name)

    def given(self, name):
        with open(os.path.join(FILES, name), 'rb') as file:
            return file.read()

    def says(self, pattern, name, content, form=None):
        """A Fault with these words within ten seconds."""
        before = signal.signal(signal.SIGALRM, lambda *_: self.fail('%s is read without an end' % name))
        signal.alarm(10)
        try:
            with self.assertRaisesRegex(surfaces.Fault, pattern):
                surfaces.checked(files.read(self.put(name, content), form))
        finally:
            signal.alarm(0)
            signal.signal(signal.SIGALRM, before)


class Reading(Given):
    def test_the_line(self):
        """A wrong word is found where it stands."""
        for name, line in (('l-slab-22.msh', 40), ('l-slab-22.msh', 160), ('l-slab-41.msh', 215), ('l-slab.inp', 20), ('l-slab-meshio.obj', 20), ('l-slab-meshio.off', 60), ('l-slab-meshio.mesh', 60)):
            with self.subTest(name):
                lines = self.given(name).split(b'\n')
                lines[line - 1] = b' '.join(lines[line - 1].split(b' ')[:-1] + [b'wrong'])
                self.says("it stops at line %d, '.*(wrong|\\.\\.)'" % line, name, b'\n'.join(lines))

    def test_words_of_a_fault(self):
        self.says("it stops at line 3, '2, 1, zero, 0'; ' zero' is no number. Mend the file", 'a.inp', '*NODE\n1, 0, 0, 0\n2, 1, zero, 0\n')
        self.says("it stops at line 8, '2, 1, 2.5, 4'; ' 2.5' is no whole number", 'a.inp', '*NODE\n1, 0, 0, 0\n2, 1, 0, 0\n3, 1, 1, 0\n4, 0, 1, 0\n*ELEMENT, TYPE=S3\n1, 1, 2, 3\n2, 1, 2.5, 4\n')

    def test_cut_short(self):
        for name in ('l-slab-22.msh', 'l-slab-41.msh', 'l-slab-22-binary.msh', 'l-slab-41-binary.msh', 'l-slab.vtk', 'l-slab.stl', 'l-slab-meshio.vtu', 'l-slab-meshio.off',
                     'l-slab-meshio.mesh'):
            content = self.given(name)
            for share in (0.1, 0.35, 0.6, 0.75, 0.8):
                with self.subTest(name, share=share):
                    self.says(r'meshio cannot read it as \w+: .*(it ends too early|it stops at (line|byte) \d|line \d+, column \d)|no triangles|nodes each|it breaks off', name, content[:int(len(content) * share)])

    def test_reading_ends(self):
        """meshio 5.0.0 goes on for ever behind the end of such files."""
        self.says('it ends too early', 'a.dat', 'VARIABLES = "X", "Y"\nZONE T="a", N=3, E=1, F=FEPOINT, ET=TRIANGLE\n0 0\n1 0\n', 'tecplot')
        self.says('it ends too early', 'a.mdpa', 'Begin Nodes\n1 0 0 0\n2 1 0 0\n3 0 1 0\nEnd Nodes\nBegin Elements Element2D3N\n', 'mdpa')

    def test_not_a_mesh(self):
        wild = bytes((i * 7919 + i // 13) % 256 for i in range(3000))
        for suffix, form in [(suffix, None) for suffix in files.READ] + [('.ply', 'ply'), ('.dat', 'tecplot'), ('.vol', 'netgen'), ('.avs', 'avsucd')]:
            with self.subTest(suffix):
                words = 'it is no universal file' if suffix == '.unv' else 'meshio (cannot read it as|needs the Python module h5py)|no triangles'
                self.says(words, 'wild' + suffix, wild, form)
                self.says(words, 'words' + suffix, 'not a mesh\n1 2 3\n', form)

    def test_a_cell_with_a_wrong_node(self):
        self.says('triangle 2 names node 9, and the file has the nodes 1 to 4: mend that cell', 'a.off', 'OFF\n4 2 0\n0 0 0\n1 0 0\n1 1 0\n0 1 0\n3 0 1 2\n3 0 2 8\n')
        self.says("it stops at line 9, '2, 1, 3, 9'; 9 is not known there", 'a.inp', '*NODE\n1, 0, 0, 0\n2, 1, 0, 0\n3, 1, 1, 0\n4, 0, 1, 0\n*ELEMENT, TYPE=S3\n1, 1, 2, 3\n** the next\n2, 1, 3, 9\n')

    def test_latin_1(self):
        words = '** für Stützen\n*NODE\n1, 0, 0, 0\n2, 1, 0, 0\n3, 1, 1, 0\n4, 0, 1, 0\n*ELEMENT, TYPE=S3, ELSET=Träger\n1, 1, 2, 3\n2, 1, 3, 4\n'
        for encoding in ('utf-8', 'latin-1'):
            self.assertEqual(list(files.read(self.put('a.inp', words.encode(encoding))).triangles.sets), ['Träger'])

    def test_no_file(self):
        self.refused('nothing.msh: there is no such file', self.path('nothing.msh'), '-o', self.out)
        self.refused('it is a folder', self.folder, '-o', self.out)
        self.refused('it is empty', self.put('empty.msh', ''), '-o', self.out)
        self.refused("unknown format of mesh.xyz: .*'.xyz'", self.put('mesh.xyz', 'hello'), '-o', self.out)
        self.refused('slab.geo: it is a geometry and no mesh: mesh it first, as in gmsh -2 slab.geo -o slab.msh', self.put('slab.geo', 'Point(1) = {0, 0, 0};'), '-o', self.out)

    @unittest.skipIf(hasattr(os, 'geteuid') and os.geteuid() == 0, 'root may read everything')
    def test_no_permission(self):
        os.chmod(self.put('closed.msh', self.given('l-slab-41.msh')), 0)
        self.refused('you have no permission', self.path('closed.msh'), '-o', self.out)

    def test_no_module(self):
        """meshio without h5py, as Debian installs it."""
        code = 'import sys, runpy; sys.modules["h5py"] = None; sys.argv = %r; runpy.run_path(%r, run_name="__main__")'
        for words in ([L_SLAB, '-o', self.path('out.med')], [L_SLAB, '-o', self.path('out.xdmf')], [os.path.join(FILES, 'l-slab-meshio.med'), '-o', self.out],
                      [os.path.join(FILES, 'l-slab-meshio.xdmf'), '-o', self.out]):
            ran = subprocess.run([sys.executable, '-c', code % ([COMMAND, *words], COMMAND)], capture_output=True, text=True)
            self.assertEqual(ran.returncode, 1, ran.stderr)
            self.assertRegex(ran.stderr, 'meshio needs the Python module h5py for (med|xdmf) files: install it .*python3-h5py')


class Writing(Case):
    def test_where_it_cannot(self):
        given = L_SLAB
        self.refused('cannot write .*: there is no folder', given, '-o', os.path.join(self.folder, 'no', 'out.msh'))
        self.refused('it is a folder', given, '-o', self.folder)
        self.refused("unknown format of out.xyz: .*'.xyz'", given, '-o', self.path('out.xyz'))
        self.refused('out.msh would be written twice', given, '-o', self.out, '--report', self.out)
        with open(given, 'rb') as file, open(self.path('own.msh'), 'wb') as own:
            own.write(file.read())
        before = os.path.getmtime(self.path('own.msh'))
        for words in (['-o', self.path('own.msh')], ['-o', self.out, '--report', self.path('own.msh')], ['--preview', self.path('p.svg'), '-o', self.path('own.msh')]):
            self.refused('is the file that is read', self.path('own.msh'), *words)
        self.assertEqual(os.path.getmtime(self.path('own.msh')), before)

    def test_a_file_that_is_there_stays(self):
        with open(self.path('out.stl'), 'w') as file:
            file.write('mine')
        self.assertEqual(self.run_command(L_SLAB, '-o', self.path('out.stl')).returncode, 1)
        with open(self.path('out.stl')) as file:
            self.assertEqual(file.read(), 'mine')
        self.assertEqual(os.listdir(self.folder), ['out.stl'])

    def test_forms_without_quads_are_told_before_the_run(self):
        with self.assertRaisesRegex(surfaces.Fault, 'cannot write out.stl as stl: it holds no quads. Formats that take quads'):
            writing.check_form('out.stl', None)
        writing.check_form(self.out, None)

    def test_sizes_in_words(self):
        for word in ('small', 'nan', '-1', 'inf'):
            self.assertIn("'%s' is no size: a length in the units of the file, 0 or auto" % word, self.run_command(L_SLAB, '-o', self.out, '--size=' + word).stderr)
        self.assertIn("'0' is not a whole number from 1 on", self.run_command(L_SLAB, '-o', self.out, '--jobs', '0').stderr)


class Gmsh(Given):
    """Files of Gmsh that meshio does not read."""

    def same(self, name, far):
        """The triangles and lines of a file against those of the .msh that Gmsh wrote of the same geometry."""
        wanted, found = files.read(os.path.join(FILES, 'l-slab-41.msh')), files.read(os.path.join(FILES, name))
        key = lambda surface, cells: sorted(tuple(sorted(tuple(point) for point in numpy.round(surface.points[cell] / far).astype(int).tolist())) for cell in cells)
        self.assertEqual(key(found, found.triangles.cells), key(wanted, wanted.triangles.cells))
        self.assertEqual(key(found, found.lines.cells), key(wanted, wanted.lines.cells))
        return wanted, found

    def test_unv(self):
        wanted, found = self.same('l-slab.unv', 1e-12)
        self.assertEqual(len(found.points), len(wanted.points))
        for own in ('triangles', 'lines'):
            sets = lambda surface: {name: int(has.sum()) for name, has in getattr(surface, own).sets.items() if has.any()}
            self.assertEqual(sets(found), sets(wanted))

    def test_bdf_without_begin(self):
        content = self.given('l-slab.bdf')
        self.assertNotIn(b'BEGIN BULK', content)
        wanted, found = self.same('l-slab.bdf', 1e-4)
        again = files.read(self.put('a.bdf', b'SOL 101\nBEGIN BULK\n' + content))
        self.assertEqual(again.triangles.cells.tolist(), found.triangles.cells.tolist())
        self.says("line 40, 'GRID", 'b.bdf', b'\n'.join(content.split(b'\n')[:39] + [b'GRID    x       0       0.00E+000.00E+000.00E+00']))

    UNV = """    -1
  2411
         1         1         1        11
   0.0D+00   0.0D+00   0.0D+00
         2         1         1        11
   1.0D+00   0.0D+00   0.0D+00
         9         1         1        11
   1.0D+00   1.0D+00   0.0D+00
         4         1         1        11
   0.0D+00   1.0D+00   0.0D+00
    -1
    -1
  2420
         1
    -1
    -1
  2412
         5        21         1         0         7         2
         0         0         0
         1         2
         7        91         1         0         7         3
         1         2         9
         8        41         1         0         7         3
         1         9         4
    -1
    -1
  2467
         1         0         0         0         0         0         0         3
both kinds
         8         5         0         0         8         7         0         0
         7         4         0         0
         2         0         0         0         0         0         0         1
points
         8        77         0         0
    -1
"""

    def test_unv_by_hand(self):
        found = files.read(self.put('a.unv', self.UNV))
        self.assertEqual((found.triangles.cells.tolist(), found.lines.cells.tolist()), ([[0, 1, 2], [0, 2, 3]], [[0, 1]]))
        self.assertEqual((found.triangles.sets['both kinds'].tolist(), found.lines.sets['both kinds'].tolist(), found.hard['both kinds'].tolist()), ([True, False], [True], [3]))
        self.assertIn('the group points has 1 elements that the file does not have', found.notes[0])

    def test_unv_in_words(self):
        self.says('element 8 names node 5, which is not in the file', 'a.unv', self.UNV.replace('1         9         4', '1         9         5'))
        self.says("it stops at line 4, '0.0D\\+00   x   0.0D\\+00'", 'a.unv', self.UNV.replace('   0.0D+00   0.0D+00   0.0D+00', '   0.0D+00   x   0.0D+00', 1))
        self.says('element 7 has descriptor 99 and 3 nodes', 'a.unv', self.UNV.replace('7        91', '7        99'))
        self.says('element 8 has descriptor 41 and 4 nodes', 'a.unv', self.UNV.replace('         8        41         1         0         7         3', '         8        41         1         0         7         4'))
        self.says('its last dataset has no end', 'a.unv', self.UNV[:-7])
        self.says('a dataset breaks off at line', 'a.unv', self.UNV.replace('         1         9         4\n', ''))
        self.says('node 1 stands at two places', 'a.unv', self.UNV.replace('         4         1         1        11', '         1         1         1        11'))
        self.says('second order', 'a.unv', self.UNV.replace('         8        41         1         0         7         3\n         1         9         4', '         8        42         1         0         7         6\n         1         9         4         1         2         9'))


if __name__ == '__main__':
    unittest.main()
