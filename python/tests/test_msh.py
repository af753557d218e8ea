"""Tests of the package's own reader of .msh and writers of .msh and .vtu: the same as meshio's where meshio is there, and strict."""
import glob, json, os, random, shutil, subprocess, sys, tempfile, unittest
from case import Case, meshio, set_up
from common import FILES, PACKAGES, ROOT

if meshio:
    import numpy
    from sedgepick import apart, files, msh
    from sedgepick.surfaces import Fault

GIVEN = sorted(glob.glob(os.path.join(ROOT, 'examples', '**', '*.msh'), recursive=True))
RUNS = """import contextlib, io, json, sys
sys.path.insert(0, %r)
%s
from sedgepick.command import main
rows = []
for words in %r:
    said = io.StringIO()
    with contextlib.redirect_stderr(said):
        status = main(words)
    rows.append((status, said.getvalue()))
print(json.dumps(rows))
"""
HIDDEN = 'sys.modules["meshio"] = None'
# a square whose surface is in two groups; number 1 is a group of curves and another of surfaces
SQUARE = b'''$MeshFormat
4.1 0 8
$EndMeshFormat
$PhysicalNames
3
1 1 "edge"
2 1 "slab"
2 5 "wet room"
$EndPhysicalNames
$Entities
0 1 1 0
7 0 0 0 1 0 0 1 1 0
3 0 0 0 1 1 0 2 5 1 1 7
$EndEntities
$Nodes
1 4 11 14
2 3 0 4
11
12
13
14
0 0 0
1 0 0
1 1 0
0 1 0
$EndNodes
$Elements
2 3 1 3
1 7 1 1
1 11 12
2 3 2 2
2 11 12 13
3 11 13 14
$EndElements
'''


def setUpModule():
    set_up()


def content_of(name):
    with open(os.path.join(FILES, name), 'rb') as file:
        return file.read()


def taken(mesh):
    """What the command makes of a mesh, as bytes; or why it does not take it."""
    try:
        return b''.join(apart.encode(files.surface_of(mesh)))
    except Fault as fault:
        return str(fault)


class Reader(unittest.TestCase):
    def test_same_as_meshio(self):
        self.assertGreaterEqual(len(GIVEN), 11)
        for path in GIVEN:
            with self.subTest(os.path.basename(path)):
                with files.quiet():
                    theirs = meshio.read(path, file_format='gmsh')
                own = msh.read(path, 'gmsh')
                self.assertEqual(taken(own), taken(theirs))
                self.assertEqual([(block.type, block.data.tolist()) for block in own.cells], [(block.type, block.data.tolist()) for block in theirs.cells])
                self.assertEqual(own.points.tolist(), theirs.points.tolist())

    def test_groups(self):
        """The first group of an entity is its number; it is in the sets of all of them, by dimension."""
        own = msh.read_gmsh(SQUARE)
        with tempfile.NamedTemporaryFile(suffix='.msh') as file, files.quiet():
            file.write(SQUARE)
            file.flush()
            self.assertEqual(taken(own), taken(meshio.read(file.name, file_format='gmsh')))
        surface = files.surface_of(own)
        self.assertEqual((surface.triangles.tags['gmsh:physical'].tolist(), surface.lines.tags['gmsh:physical'].tolist()), ([5, 5], [1]))
        self.assertEqual({name: has.tolist() for name, has in surface.triangles.sets.items()}, {'edge': [False] * 2, 'slab': [True] * 2, 'wet room': [True] * 2})
        self.assertEqual({name: has.tolist() for name, has in surface.lines.sets.items()}, {'edge': [True], 'slab': [False], 'wet room': [False]})

    def test_an_entity_without_group(self):
        """Its cells have the number 0; meshio 5.0.0 does not read such a file."""
        text = content_of('l-slab-41.msh').decode()
        lines = text.split('\n')
        begin = lines.index('$Entities') + 1
        counts = [int(word) for word in lines[begin].split()]
        row = begin + 1 + counts[0]  # the first curve: its number, a box, its groups
        words = lines[row].split()
        self.assertEqual(words[7], '1', 'the curve has one group')
        lines[row] = ' '.join(words[:7] + ['0'] + words[9:])
        surface = files.surface_of(msh.read_gmsh('\n'.join(lines).encode()))
        before = files.surface_of(msh.read_gmsh(text.encode()))
        bare = surface.lines.tags['gmsh:physical'] == 0
        self.assertEqual((surface.lines.tags['gmsh:geometrical'][bare] == int(words[0])).all(), True)
        self.assertEqual(int(bare.sum()), int((before.lines.tags['gmsh:geometrical'] == int(words[0])).sum()))
        number = int(words[8])
        name = next(name for name, pair in before.names.items() if pair == (number, 1))
        self.assertEqual(int(before.lines.sets[name].sum()) - int(surface.lines.sets[name].sum()), int(bare.sum()))


class Strict(unittest.TestCase):
    def says(self, pattern, content):
        with tempfile.NamedTemporaryFile(suffix='.msh') as file:
            file.write(content)
            file.flush()
            with self.assertRaisesRegex(Fault, pattern):
                msh.read(file.name, 'gmsh')

    def changed(self, name, old, new):
        content = content_of(name)
        self.assertIn(old, content)
        return content.replace(old, new, 1)

    def test_the_line(self):
        for name, line in (('l-slab-22.msh', 40), ('l-slab-22.msh', 160), ('l-slab-41.msh', 215), ('l-slab-41.msh', 12)):
            with self.subTest(name, line=line):
                lines = content_of(name).split(b'\n')
                lines[line - 1] = b' '.join(lines[line - 1].split(b' ')[:-1] + [b'wrong'])
                self.says("it cannot be read as gmsh: it stops at line %d, '.*wrong': 'wrong' is no (whole )?number. Mend the file" % line, b'\n'.join(lines))

    def test_cut_short(self):
        """No part of a file is taken for the whole."""
        for path in GIVEN:
            content = content_of(path)
            for share in range(1, 60):
                with self.subTest(os.path.basename(path), share=share):
                    self.says('it cannot be read as gmsh', content[:len(content.rstrip()) * share // 60])

    def test_words(self):
        self.says('version 4.0 of .msh: without meshio the versions 2.2 and 4.1 are read', self.changed('l-slab-41.msh', b'4.1 0 8', b'4.0 0 8'))
        elements, rest = content_of('l-slab-22.msh').split(b'\n$EndElements')
        self.says('an element has node 4000, which is not there', elements.rsplit(b' ', 1)[0] + b' 4000\n$EndElements' + rest)
        self.says('a section, such as .Nodes, should begin there', self.changed('l-slab-41.msh', b'$Nodes', b'Nodes'))
        self.says('.EndNodes is missing', self.changed('l-slab-41.msh', b'$EndNodes', b'$EndNoses'))
        blocks, count = content_of('l-slab-41.msh').split(b'$Nodes\n')[1].split()[:2]
        self.says('the section says 1000 nodes and has %d' % int(count), self.changed('l-slab-41.msh', b'$Nodes\n%s %s' % (blocks, count), b'$Nodes\n%s 1000' % blocks))
        self.says('the section says 4 elements and has 3', SQUARE.replace(b'$Elements\n2 3', b'$Elements\n2 4'))
        self.says('there are more numbers than the section says', self.changed('l-slab-41.msh', b'\n$EndElements', b'\n7\n$EndElements'))
        self.says('the section stands twice', content_of('l-slab-41.msh') + b'$Nodes\n0 0 0 0\n$EndNodes\n')
        self.says('Nodes should stand before .Elements', b'$MeshFormat\n4.1 0 8\n$EndMeshFormat\n$Elements\n0 0 0 0\n$EndElements\n')
        self.says('node 1 stands twice', b'$MeshFormat\n2.2 0 8\n$EndMeshFormat\n$Nodes\n2\n1 0 0 0\n1 1 0 0\n$EndNodes\n$Elements\n0\n$EndElements\n')
        self.says('elements of type 99 are not known', b'$MeshFormat\n2.2 0 8\n$EndMeshFormat\n$Nodes\n1\n1 0 0 0\n$EndNodes\n$Elements\n1\n1 99 0 1\n$EndElements\n')
        self.says('a dimension, a number and a name in quotes', self.changed('l-slab-41.msh', b'"', b''))
        self.says('entity 77 of dimension 2 is not in .Entities', b'$MeshFormat\n4.1 0 8\n$EndMeshFormat\n$Entities\n0 0 0 0\n$EndEntities\n$Nodes\n1 1 1 1\n2 1 0 1\n1\n0 0 0\n$EndNodes\n'
                  b'$Elements\n1 0 0 0\n2 77 2 0\n$EndElements\n')

    def test_any_bytes(self):
        """A file whose bytes are changed by chance is read or refused in words; nothing else happens."""
        chance = random.Random(7)
        refused = 0
        for path in GIVEN[:8] * 60:
            content = bytearray(content_of(path))
            for _ in range(chance.choice((1, 1, 3, 10))):
                content[chance.randrange(len(content))] = chance.choice(b'0123456789 -.$\n\0\xffaE')
            with tempfile.NamedTemporaryFile(suffix='.msh') as file:
                file.write(content)
                file.flush()
                try:
                    with numpy.errstate(all='ignore'):
                        msh.read(file.name, 'gmsh')
                except Fault:
                    refused += 1
        self.assertGreater(refused, 50)


class Writers(unittest.TestCase):
    def setUp(self):
        self.folder = tempfile.mkdtemp()
        self.addCleanup(shutil.rmtree, self.folder)
        points = numpy.array([[0, 0, 0], [1, 0, 0], [1, 1 / 3, 0], [0, 1e-300, 0], [2, -1e22, 0.1]])
        self.points, self.cells = points, [('quad', [[0, 1, 2, 3]]), ('triangle', [[1, 4, 2], [4, 2, 3]]), ('line', [[0, 1]]), ('vertex', [[4]])]
        self.data = {'gmsh:physical': [[7], [7, 8], [1], [2]], 'gmsh:geometrical': [[1], [2, 3], [4], [5]]}

    def both(self, form, **more):
        """The paths of the file by meshio, and by the package."""
        made = []
        for kind, module in (('theirs', meshio), ('own', msh)):
            mesh = module.Mesh(self.points, [(name, numpy.array(rows)) for name, rows in self.cells], cell_data={name: [numpy.array(own) for own in rows] for name, rows in self.data.items()}, **more)
            made.append(os.path.join(self.folder, '%s.%s' % (kind, form)))
            with files.quiet():
                module.write(made[-1], mesh, file_format=form, **({'binary': False} if form == 'gmsh22' else {}))
        return made

    def test_msh_has_the_bytes_of_meshio(self):
        theirs, own = map(content_of, self.both('gmsh22', field_data={'slab "A"': numpy.array([7, 2]), 'edge': numpy.array([1, 1])}))
        self.assertEqual(own, theirs)

    def test_vtu_holds_the_same(self):
        theirs, own = self.both('vtu')
        for read in (lambda path: meshio.read(path, file_format='vtu'), lambda path: msh.read(path, 'vtu')):
            mesh, wanted = read(own), meshio.read(theirs, file_format='vtu')
            self.assertEqual(mesh.points.tolist(), wanted.points.tolist())
            self.assertEqual([(block.type, block.data.tolist()) for block in mesh.cells], [(block.type, block.data.tolist()) for block in wanted.cells])
            self.assertEqual({name: [list(rows) for rows in own] for name, own in mesh.cell_data.items()}, {name: [list(rows) for rows in own] for name, own in wanted.cell_data.items()})
        with self.assertRaisesRegex(ModuleNotFoundError, 'vtu files need meshio'):
            msh.read(theirs, 'vtu')  # it is compressed


class WithoutMeshio(Case):
    def run_all(self, before, *runs):
        """(exit status, words on standard error) of the command for each list of words, all in one process."""
        ran = subprocess.run([sys.executable, '-B', '-c', RUNS % (PACKAGES, before, [[*words, '-q'] for words in runs])], capture_output=True, text=True)
        self.assertEqual(ran.returncode, 0, ran.stderr)
        return json.loads(ran.stdout)

    def bytes_of(self, name):
        with open(self.path(name), 'rb') as file:
            return file.read()

    def test_same_mesh(self):
        words = lambda kind: [(path, '-o', self.path('%s-%d.msh' % (kind, i))) for i, path in enumerate(GIVEN)]
        own, usual = self.run_all(HIDDEN, *words('own')), self.run_all('import meshio', *words('usual'))
        self.assertEqual(own, usual)
        self.assertEqual(sorted(os.path.basename(path) for path, (status, _) in zip(GIVEN, own) if status), ['lines-only.msh', 'second-order.msh'])
        for i, (status, _) in enumerate(own):
            if not status:
                self.assertEqual(self.bytes_of('own-%d.msh' % i), self.bytes_of('usual-%d.msh' % i))

    def test_vtu_and_report(self):
        given = os.path.join(FILES, 'columns.msh')
        ((status, said),) = self.run_all(HIDDEN, (given, '-o', self.path('own.vtu'), '--report', self.path('report.html')))
        self.assertEqual(status, 0, said)
        self.good(given, '-o', self.path('out.vtu'))
        own, usual = (self.mesh(self.path(name), 'vtu') for name in ('own.vtu', 'out.vtu'))
        self.assertEqual((own[0].points.tolist(), own[1:]), (usual[0].points.tolist(), usual[1:]))
        self.assertIn(b'not installed; the file was read and written by the package itself', self.bytes_of('report.html'))

    def test_what_needs_it(self):
        given = os.path.join(FILES, 'columns.msh')
        for status, said in self.run_all(HIDDEN, (given, '-o', self.path('out.inp')), (given, '-o', self.path('out.vtk')), (os.path.join(FILES, 'l-slab.inp'), '-o', self.out),
                                         (os.path.join(FILES, 'l-slab-meshio.vtu'), '-o', self.out)):
            self.assertEqual(status, 1, said)
            self.assertRegex(said, '(abaqus|vtk42|vtu) files need meshio, which is not installed .Debian: apt install python3-meshio')


if __name__ == '__main__':
    unittest.main()
