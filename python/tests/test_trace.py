"""Tests of traces: of the package, and of the page that steps through a mesh as it grew."""
import ctypes, json, math, os, random, re, shutil, subprocess, sys, tempfile, unittest
from common import FILES, PACKAGES, ROOT, grid, make_library
import sedgepick
from sedgepick import front, library

try:
    import meshio, numpy
    from sedgepick import files, steps_page
except ImportError:
    meshio = None

SQUARE = [(0.0, 0.0), (1.0, 0.0), (1.0, 1.0), (0.0, 1.0)]
HALVES = [(0, 1, 2), (0, 2, 3)]
FLARED = [(0.0, 0.0), (1.0, 0.0), (2.0, 2.0), (-1.0, 2.0)]
QUAD = [4, 0, 1, 2, 3, 0, 1, 1, 2, 0, 1]
SCRIPT = os.path.join(PACKAGES, 'sedgepick', 'steps.js')


def setUpModule():
    make_library()


def shaken(seed, columns=6, rows=5, by=0.3):
    """A grid whose inner points are moved."""
    draw = random.Random(seed)
    points, triangles = grid(columns, rows, 0.5)
    inner = lambda x, y: 0 < x < 0.5 * columns and 0 < y < 0.5 * rows
    return [(x + by * (draw.random() - 0.5), y + by * (draw.random() - 0.5)) if inner(x, y) else (x, y) for x, y, _ in points], triangles


def plain(rows):
    return [tuple(map(float, row)) if hasattr(row, '__len__') else float(row) for row in rows]


class Package(unittest.TestCase):
    def same(self, mesh, again):
        self.assertEqual(mesh.quads, again.quads)
        for name in ('points', 'triangles', 'components'):
            self.assertEqual(plain(getattr(mesh, name)), plain(getattr(again, name)))

    def refused(self, number, call):
        with self.assertRaises(sedgepick.Refused) as caught:
            call()
        self.assertEqual(caught.exception.number, number)

    def test_square(self):
        mesh = sedgepick.run_front(SQUARE, HALVES, 1.0, trace=True)
        self.assertEqual(list(mesh.trace), QUAD)
        (entry,) = sedgepick.entries(mesh.trace)
        self.assertEqual(entry, sedgepick.Placed(mesh.quads[0], (0, 1)))
        self.assertEqual(str(entry), 'quad 0 1 2 3 from edge 0-1 in round 1 in place of 2 triangles')
        self.assertIsNone(sedgepick.run_front(SQUARE, HALVES, 1.0).trace)
        self.same(sedgepick.replay(SQUARE, HALVES, mesh.trace), mesh)
        self.assertEqual(plain(sedgepick.replay(SQUARE, HALVES, []).triangles), plain(HALVES))

    def test_kinds(self):
        mesh = sedgepick.run_front(FLARED, HALVES, 0.5, trace=True)
        found = sedgepick.entries(mesh.trace)
        self.assertEqual(found[0], sedgepick.Insertion(1, 0.0, 0.5))
        self.assertEqual(found[2], sedgepick.Flip((0, 2)))
        self.assertEqual([str(entry) for entry in found[:4]], ['insertion at 0, 0.5 in the triangle of slot 1', 'insertion at 1, 0.5 in the triangle of slot 0', 'edge 0-2 flipped',
                                                               'quad 0 1 5 4 from edge 0-1 in round 1 in place of 2 triangles'])
        self.assertEqual([word for entry in found for word in entry.words()], list(mesh.trace))
        kinds = [type(entry) for entry in found]
        self.assertEqual((kinds.count(sedgepick.Placed), kinds.count(sedgepick.Insertion)), (len(mesh.quads), mesh.counts.mismatch_insertions))

    def test_nothing_else_changes(self):
        """However few words are lent at first; and the replay is the run."""
        for seed in range(12):
            points, triangles = shaken(seed)
            for size in (0.0, 0.2, 0.6):
                options = dict(size=size, stop=seed % 2, joints=[triangles[0][:2]] * (seed % 3))
                usual = sedgepick.run_front(points, triangles, **options)
                for words in (None, 1, 100000):
                    mesh = sedgepick.run_front(points, triangles, trace=True, words=words, **options)
                    self.assertEqual(mesh.counts, usual.counts)
                    self.same(mesh, usual)
                self.same(sedgepick.replay(points, triangles, mesh.trace), mesh)

    def test_steps(self):
        """The mesh after each entry: one quad, one point or one edge differs."""
        points, triangles = shaken(3)
        mesh, at = sedgepick.run_front(points, triangles, 0.2, trace=True), 0
        before = sedgepick.replay(points, triangles, [])
        for entry in sedgepick.entries(mesh.trace)[:60]:
            at += len(entry.words())
            after = sedgepick.replay(points, triangles, mesh.trace[:at])
            if isinstance(entry, sedgepick.Insertion):
                self.assertEqual((len(after.triangles), tuple(after.points[-1])), (len(before.triangles) + 2, (entry.x, entry.y, 0.0)))
            elif isinstance(entry, sedgepick.Flip):
                has = lambda found: sum(set(entry.edge) <= set(map(int, cell)) for cell in found.triangles)
                self.assertEqual((has(before), has(after), len(after.triangles)), (2, 0, len(before.triangles)))
            else:
                self.assertEqual((after.quads[-1], len(after.triangles)), (entry.quad, len(before.triangles) - len(entry.slots)))
            before = after

    def test_forms(self):
        points, triangles = shaken(5)
        usual = sedgepick.run_front(points, triangles, 0.3, trace=True)
        kept, front.numpy = front.numpy, None
        try:
            mesh = sedgepick.run_front(points, triangles, 0.3, trace=True)
            self.assertEqual((type(mesh.trace), mesh.trace), (list, list(usual.trace)))
            self.same(sedgepick.replay(points, triangles, mesh.trace), usual)
        finally:
            front.numpy = kept
        self.same(sedgepick.replay(points, triangles, tuple(map(int, usual.trace))), usual)

    def test_words_that_no_run_wrote(self):
        on = lambda words: sedgepick.replay(SQUARE, HALVES, words)
        for words in (QUAD[:10], QUAD + [3], [2, 2, 0], [2, 0, 1], [3, 0, 2], [2, 0, 2 ** 32 - 1], sedgepick.Insertion(0, 0.5, 0.5).words(),
                      sedgepick.Insertion(0, math.nan, 0.5).words(), sedgepick.Insertion(7, 0.75, 0.5).words(), [4, 0, 1, 2, 3, 0, 1, 1, 2, 0, 0], [4, 0, 1, 2, 9, 0, 1, 1, 0]):
            self.refused(12, lambda: on(words))
        self.assertEqual(on([4, 0, 2, 0, 2, 9, 8, 6, 0]).quads[0], ((0, 2, 0, 2), (9, 8), 6, 0))
        self.refused(9, lambda: on([4, 0, 1, 2, 3, 0, 1, 1, 0] * 17000))
        for number, points, triangles in ((1, [(0.0, 0.0)] * 4097, HALVES), (5, SQUARE, [(0, 1, 4)]), (6, SQUARE, [(0, 1, 1)]), (7, [(9.0, 0.0)] + SQUARE[1:], HALVES)):
            self.refused(number, lambda: sedgepick.replay(points, triangles, QUAD))
        for words in (QUAD[:10], [3], [1, 2]):
            with self.assertRaises(ValueError):
                sedgepick.entries(words)

    def test_words_that_32_bits_cannot_hold(self):
        for words in ([2, 0, 2 ** 32], [2, 0, -1], [2, 0, 0.5], [2 ** 32 + 4] + QUAD[1:], [math.nan], [math.inf], [2 ** 70]):
            with self.assertRaises(ValueError) as caught:
                sedgepick.replay(SQUARE, HALVES, words)
            self.assertIn('from 0 to 4294967295', str(caught.exception))

    def test_job(self):
        points, triangles = shaken(2)
        alone = sedgepick.run_front(points, triangles, 0.3, trace=True)
        job = sedgepick.Job(2, 100000)
        short = job.run(points, triangles, 0.3, trace=True, words=20)
        self.assertEqual((short.refused.number, short.mesh), (11, None))
        self.assertGreater(short.charged, 0)
        self.assertEqual(list(job.run(points, triangles, 0.3, trace=True).mesh.trace), list(alone.trace))

    def test_lent_memory(self):
        """A short answer is 4, behind 1; a refusal leaves it."""
        for length, capacity, number in ((4, 4, 0), (5, 4, 0), (3, 4, 4), (3, 8193, 1)):
            call = front.Call(4, capacity, 2, 3, 0.0, 0)
            memory = front.Memory(front.doubles(SQUARE), front.node_numbers(HALVES, 3, 'triangles'), call)
            answer = (ctypes.c_size_t * 5)(*[9] * 5)
            words = front.lent(front.array('I', QUAD))
            self.assertEqual(library.load().sedgepick_replay(*memory.given, words, 11, *memory.written, 4, capacity, 2, 3, 11, answer, length), number)
            self.assertEqual(list(answer), [9] * 5 if number else [1, 0, 4, 0, 9])


@unittest.skipUnless(shutil.which('node'), 'node is not installed')
class Script(unittest.TestCase):
    """The page's script, by itself."""

    def ran(self, code):
        ran = subprocess.run(['node', '-e', 'const steps = require(%s);\n%s' % (json.dumps(SCRIPT), code)], capture_output=True, text=True)
        self.assertEqual(ran.returncode, 0, ran.stderr)
        return json.loads(ran.stdout)

    def grown(self, points, triangles, words):
        """What the script's replay comes to: the first entry that it does not make, points, triangles, quads."""
        flat = lambda rows: [float(x) if width == 2 else int(x) for row in rows for x in list(row)[:width]]
        width = 2
        places = flat(points)
        width = 3
        return self.ran('const g = steps.grown(%s, %s, %s), live = g.mesh.cells.filter(c => c);\n'
                        'console.log(JSON.stringify([g.broken, g.mesh.points, live.filter(c => c.length === 3), live.filter(c => c.length === 4), g.mesh.lists()]));'
                        % (json.dumps(places), json.dumps(flat(triangles)), json.dumps(list(map(int, words)))))

    def test_replay(self):
        for seed in range(4):
            points, triangles = shaken(seed)
            mesh = sedgepick.run_front(points, triangles, 0.25, trace=True)
            broken, places, left, quads, lists = self.grown(points, triangles, mesh.trace)
            self.assertIsNone(broken)
            self.assertEqual(plain(places), [tuple(map(float, p[:2])) for p in mesh.points])
            self.assertEqual(plain(left), plain(mesh.triangles))
            self.assertEqual([tuple(quad) for quad in quads], [quad.nodes for quad in mesh.quads])
            self.assertEqual((lists['quads'], lists['triangles'], lists['points']), (len(mesh.quads), len(mesh.triangles), len(mesh.points)))

    def test_refused(self):
        for words, made in ((QUAD[:10], 0), (QUAD + [3], 1), ([2, 2, 0], 0), ([2, 0, 2, 2, 0, 2], 1), (sedgepick.Insertion(0, 0.5, 0.5).words(), 0)):
            self.assertEqual(self.grown(SQUARE, HALVES, words)[0], made)

    def test_stored_replays(self):
        """Those of the reference; memory cannot run out here."""
        folder, cases = os.path.join(ROOT, 'answers', 'replays'), []
        double = lambda word: '0x' + word
        for name in sorted(os.listdir(folder)):
            if name.endswith('.replay'):
                with open(os.path.join(folder, name)) as file:
                    lines = file.read().split('\n')
                with open(os.path.join(folder, name[:-6] + 'out')) as file:
                    out = file.read().split('\n')
                count, given = map(int, lines[5].split()[:2])
                stated = int(lines[1].split()[2])
                cases.append([name, list(map(int, lines[3].split()))[:stated], [int(n) for line in lines[7:7 + count] for n in line.split()],
                              [double(word) for line in lines[8 + count:8 + count + given] for word in line.split()[:2]], out])
        found = self.ran("""
            const view = new DataView(new ArrayBuffer(8)), real = word => { view.setBigUint64(0, BigInt(word)); return view.getFloat64(0); };
            console.log(JSON.stringify(%s.map(([name, words, triangles, points]) => {
              const g = steps.grown(points.map(real), triangles, words), live = g.mesh.cells.filter(c => c);
              return [g.broken, g.mesh.points.length, live.filter(c => c.length === 3), live.filter(c => c.length === 4)];
            })));""" % json.dumps([case[:4] for case in cases]))
        played = 0
        for (name, *_, out), (broken, points, left, quads) in zip(cases, found):
            if out[0] == 'refused':
                if out[1] == '12':
                    self.assertEqual((broken is None, '%d %d' % (len(quads), points)), (False, out[3]), name)
                continue
            count = [int(n) for n in out[1].split()]
            self.assertEqual((broken, len(quads), len(left), points), (None, *count[:3]), name)
            self.assertEqual([list(map(int, line.split()[:4])) for line in out[3:3 + count[0]]], quads, name)
            self.assertEqual([list(map(int, line.split())) for line in out[4 + count[0]:4 + count[0] + count[1]]], left, name)
            played += 1
        self.assertGreater(played, 10)

    def test_checksum(self):
        numbers = [0, 1, 2, 65535, 2 ** 31 - 1, 7]
        if meshio is not None:
            self.assertEqual(self.ran('console.log(steps.checksum(%s));' % json.dumps(numbers)), steps_page.checksum(numbers))


@unittest.skipIf(meshio is None, 'numpy and meshio are not installed')
class Command(unittest.TestCase):
    def setUp(self):
        self.folder = tempfile.mkdtemp()
        self.addCleanup(shutil.rmtree, self.folder)
        self.html, self.out = os.path.join(self.folder, 'steps.html'), os.path.join(self.folder, 'out.msh')

    def ran(self, *words, status=0):
        ran = subprocess.run([sys.executable, os.path.join(PACKAGES, 'sedgepick-mesh'), *words], capture_output=True, text=True)
        self.assertEqual(ran.returncode, status, ran.stderr)
        self.assertNotIn('Traceback', ran.stderr)
        return ran

    def page(self):
        with open(self.html, encoding='utf-8') as file:
            return file.read()

    def data(self):
        return json.loads(re.search(r'<script>const DATA = (.*);</script>', self.page())[1])

    def story(self, data):
        """What the script makes of the data: whether it is faithful, the counts at the end, the words of each step."""
        path = os.path.join(self.folder, 'story.js')
        with open(path, 'w') as file:
            file.write('const steps = require(%s), story = new steps.Story(%s);\n'
                       'console.log(JSON.stringify([story.faithful, story.counts[story.steps.length], story.steps.map((_, i) => story.words(i + 1))]));'
                       % (json.dumps(SCRIPT), json.dumps(data)))
        return json.loads(subprocess.run(['node', path], capture_output=True, text=True, check=True).stdout)

    def stored(self, points, cells, name='in.vtk'):
        path = os.path.join(self.folder, name)
        with files.quiet():
            meshio.write(path, meshio.Mesh(numpy.array(points, dtype=float), [('triangle', numpy.array(cells))]), file_format='vtk')
        return path

    def test_page(self):
        ran = self.ran(os.path.join(FILES, 'columns.msh'), '--steps', self.html)
        self.assertRegex(ran.stdout, r'^columns.msh: \d+ steps: \d+ insertions, \d+ flips, \d+ quads\n$')
        self.assertEqual(os.listdir(self.folder), ['steps.html'])
        page = self.page()
        self.assertNotIn('http', page.replace('http://www.w3.org/2000/svg', ''))
        for name, _, _ in steps_page.BUTTONS:
            self.assertIn('<button id="%s"' % name, page)
        self.assertEqual(set(re.findall(r"this\.get\('([a-z-]+)'\)", page)) - set(re.findall(r'id="([a-z-]+)"', page)), set())
        for words in ('columns.msh as it grew', 'data-live=""', 'class Board', 'class View'):
            self.assertIn(words, page)

    def test_beside_the_mesh(self):
        """The run is the same with and without its steps."""
        given, other = os.path.join(FILES, 'columns.msh'), os.path.join(self.folder, 'other.msh')
        self.ran(given, '-o', other)
        ran = self.ran(given, '-o', self.out, '--steps', self.html)
        self.assertEqual(len(ran.stdout.splitlines()), 3)
        with open(other, 'rb') as a, open(self.out, 'rb') as b:
            self.assertEqual(a.read(), b.read())

    @unittest.skipUnless(shutil.which('node'), 'node is not installed')
    def test_story(self):
        ran = self.ran(os.path.join(FILES, 'columns.msh'), '--size', '0.35', '--steps', self.html)
        data = self.data()
        faithful, counts, words = self.story(data)
        self.assertTrue(faithful)
        self.assertEqual(ran.stdout, 'columns.msh: %d steps: %d insertions, %d flips, %d quads\n' % (len(words), counts['added'], counts['flips'], counts['quads']))
        (lists,) = [part['lists'] for part in data['parts']]
        self.assertEqual((lists['quads'], lists['triangles']), (counts['quads'], counts['triangles']))
        kinds = (r'^insertion at -?[\d.e-]+, -?[\d.e-]+ in triangle \d+ \d+ \d+; its node is \d+$', r'^edge \d+-\d+ flipped$',
                 r'^quad \d+ \d+ \d+ \d+ from edge \d+-\d+ in round \d+ in place of \d+ triangles?$')
        for line in words:
            self.assertTrue(any(re.match(kind, line) for kind in kinds), line)
        data['parts'][0]['lists']['quads'] += 1
        self.assertFalse(self.story(data)[0])
        data['parts'][0]['lists']['quads'] -= 1
        data['parts'][0]['trace'].pop()
        self.assertFalse(self.story(data)[0])

    @unittest.skipUnless(shutil.which('node'), 'node is not installed')
    def test_units(self):
        """Nodes have the file's numbers and places its units, also where the mesh is far away, large, and clockwise."""
        points = [(1e6 + 1000.0 * x, -2e6 + 1000.0 * y, 0.0) for x, y in [(9.0, 9.0)] + FLARED]
        for turned in (False, True):
            cells = [[i + 1 for i in (cell[::-1] if turned else cell)] for cell in HALVES]
            self.ran(self.stored(points, cells), '--size', '500', '--steps', self.html)
            faithful, counts, words = self.story(self.data())
            self.assertTrue(faithful)
            triangle = '5 4 2' if turned else '2 4 5'
            self.assertEqual(words[0], 'insertion at 1000000, -1999500 in triangle %s; its node is 6' % triangle)
            self.assertEqual(words[2], 'edge 2-4 flipped')
            self.assertEqual(words[3], 'quad %s from edge 2-3 in round 1 in place of 2 triangles' % ('6 7 3 2' if turned else '2 3 7 6'))
            self.assertEqual(counts['quads'], 4)

    @unittest.skipUnless(shutil.which('node'), 'node is not installed')
    def test_parts(self):
        points, triangles = shaken(1, 60, 40, 0.2)
        self.ran(self.stored([(x, y, 0.0) for x, y in points], triangles), '--size', '0.3', '--steps', self.html)
        data = self.data()
        self.assertGreater(len(data['parts']), 1)
        faithful, counts, words = self.story(data)
        self.assertTrue(faithful)
        self.assertEqual({line.split(':')[0] for line in words}, {'part %d' % (i + 1) for i in range(len(data['parts']))})
        firsts = [part['first'] for part in data['parts']]
        self.assertEqual(firsts[0], len(points) + 1)
        self.assertEqual(firsts, sorted(firsts))

    def test_options(self):
        given = os.path.join(FILES, 'columns.msh')
        for words, told in (([given, '--steps', 'steps.svg'], 'it is a page'), ([given], '--steps'), ([given, '--steps', self.html, '--report', 'r.txt'], '--report is of a run: give -o too'),
                            (['--job', '100', given, '-o', self.folder, '--steps', self.html], '--job takes no --steps')):
            self.assertIn(told, self.ran(*words, status=2).stderr)
        self.assertIn('there is no folder', self.ran(given, '--steps', os.path.join(self.folder, 'no', 'steps.html'), status=1).stderr)


if __name__ == '__main__':
    unittest.main()
