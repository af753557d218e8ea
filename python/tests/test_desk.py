"""Tests of the desk: its server by plain requests, and its page in Chromium, driven as a person would."""
import base64, contextlib, hashlib, http.client, json, os, re, shutil, signal, socket, struct, subprocess, sys, tempfile, time, types, unittest
from common import FILES, PACKAGES, ROOT, make_library

try:
    import meshio, numpy
    from sedgepick import axes, picture
    from sedgepick.desk import fields, packing, tasks
except ImportError:
    meshio = None
try:
    from selenium import webdriver
    from selenium.webdriver.chrome.options import Options
    from selenium.webdriver.chrome.service import Service
    from selenium.webdriver.common.action_chains import ActionChains
    from selenium.webdriver.common.keys import Keys
except ImportError:
    webdriver = None

SCRIPT = os.path.join(PACKAGES, 'sedgepick-desk')
COLUMNS = os.path.join(FILES, 'columns.msh')
JOINTS = os.path.join(ROOT, 'examples', 'joints.msh')
CHROMIUM, DRIVER = shutil.which('chromium'), shutil.which('chromedriver')
HOSTILE = '<img src=x onerror=globalThis.stolen=1>'


def setUpModule():
    if meshio is None:
        raise unittest.SkipTest('numpy and meshio are not installed for %s' % sys.executable)
    make_library()


class Desk:
    """The command itself, running."""

    def __init__(self, *words):
        self.child = subprocess.Popen([sys.executable, SCRIPT, '--no-browser', *words], stdout=subprocess.PIPE, stderr=subprocess.PIPE, text=True)
        self.address = self.child.stdout.readline().split()[-1]
        self.port, self.token = re.fullmatch(r'http://127\.0\.0\.1:(\d+)/([\w-]+)/', self.address).groups()

    def end(self, number=signal.SIGTERM):
        if self.child.stdout.closed:
            return self.child.returncode
        if self.child.poll() is None:
            self.child.send_signal(number)
        status = self.child.wait(20)
        self.child.stdout.close()
        self.errors = self.child.stderr.read()
        self.child.stderr.close()
        return status

    def ask(self, method, path, body=None, token=None, **headers):
        """(status, headers, content) of a request as the page makes it, or as a stranger would."""
        link = http.client.HTTPConnection('127.0.0.1', int(self.port), timeout=60)
        sent = {'Host': '127.0.0.1:' + self.port, **({'Origin': 'http://127.0.0.1:' + self.port} if method == 'POST' else {}), **headers}
        link.putrequest(method, '/%s/%s' % (self.token if token is None else token, path), skip_host=True, skip_accept_encoding=True)
        if body is not None and 'Content-Length' not in sent:
            sent['Content-Length'] = str(len(body))
        for name, words in sent.items():
            if words is not None:
                link.putheader(name.replace('_', '-'), words)
        try:
            link.endheaders(body)
        except (BrokenPipeError, ConnectionResetError):
            pass  # refused before all of it was sent
        answer = link.getresponse()
        found = answer.status, answer.headers, answer.read()
        link.close()
        return found

    def facts(self, method, path, body=None, **headers):
        status, _, content = self.ask(method, path, body, **headers)
        return status, json.loads(content)

    def upload(self, path, name=None):
        with open(path, 'rb') as file:
            return self.facts('POST', 'file', file.read(), X_Name=name or os.path.basename(path))

    def settled(self, task, seconds=120):
        end = time.monotonic() + seconds
        while time.monotonic() < end:
            found = self.facts('GET', 'task/' + task)[1]
            if found['state'] != 'running':
                return found
            time.sleep(0.05)
        raise AssertionError('the task goes on: %s' % found)

    def begin(self, kind, file, values=None, joints=()):
        return self.facts('POST', 'task', json.dumps({'kind': kind, 'file': file, 'values': values or {}, 'joints': list(joints)}).encode())

    def data(self, task):
        content = self.ask('GET', 'task/%s/data' % task)[2]
        length = struct.unpack('<I', content[4:8])[0]
        found = json.loads(content[8:8 + length])
        kinds = {name: form for form, name in packing.KINDS.items()}
        for name, (kind, at, count) in found['arrays'].items():
            found[name] = numpy.frombuffer(content, kinds[kind], count, 8 + length + at)
        return found


class Case(unittest.TestCase):
    words = ()

    @classmethod
    def setUpClass(cls):
        cls.desk = Desk(*cls.words)

    @classmethod
    def tearDownClass(cls):
        cls.desk.end()
        if 'Traceback' in cls.desk.errors:
            raise AssertionError(cls.desk.errors)


class Requests(Case):
    """Who is answered, and with what."""

    def test_strangers(self):
        ask = lambda **more: self.desk.ask('GET', 'about', **more)[0]
        self.assertEqual(ask(), 200)
        self.assertEqual(ask(token='x' * len(self.desk.token)), 404)
        self.assertEqual(ask(token=''), 404)
        for host in ('evil.example', 'evil.example:' + self.desk.port, '127.0.0.1', '127.0.0.1:1', '[::1]:' + self.desk.port, None):
            self.assertEqual(ask(Host=host), 403, host)
        self.assertEqual(ask(Host='localhost:' + self.desk.port), 200)
        for origin in ('http://evil.example', 'null', 'http://127.0.0.1:1', 'https://127.0.0.1:' + self.desk.port):
            self.assertEqual(ask(Origin=origin), 403, origin)
        self.assertEqual(ask(Sec_Fetch_Site='cross-site'), 403)
        self.assertEqual(self.desk.ask('POST', 'task', b'{}', Origin=None)[0], 403)
        self.assertEqual(self.desk.ask('POST', 'task', b'{}', Origin='http://evil.example')[0], 403)

    def test_loopback_alone(self):
        with open('/proc/net/tcp') as file:
            own = [line.split()[1] for line in file if line.split()[1].endswith(':%04X' % int(self.desk.port)) and line.split()[3] == '0A']
        self.assertEqual(own, ['0100007F:%04X' % int(self.desk.port)])

    def test_policy(self):
        for path, kind in (('', 'text/html'), ('desk.js', 'text/javascript'), ('draw.js', 'text/javascript'), ('steps.js', 'text/javascript'), ('desk.css', 'text/css'), ('about', 'application/json')):
            status, headers, content = self.desk.ask('GET', path)
            self.assertEqual((status, headers['Content-Type'].split(';')[0], headers['X-Content-Type-Options'], headers['Referrer-Policy']), (200, kind, 'nosniff', 'no-referrer'))
            policy = headers['Content-Security-Policy']
            self.assertIn("default-src 'none'; script-src 'self'; style-src 'self'", policy)
            self.assertNotIn('unsafe', policy)
            self.assertTrue(content)

    def test_no_path_of_the_page(self):
        for path in ('../server.py', '..%2f..%2fserver.py', 'static/desk.js', '/etc/passwd', '%2e%2e/server.py', 'task/../../x', 'task/x', 'task/x/out/mesh', 'file', 'desk.js/', '.'):
            self.assertEqual(self.desk.ask('GET', path)[0], 404, path)
        for name in ('../../../../tmp/evil.msh', '/etc/evil.msh', '..\\evil.msh', '.msh/../x.msh'):
            status, found = self.desk.upload(COLUMNS, name)
            self.assertEqual(status, 200, found)
            self.assertEqual(self.desk.settled(found['task'])['state'], 'done')
            self.assertNotIn('/', self.desk.data(found['task'])['name'])
        self.assertFalse(os.path.exists('/tmp/evil.msh'))

    def test_uploads(self):
        self.assertEqual(self.desk.ask('POST', 'file', None, X_Name='a.msh')[0], 411)
        self.assertEqual(self.desk.ask('POST', 'file', None, X_Name='a.msh', Transfer_Encoding='chunked')[0], 411)
        self.assertEqual(self.desk.ask('POST', 'file', b'x', X_Name='a.msh', Content_Length='9' * 12)[0], 413)
        self.assertEqual(self.desk.ask('POST', 'file', b'x', X_Name='a.exe')[0], 415)
        self.assertEqual(self.desk.ask('POST', 'task', b'x' * 100)[0], 400)
        self.assertEqual(self.desk.ask('POST', 'task', b'[' * 100000)[0], 400)
        self.assertEqual(self.desk.ask('POST', 'task', b'x', Content_Length='900000000')[0], 413)

    def test_files_that_are_no_mesh(self):
        for content, words in ((b'nonsense', 'cannot read'), (b'$MeshFormat\n4.1 0 8\n', 'ends too early|cannot read'), (bytes(range(256)) * 50, 'cannot read')):
            status, found = self.desk.facts('POST', 'file', content, X_Name='broken.msh')
            self.assertEqual(status, 200)
            ended = self.desk.settled(found['task'])
            self.assertEqual(ended['state'], 'refused')
            self.assertRegex(ended['words'], words)
        status, found = self.desk.upload(os.path.join(FILES, 'second-order.msh'))
        self.assertIn('second order', self.desk.settled(found['task'])['words'])


class Runs(Case):
    """Files and runs, by requests."""

    def opened(self, path=COLUMNS, name=None):
        status, found = self.desk.upload(path, name)
        self.assertEqual(status, 200, found)
        ended = self.desk.settled(found['task'])
        self.assertEqual(ended['state'], 'done', ended)
        return found['file'], self.desk.data(found['task'])

    def ran(self, file, values=None, joints=()):
        status, found = self.desk.begin('mesh', file, values, joints)
        self.assertEqual(status, 200, found)
        ended = self.desk.settled(found['task'])
        self.assertEqual(ended['state'], 'done', ended)
        return found['task'], self.desk.data(found['task'])

    def test_given(self):
        """The arrays are the file's own, as meshio reads them."""
        _, given = self.opened()
        mesh = meshio.read(COLUMNS)
        self.assertTrue(numpy.array_equal(given['points'].reshape(-1, 2), mesh.points[:, :2]))
        cells = numpy.concatenate([block.data for block in mesh.cells if block.type == 'triangle'])
        self.assertEqual(set(map(frozenset, given['triangles'].reshape(-1, 3).tolist())), set(map(frozenset, cells.tolist())))
        with open(COLUMNS, 'rb') as file:
            self.assertEqual(given['sha256'], hashlib.sha256(file.read()).hexdigest())
        self.assertIn(['wall', 'line edges', 6], given['groups'])

    def test_run_is_the_command(self):
        """The mesh that is downloaded is, byte for byte, what the command writes with the same options; the sheet has both hashes."""
        file, given = self.opened()
        for values, words in (({}, ()), ({'finish': 'raw', 'thin': '0', 'size': '0.5'}, ('--raw', '--size', '0.5')), ({'format': '.inp', 'least_angle': '30', 'stop': '1'}, ('--least-angle', '30', '--stop', '1'))):
            task, done = self.ran(file, values)
            _, headers, mesh = self.desk.ask('GET', 'task/%s/out/mesh' % task)
            with tempfile.TemporaryDirectory() as folder:
                out = os.path.join(folder, 'columns-quads' + values.get('format', '.msh'))
                subprocess.run([sys.executable, os.path.join(PACKAGES, 'sedgepick-mesh'), COLUMNS, '-o', out, '-q', *words], check=False, stderr=subprocess.DEVNULL)
                with open(out, 'rb') as made:
                    self.assertEqual(made.read(), mesh)
            self.assertIn(os.path.basename(out), headers['Content-Disposition'])
            sheet = self.desk.ask('GET', 'task/%s/out/sheet' % task)[2].decode()
            for digest in (hashlib.sha256(mesh).hexdigest(), given['sha256']):
                self.assertIn(digest, sheet)
            self.assertIn(hashlib.sha256(mesh).hexdigest(), self.desk.ask('GET', 'task/%s/out/report' % task)[2].decode())
            for clause in ('Given nodes are in place', 'Quads turn left at each node', 'Each place is covered as often as by the given triangles', 'Lines and borders are kept'):
                self.assertIn('&#10003;</b>' + clause, sheet)
            self.assertEqual(done['quads'], len(done['quads_of']) // 4)
            lines = self.desk.ask('GET', 'task/%s/out/table' % task)[2].decode().splitlines()
            self.assertGreaterEqual(len(lines), done['quads'])

    def test_joints(self):
        """An edge that is locked is an edge of the mesh that is written; without it, it is not."""
        file, given = self.opened()
        _, free = self.ran(file)
        (part,) = free['steps']['parts']
        self.assertEqual([len(free['steps_%s_0' % name]) for name in ('triangles', 'points', 'numbers')], [len(given['triangles']), 2 * 340, 340])
        self.assertGreater(len(free['steps_trace_0']), 9 * part['lists']['quads'])
        sides = lambda found: {frozenset(pair) for nodes, width in ((found['quads_of'], 4), (found['left_of'], 3)) for cell in nodes.reshape(-1, width).tolist()
                               for pair in zip(cell, cell[1:] + cell[:1])}
        every = {frozenset(pair) for cell in given['triangles'].reshape(-1, 3).tolist() for pair in zip(cell, cell[1:] + cell[:1])}
        lost = sorted(sorted(pair) for pair in every - sides(free))[:12]
        self.assertEqual(len(lost), 12)
        task, done = self.ran(file, joints=lost)
        self.assertTrue({frozenset(pair) for pair in lost} <= sides(done))
        self.assertIn('line edges (joint): all 12 stand', done['losses'])
        self.assertIn('joint', self.desk.ask('GET', 'task/%s/out/mesh' % task)[2].decode())
        status, found = self.desk.begin('mesh', file, joints=[[0, 0]])
        self.assertRegex(self.desk.settled(found['task'])['words'], 'no edge of the mesh')
        for joints in ([[0]], [[0, -1]], [[0, 1 << 40]], ['ab'], [[0, True]]):
            self.assertEqual(self.desk.begin('mesh', file, joints=joints)[0], 400)

    def test_refusals_name_their_field(self):
        file, _ = self.opened()
        for values, field, words in (({'size': 'x'}, 'size', 'not a number'), ({'least_angle': '61'}, 'least_angle', 'from 8.11 to 60'), ({'pairs': '1.5'}, 'pairs', 'whole'), ({'grid': 'yes', 'size': '1'}, 'size', 'grid'),
                                     ({'side_low': '3', 'side_high': '2'}, 'side_low', 'above'), ({'nothing': '1'}, 'nothing', 'no such'), ({'format': '.exe'}, 'format', 'choose')):
            status, found = self.desk.begin('mesh', file, values)
            self.assertEqual(status, 422)
            self.assertRegex(found['fields'][field], words)
        for values, field, words in (({'size': '1000'}, 'size', 'out of range'), ({'grid': 'yes'}, 'grid', 'off the grid'), ({'finish': 'raw', 'thin': '20'}, 'thin', 'not accepted: triangle')):
            status, found = self.desk.begin('mesh', file, values)
            ended = self.desk.settled(found['task'])
            self.assertEqual((ended['state'], ended['field']), ('refused', field), ended)
            self.assertRegex(ended['words'], words)
            self.assertNotIn('--', ended['words'])
            status, headers, paper = self.desk.ask('GET', 'task/%s/show/sheet' % found['task'])
            self.assertEqual(status, 200 if field == 'thin' else 409)
        self.not_accepted(paper.decode())
        for which in ('mesh', 'report', 'table'):
            self.assertEqual(self.desk.ask('GET', 'task/%s/out/%s' % (found['task'], which))[0], 409)

    def not_accepted(self, sheet):
        """A sheet with every clause, marked as not accepted, that names no file and has no line for a name."""
        self.assertIn('NOT ACCEPTED', sheet)
        self.assertEqual((sheet.count('&#10003;</b>'), sheet.count('&#10007;</b>')), (7, 1))
        self.assertRegex(sheet, '&#10007;</b>No triangle is too thin: triangle [0-9]+ is too thin: node')
        self.assertEqual(len(re.findall('SHA-256 [0-9a-f]{64}<', sheet)), 1)
        self.assertNotRegex(sheet, 'Accepted|<input|Signature')

    def test_front(self):
        """Each edge with one triangle, with what the library says of it."""
        file, given = self.opened()
        status, found = self.desk.begin('front', file, {'least_jacobian': '0.8'})
        self.assertEqual(self.desk.settled(found['task'])['state'], 'done')
        front = self.desk.data(found['task'])
        self.assertEqual({frozenset(pair) for pair in front['ends'].reshape(-1, 2).tolist()}, {frozenset(pair) for pair in given['front'].reshape(-1, 2).tolist()})
        quads = front['refused'] == 0
        self.assertTrue((front['jacobians'][quads] >= 0.8).all() and quads.any() and not quads.all())
        self.assertEqual(len(front['words']), len(quads))

    def test_two_at_once_and_a_limit(self):
        file, _ = self.opened()
        begun = [self.desk.begin('mesh', file) for _ in range(2)]
        self.assertEqual([status for status, _ in begun], [200, 200])
        found = [self.desk.settled(facts['task']) for _, facts in begun]
        self.assertEqual([ended['state'] for ended in found], ['done', 'done'])
        meshes = [self.desk.ask('GET', 'task/%s/out/mesh' % facts['task'])[2] for _, facts in begun]
        self.assertEqual(meshes[0], meshes[1])
        many = [self.desk.begin('mesh', file) for _ in range(tasks.MOST_AT_ONCE + 1)]
        self.assertEqual([status for status, _ in many], [200] * tasks.MOST_AT_ONCE + [429])
        self.assertIn('under way', many[-1][1]['words'])
        for _, facts in many[:-1]:
            self.desk.settled(facts['task'])

    def test_hostile_names(self):
        """Names of files and groups stand in the papers as text."""
        with open(JOINTS) as file:
            content = file.read().replace('"wall"', '"%s"' % HOSTILE)
        with tempfile.TemporaryDirectory() as folder:
            path = os.path.join(folder, 'a.msh')
            with open(path, 'w') as file:
                file.write(content)
            file, _ = self.opened(path, HOSTILE + '.msh')
        task, _ = self.ran(file)
        for which in ('sheet', 'report'):
            status, headers, content = self.desk.ask('GET', 'task/%s/show/%s' % (task, which))
            self.assertNotIn('<img', content.decode())
            self.assertIn('&lt;img', content.decode())
            self.assertIn("default-src 'none'", headers['Content-Security-Policy'])
            self.assertNotIn('script-src', headers['Content-Security-Policy'])
        self.assertNotRegex(self.desk.ask('GET', 'task/%s/out/sheet' % task)[1]['Content-Disposition'].split(';')[1], '[<>]')
        for name in ('-o', '--help', '--', '-'):
            file, given = self.opened(JOINTS, name + '.msh')
            self.assertEqual(self.ran(file)[1]['name'], name + '.msh')


def alive(pid):
    try:
        with open('/proc/%d/stat' % pid) as file:
            return file.read().rsplit(')', 1)[1].split()[0] != 'Z'
    except OSError:
        return False


def offspring(desk):
    """The children of the server, whichever of its threads started them."""
    found = []
    for thread in os.listdir('/proc/%d/task' % desk.child.pid):
        with contextlib.suppress(FileNotFoundError):  # a thread that ended meanwhile
            with open('/proc/%d/task/%s/children' % (desk.child.pid, thread)) as file:
                found += map(int, file.read().split())
    return found


class Ends(unittest.TestCase):
    """How runs and the server end."""

    @classmethod
    def setUpClass(cls):
        cls.folder = tempfile.mkdtemp()
        cls.large = os.path.join(cls.folder, 'large.vtk')
        write_grid(cls.large, 150, 130)

    @classmethod
    def tearDownClass(cls):
        shutil.rmtree(cls.folder)

    def start(self, *words):
        desk = Desk(*words)
        self.addCleanup(desk.end)
        status, found = desk.upload(self.large)
        self.assertEqual(desk.settled(found['task'])['state'], 'done')
        begun = desk.begin('mesh', found['file'])[1]
        end = time.monotonic() + 20
        while desk.facts('GET', 'task/' + begun['task'])[1].get('stage') in ('starting', None) and time.monotonic() < end:
            time.sleep(0.05)
        return desk, begun['task'], offspring(desk)

    def gone(self, pids):
        end = time.monotonic() + 10
        while any(map(alive, pids)) and time.monotonic() < end:
            time.sleep(0.05)
        self.assertEqual([pid for pid in pids if alive(pid)], [])

    def test_stop(self):
        desk, task, pids = self.start()
        self.assertEqual(len(pids), 1)
        status, found = desk.facts('POST', 'task/%s/stop' % task, b'{}')
        self.assertEqual((status, found['state']), (200, 'stopped'))
        self.gone(pids)
        self.assertEqual(desk.ask('GET', 'task/%s/out/mesh' % task)[0], 409)

    def limited(self, **limits):
        """(how a run of the large mesh ended, its process) under such limits."""
        desk = tasks.Desk(tasks.Limits(**limits))
        self.addCleanup(desk.close)
        document = desk.keep('large.vtk', '.vtk', lambda path: shutil.copy(self.large, path))
        task = desk.start('mesh', document, {'values': {}, 'joints': []})
        self.assertTrue(task.settled.wait(150))
        self.gone([task.child.pid])
        return task.told()

    def test_time(self):
        found = self.limited(seconds=1.0)
        self.assertEqual(found['state'], 'stopped')
        self.assertIn('over 1 s', found['words'])
        self.assertLess(found['seconds'], 20)

    def test_memory(self):
        found = self.limited(megabytes=90)
        self.assertEqual(found['state'], 'refused')
        self.assertIn('over 90 MB of memory', found['words'])

    def test_ended(self):
        """By SIGTERM the server ends its runs and removes its folder."""
        desk, task, pids = self.start()
        places = [os.readlink('/proc/%d/cwd' % pid) for pid in pids]
        self.assertEqual(desk.end(), 0)
        self.gone(pids)
        self.assertFalse(any(map(os.path.exists, places)))

    def test_killed(self):
        """Where the server is killed its runs end too, and the next desk removes its folder."""
        desk, task, pids = self.start()
        place = os.path.dirname(os.readlink('/proc/%d/cwd' % pids[0]))
        desk.end(signal.SIGKILL)
        self.gone(pids)
        self.assertTrue(os.path.exists(place))
        Desk().end()
        self.assertFalse(os.path.exists(place))

    def test_command_line(self):
        run = lambda *words: subprocess.run([sys.executable, SCRIPT, '--no-browser', *words], capture_output=True, text=True, timeout=120)
        taken = socket.create_server(('127.0.0.1', 0))
        self.addCleanup(taken.close)
        for words, said in ((['nothing.msh'], 'nothing.msh: there is no such file'), (['a.exe'], 'suffix'), (['slab.geo'], 'slab.geo: it is a geometry and no mesh: mesh it first'),
                            ([FILES], 'it is a folder; name a mesh file'), (['--port', '99999'], 'port 99999 cannot be had: it is none from 0 to 65535'),
                            ([COLUMNS, '--port', str(taken.getsockname()[1])], 'sedgepick-desk: port %d cannot be had: Address already in use' % taken.getsockname()[1])):
            ran = run(*words)
            self.assertEqual(ran.returncode, 1, ran.stderr)
            self.assertIn(said, ran.stderr)
            self.assertNotIn('Traceback', ran.stderr)
        self.assertEqual(run('--help').returncode, 0)


FRAMES = """
const work = [], paint = desk.view.frame;
desk.view.frame = function () { const begin = performance.now(); paint.call(this); work.push(performance.now() - begin); };
const done = arguments[1], kind = arguments[0], canvas = document.getElementById('canvas'), box = canvas.getBoundingClientRect(), times = [];
let count = 0, last = performance.now();
function tick(now) {
  times.push(now - last);
  last = now;
  if (++count > 120) { delete desk.view.frame; return done([times.slice(1), work]); }
  const by = count % 40 < 20 ? -60 : 60, x = box.left + box.width / 3, y = box.top + box.height / 3;
  if (kind === 'zoom') canvas.dispatchEvent(new WheelEvent('wheel', {deltaY: by, clientX: x, clientY: y, bubbles: true, cancelable: true}));
  else desk.view.pan(4 * Math.cos(count / 9), 4 * Math.sin(count / 9));
  requestAnimationFrame(tick);
}
requestAnimationFrame(tick);
"""
FAINT = """(() => {
  const parts = colour => { const n = colour.match(/[\\d.]+/g).map(Number); return colour.startsWith('color(') ? [255 * n[0], 255 * n[1], 255 * n[2], n[3] === undefined ? 1 : n[3]] : [n[0], n[1], n[2], n[3] === undefined ? 1 : n[3]]; };
  const light = colour => { const [r, g, b] = parts(colour).map(n => { n /= 255; return n <= 0.03928 ? n / 12.92 : ((n + 0.055) / 1.055) ** 2.4; }); return 0.2126 * r + 0.7152 * g + 0.0722 * b; };
  const behind = e => { for (; e; e = e.parentElement) { const own = getComputedStyle(e).backgroundColor; if (parts(own)[3] > 0.5) return own; } return 'rgb(255, 255, 255)'; };
  const found = [];
  for (const e of document.querySelectorAll('body *')) {
    if (!e.offsetParent || e.disabled || e.closest(':disabled') || ![...e.childNodes].some(n => n.nodeType === 3 && n.data.trim())) continue;
    const [a, b] = [light(getComputedStyle(e).color), light(behind(e))].sort((x, y) => y - x), ratio = (a + 0.05) / (b + 0.05);
    if (ratio < 4.5) found.push([e.id || e.className || e.tagName, e.textContent.slice(0, 30), ratio]);
  }
  return found; })()"""
DROP = """
const moved = new DataTransfer();
moved.items.add(new File([arguments[0]], arguments[1]));
for (const kind of ['dragenter', 'dragover', 'drop']) document.getElementById('board').dispatchEvent(new DragEvent(kind, {dataTransfer: moved, bubbles: true, cancelable: true}));
"""


@unittest.skipUnless(webdriver and CHROMIUM and DRIVER, 'chromium, chromedriver or python3-selenium is not installed')
class Page(unittest.TestCase):
    """The page in Chromium. SEDGEPICK_SHOTS names a folder for screenshots."""

    @classmethod
    def setUpClass(cls):
        cls.desk = Desk()
        cls.downloads = tempfile.mkdtemp()
        options = Options()
        options.binary_location = CHROMIUM
        for word in ('--headless=new', '--no-sandbox', '--disable-dev-shm-usage', '--window-size=1280,900', '--force-device-scale-factor=1'):
            options.add_argument(word)
        options.set_capability('goog:loggingPrefs', {'browser': 'ALL'})
        cls.browser = webdriver.Chrome(service=Service(DRIVER), options=options)
        cls.browser.set_script_timeout(60)
        cls.browser.execute_cdp_cmd('Browser.setDownloadBehavior', {'behavior': 'allow', 'downloadPath': cls.downloads})

    @classmethod
    def tearDownClass(cls):
        cls.browser.quit()
        cls.desk.end()
        shutil.rmtree(cls.downloads)

    def setUp(self):
        self.browser.get(self.desk.address)
        self.until('globalThis.desk && desk.state.about')

    def tearDown(self):
        """No script failed, and the policy kept nothing back."""
        self.assertEqual([entry['message'] for entry in self.browser.get_log('browser') if entry['level'] == 'SEVERE' and 'the server responded with a status of 4' not in entry['message']], [])

    def js(self, words, *more):
        return self.browser.execute_script('return ' + words, *more)

    def until(self, words, seconds=150):
        end = time.monotonic() + seconds
        while not self.js('Boolean(%s)' % words):
            if time.monotonic() > end:
                raise AssertionError('never: %s' % words)
            time.sleep(0.05)

    def element(self, id):
        return self.browser.find_element('id', id)

    def shot(self, name):
        if os.environ.get('SEDGEPICK_SHOTS'):
            time.sleep(0.3)
            self.browser.save_screenshot(os.path.join(os.environ['SEDGEPICK_SHOTS'], name + '.png'))

    def open(self, path=COLUMNS):
        self.element('chooser').send_keys(path)
        self.until('desk.state.given')

    def run_it(self):
        self.element('run').click()
        self.until('desk.state.done || !document.getElementById("refused").hidden || document.querySelector(".field.wrong")')

    def point(self, x, y):
        """An action that moves the mouse to a place of the mesh."""
        px, py = self.js('desk.view.spot(arguments[0], arguments[1])', x, y)
        width, height = self.js('[desk.view.width, desk.view.height]')
        return ActionChains(self.browser).move_to_element_with_offset(self.element('canvas'), round(px - width / 2), round(py - height / 2))

    def test_first_use(self):
        """From an empty page to a signed sheet and the files, in under two minutes."""
        begin = time.monotonic()
        self.assertTrue(self.element('empty').is_displayed())
        self.assertFalse(self.element('run').is_enabled())
        self.shot('empty')
        self.open()
        self.shot('given')
        self.run_it()
        self.shot('done')
        self.assertEqual(self.element('verdict-says').text, 'Accepted')
        shown = self.element('numbers').find_elements('tag name', 'dd')
        quads, left = int(shown[0].text.split()[0]), int(shown[1].text)
        self.element('show-sheet').click()
        self.until('document.getElementById("paper").contentDocument.getElementById("name")')
        self.browser.switch_to.frame(self.element('paper'))
        self.assertEqual(self.js('document.activeElement.id'), 'name')
        self.element('name').send_keys('A. "Engineer" <b>')
        sheet = self.browser.find_element('tag name', 'body').text
        self.element('name').send_keys(Keys.ESCAPE)
        self.browser.switch_to.default_content()
        self.assertFalse(self.element('sheet').is_displayed())
        self.element('show-sheet').click()
        self.assertEqual(self.js('document.getElementById("paper").contentDocument.getElementById("name").value'), 'A. "Engineer" <b>')
        self.shot('sheet')
        self.element('close-sheet').click()
        for which in ('mesh', 'report', 'sheet', 'table'):
            self.element('get-' + which).click()
        names = {'columns-quads.msh', 'columns-quads-report.html', 'columns-quads-sheet.html', 'columns-quads-quality.csv'}
        end = time.monotonic() + 20
        while not names <= set(os.listdir(self.downloads)) and time.monotonic() < end:
            time.sleep(0.1)
        with open(os.path.join(self.downloads, 'columns-quads.msh'), 'rb') as file:
            self.assertIn(hashlib.sha256(file.read()).hexdigest(), sheet)
        with open(os.path.join(self.downloads, 'columns-quads-sheet.html'), encoding='utf-8') as file:
            self.assertRegex(file.read(), r'<!doctype html>\n<html lang="en"><head>(.|\n)*<input id="name" [^>]*value="A. &quot;Engineer&quot; (<|&lt;)b(>|&gt;)"')
        made = meshio.read(os.path.join(self.downloads, 'columns-quads.msh'))
        self.assertEqual([sum(len(block.data) for block in made.cells if block.type == kind) for kind in ('quad', 'triangle')], [quads, left])
        self.assertLess(time.monotonic() - begin, 120)

    def test_sheet_is_one_page(self):
        """Also with names as long as they can be and every warning."""
        long = 'w' * 190 + '.msh'
        with open(COLUMNS, encoding='utf-8') as file:
            self.browser.execute_script(DROP, file.read(), long)
        self.until('desk.state.given')
        for id, word in (('field-thin', '60'),):
            self.element(id).clear()
            self.element(id).send_keys(word)
        self.js('(document.getElementById("field-finish").value = "raw", 1)')
        self.run_it()
        self.assertIn('go down to', self.element('warnings').text)
        address = self.js('new URL(document.getElementById("paper").dataset.src, location).href')
        self.browser.get(address)
        self.assertIn('No triangle is too thin: not asked', self.browser.find_element('tag name', 'body').text)
        made = base64.b64decode(self.browser.execute_cdp_cmd('Page.printToPDF', {'preferCSSPageSize': True})['data'])
        self.assertEqual(len(re.findall(rb'/Type\s*/Page\b', made)), 1)
        box = list(map(float, re.search(rb'/MediaBox\s*\[([^\]]*)', made)[1].split()))
        self.assertTrue(abs(box[2] - 595) < 2 and abs(box[3] - 842) < 2, box)

    def touch(self, kind, *places):
        self.browser.execute_cdp_cmd('Input.dispatchTouchEvent', {'type': kind, 'touchPoints': [{'x': x, 'y': y, 'id': i} for i, (x, y) in enumerate(places)]})

    def test_drop_zoom_pan(self):
        self.js('(desk.state.about.most_steps = 100, 1)')
        with open(JOINTS, encoding='utf-8') as file:
            self.browser.execute_script(DROP, file.read(), 'dropped.msh')
        self.until('desk.state.given && desk.state.given.name === "dropped.msh"')
        scale, x, y = self.js('[desk.view.camera.scale, desk.view.camera.x, desk.view.camera.y]')
        place = (x + 1, y + 1)
        before = self.js('desk.view.spot(arguments[0], arguments[1])', *place)
        self.js("""(document.getElementById('canvas').dispatchEvent(new WheelEvent('wheel', {deltaY: -300, clientX: arguments[0] + document.getElementById('canvas').getBoundingClientRect().left,
                   clientY: arguments[1] + document.getElementById('canvas').getBoundingClientRect().top, bubbles: true, cancelable: true})), 1)""", *before)
        self.assertGreater(self.js('desk.view.camera.scale'), 1.3 * scale)
        after = self.js('desk.view.spot(arguments[0], arguments[1])', *place)
        self.assertLess(max(abs(a - b) for a, b in zip(before, after)), 1.0)  # what is pointed at stays, to the pixel
        self.point(*place).click_and_hold().move_by_offset(60, 40).release().perform()
        moved = self.js('desk.view.spot(arguments[0], arguments[1])', *place)
        self.assertTrue(abs(moved[0] - after[0] - 60) < 3 and abs(moved[1] - after[1] - 40) < 3, (after, moved))
        self.element('fit').click()
        self.assertAlmostEqual(self.js('desk.view.camera.scale'), scale)
        self.element('canvas').send_keys('+')
        self.assertGreater(self.js('desk.view.camera.scale'), scale)
        self.element('canvas').send_keys('0')
        self.assertAlmostEqual(self.js('desk.view.camera.scale'), scale)
        self.assertEqual(self.element('no-steps').text, 'No steps: over 100 triangles')
        self.pinch()

    def pinch(self):
        """Two fingers zoom and move: what is under each stays under it. A second finger ends a drag along a line, and nothing is locked."""
        box = self.js('(() => { const {left, top, width, height} = document.getElementById("canvas").getBoundingClientRect(); return [left + width / 2, top + height / 2]; })()')
        at = lambda x, y: (box[0] + x, box[1] + y)
        places = lambda: self.js('[[-60, -40], [50, 30]].map(([x, y]) => desk.view.place(desk.view.width / 2 + x, desk.view.height / 2 + y))')
        before, scale = places(), self.js('desk.view.camera.scale')
        self.touch('touchStart', at(-60, -40), at(50, 30))
        for share in (0.25, 0.5, 0.75, 1.0):
            self.touch('touchMove', at(-60 - 90 * share, -40 - 60 * share), at(50 + 120 * share, 30 + 80 * share))
        self.touch('touchEnd')
        self.assertAlmostEqual(self.js('desk.view.camera.scale') / scale, numpy.hypot(320, 210) / numpy.hypot(110, 70), 1)
        for place, spot in zip(before, ((-150, -100), (170, 110))):
            found = self.js('desk.view.spot(...arguments[0]).map((n, k) => n - [desk.view.width, desk.view.height][k] / 2)', place)
            self.assertLess(max(abs(a - b) for a, b in zip(found, spot)), 4, (found, spot))
        self.assertEqual(self.js('desk.view.pointers.size'), 0)
        self.element('fit').click()
        self.element('lock').click()
        self.touch('touchStart', at(-100, 0))
        self.touch('touchMove', at(-20, 0))
        self.touch('touchMove', at(60, 10))
        self.assertGreater(self.js('desk.state.pending.length'), 0)
        self.touch('touchStart', at(60, 10), at(-60, -40))
        self.assertEqual(self.js('[desk.state.pending.length, desk.view.held]'), [0, False])
        self.touch('touchMove', at(60, 10), at(-160, -140))
        self.touch('touchEnd')
        self.assertEqual(self.js('desk.state.joints.size'), 0)
        self.assertGreater(self.js('desk.view.camera.scale'), 1.2 * scale)

    def test_locks_by_keys(self):
        """Arrows walk along edges, Shift locks the way, Space frees, Ctrl+Z undoes, Esc ends it."""
        self.open()
        canvas, joints = self.element('canvas'), lambda: self.js('[...desk.state.joints.values()]')
        self.element('lock').send_keys(Keys.ENTER)
        self.assertEqual(self.js('document.activeElement.id'), 'canvas')
        press = lambda *keys: ActionChains(self.browser).send_keys(*keys).perform()
        camera = self.js('desk.view.camera')
        press(Keys.ARROW_RIGHT)
        first = self.js('desk.state.walker.node')
        ActionChains(self.browser).key_down(Keys.SHIFT).send_keys(Keys.ARROW_RIGHT, Keys.ARROW_RIGHT, Keys.ARROW_RIGHT).key_up(Keys.SHIFT).perform()
        chain = joints()
        self.assertEqual((len(chain), self.js('desk.view.camera')), (3, camera))
        self.assertIn(first, chain[0])
        self.assertTrue(all(set(one) & set(other) for one, other in zip(chain, chain[1:])))
        x = self.js('[arguments[0], desk.state.walker.node].map(node => desk.state.given.points[2 * node])', first)
        self.assertLess(x[0], x[1])
        self.assertIn('is locked', self.element('says').text)
        self.shot('walked')
        press(' ')
        self.assertEqual((joints(), self.element('locked').text), (chain[:2], '2 edges locked'))
        self.assertIn('is free', self.element('says').text)
        ActionChains(self.browser).key_down(Keys.CONTROL).send_keys('z').key_up(Keys.CONTROL).perform()
        self.assertEqual(joints(), chain)
        self.element('unlock').click()
        self.assertEqual(joints(), [])
        self.element('undo').click()
        self.assertEqual(joints(), chain)
        for _ in range(3):
            self.element('undo').click()
        self.assertEqual((joints(), self.element('undo').is_displayed()), ([], False))
        canvas.send_keys(Keys.ESCAPE)
        self.assertEqual((self.js('desk.state.locking'), self.js('document.activeElement.id')), (False, 'lock'))
        self.point(4, 4).click().perform()
        self.assertTrue(self.element('cell-card').is_displayed())
        canvas.send_keys(Keys.ESCAPE)
        self.assertFalse(self.element('cell-card').is_displayed())
        self.element('lock').click()
        a = self.js('[...desk.state.given.points.subarray(0, 2)]')
        self.point(*a).click_and_hold().move_by_offset(80, -60).move_by_offset(60, -20).perform()
        self.assertGreater(self.js('desk.state.pending.length'), 0)
        press(Keys.ESCAPE)
        ActionChains(self.browser).move_by_offset(9, 9).release().perform()
        self.assertEqual((joints(), self.js('desk.state.pending')), ([], []))

    def test_hundred_thousand(self):
        """30 frames a second are owed with 100,000 cells, while it is zoomed and moved."""
        with tempfile.TemporaryDirectory() as folder:
            path = os.path.join(folder, 'hundred.vtk')
            write_grid(path, 224, 224)
            self.open(path)
        self.assertGreater(self.js('desk.view.picture.count'), 100000)
        time.sleep(1)
        for kind in ('zoom', 'pan'):
            times, work = self.browser.execute_async_script(FRAMES, kind)
            rate, typical = len(times) * 1000 / sum(times), sorted(work)[len(work) // 2]
            print('100,352 triangles, %s: %.1f frames a second, of which the page works %.1f ms in each' % (kind, rate, typical), file=sys.stderr)
            self.assertGreater(len(work), 60)
            self.assertLess(typical, 1000 / 30)
            if os.getloadavg()[0] < 1.5 * (os.cpu_count() or 1):  # a machine with other work gives the browser no frames
                self.assertGreater(rate, 30)

    def test_cells_and_the_worst(self):
        self.open()
        self.run_it()
        row = next(row for row in self.browser.find_elements('css selector', '#worst button') if row.text.startswith('quad'))
        value = row.find_element('tag name', 'b').text
        row.click()
        self.assertTrue(self.element('cell-card').is_displayed())
        self.assertAlmostEqual(float(value), self.js('Math.min(...desk.state.done.jacobians)'), 3)
        self.assertIn('scaled Jacobian', self.element('cell-facts').text)
        self.assertLess(abs(float(value) - float(self.element('cell-facts').find_elements('tag name', 'dd')[0].text)), 1e-3)
        self.shot('worst')
        self.element('cell-close').click()
        self.element('fit').click()
        middle = self.js('(() => { const {done} = desk.state, n = [...done.quads_of.subarray(40, 44)]; return [0, 1].map(k => n.reduce((s, a) => s + done.points[2 * a + k], 0) / 4); })()')
        self.point(*middle).click().perform()
        self.assertEqual(self.element('cell-title').text, 'Quad 11')
        self.browser.execute_script('const s = document.getElementById("colour"); s.value = "round"; s.dispatchEvent(new Event("change"))')
        self.assertIn('Quads by round', self.element('legend').text)
        self.shot('rounds')
        self.browser.execute_script('const s = document.getElementById("colour"); s.value = "jacobian"; s.dispatchEvent(new Event("change"))')
        self.element('cell-close').click()
        self.what_is_drawn()

    def test_what_is_drawn(self):
        self.open()
        self.run_it()
        self.what_is_drawn()

    def what_is_drawn(self):
        """The pixel in the middle of a cell has the colour of its class, also where cells are small."""
        time.sleep(0.5)
        for zoom in (1, 0.25):
            self.js('(desk.view.fit(), desk.view.zoom(desk.view.width / 2, desk.view.height / 2, arguments[0]), 1)', zoom)
            time.sleep(0.6)
            wrong = self.js("""(() => {
              const {done, about} = desk.state, view = desk.view, context = view.canvas.getContext('2d'), kept = new Set(done.kept_nodes);
              let wrong = 0, looked = 0;
              for (let i = 0; i < done.quads; i += 3) {
                const nodes = [...done.quads_of.subarray(4 * i, 4 * i + 4)];
                if (nodes.some(node => kept.has(node))) continue;
                const middle = [0, 1].map(k => nodes.reduce((sum, node) => sum + done.points[2 * node + k], 0) / 4), [x, y] = view.spot(...middle);
                const own = Math.min(9, Math.floor(done.jacobians[i] * 10)), [r, g, b] = context.getImageData(Math.floor(x * view.ratio), Math.floor(y * view.ratio), 1, 1).data;
                const found = '#' + [r, g, b].map(n => n.toString(16).padStart(2, '0')).join('');
                looked++;
                if (found !== about.quads[own][1]) wrong++;
              }
              return [wrong, looked];
            })()""")
            self.assertGreater(wrong[1], 60)
            self.assertLessEqual(wrong[0], 0.08 * wrong[1], (zoom, wrong))

    def test_front_and_locked_edges(self):
        self.open()
        self.element('tab-front').click()
        self.until('desk.state.front')
        middle = self.js('(() => { const f = desk.state.front, i = [...f.refused].findIndex(kind => !kind), p = f.places.subarray(6 * i, 6 * i + 4); return [(p[0] + p[2]) / 2, (p[1] + p[3]) / 2]; })()')
        self.point(*middle).perform()
        self.assertRegex(self.element('says').text, r'Edge \d+ to \d+: a quad of the nodes .*insertion.*flip')
        self.shot('front')
        said, words = self.element('says').text, self.js('desk.state.front.words')
        self.element('canvas').send_keys(Keys.PAGE_DOWN)
        self.assertEqual(self.element('says').text, words[words.index(said) + 1])
        self.element('tab-given').click()
        self.element('lock').click()
        edge, at = self.js('(() => { const {triangles: t, points: p} = desk.state.given, e = [t[300], t[301]].sort((a, b) => a - b); return [e, [0, 1].map(k => (p[2 * e[0] + k] + p[2 * e[1] + k]) / 2)]; })()')
        self.point(*at).click().perform()
        self.assertEqual(self.js('[...desk.state.joints.values()]'), [edge])
        self.point(*at).click().perform()
        self.assertEqual(self.js('desk.state.joints.size'), 0)
        a, b = self.js('desk.view.spot(3, 7)'), self.js('desk.view.spot(9, 6.5)')
        self.point(3, 7).click_and_hold().move_by_offset(round((b[0] - a[0]) / 2), round((b[1] - a[1]) / 2)).move_by_offset(round((b[0] - a[0]) / 2), round((b[1] - a[1]) / 2)).release().perform()
        count = self.js('desk.state.joints.size')
        self.assertGreater(count, 6)
        nodes = self.js('[...desk.state.joints.values()]')
        self.assertTrue(all(set(one) & set(other) for one, other in zip(nodes, nodes[1:])))  # one chain
        self.shot('locked')
        self.run_it()
        self.assertIn('line edges (joint): all %d stand' % count, self.element('notes').text)
        self.element('tab-given').click()
        self.element('unlock').click()
        self.assertEqual(self.js('desk.state.joints.size'), 0)

    def test_steps(self):
        """The slider's last step is the run's own answer; the first the given mesh."""
        self.open()
        self.run_it()
        self.assertEqual((self.element('no-steps').text, self.js('desk.state.about.most_steps')), ('', 200000))
        self.element('tab-steps').click()
        self.until('desk.state.story')
        self.assertTrue(self.js('desk.state.story.faithful'))
        count = self.js('desk.state.story.steps.length')
        for place, cells in ((0, 642), (count, None)):
            self.browser.execute_script('const s = document.getElementById("step"); s.value = arguments[0]; s.dispatchEvent(new Event("input"))', place)
            self.assertTrue(self.element('step-says').text.startswith('Step %d of %d' % (place, count)))
            if cells:
                self.assertEqual(self.js('desk.view.picture.count'), cells)
        self.element('step-back').click()
        self.assertIn('Step %d of' % (count - 1), self.element('step-says').text)
        self.shot('steps')
        self.element('step-play').click()
        time.sleep(0.3)
        self.element('step-play').click()

    def test_refusals_stand_beside_their_field(self):
        self.open()
        for name, word, said in (('size', '-1', 'not below 0'), ('thin', '99', 'from 0 to 60'), ('size', '1000', 'out of range'), ('least_angle', '61', '8.11 to 60')):
            self.js('(document.getElementById("quality").open = true, 1)')
            field = self.element('field-' + name)
            usual = field.get_attribute('value')
            field.clear()
            field.send_keys(word)
            self.element('run').click()
            self.until('!document.getElementById("field-%s-fault").hidden' % name)
            self.until('document.getElementById("stop").hidden')
            self.assertIn(said, self.element('field-%s-fault' % name).text)
            self.assertIsNone(self.js('desk.state.done'))
            if word == '1000':
                self.shot('refused')
            field.clear()
            field.send_keys(usual)
        self.assertFalse(self.element('show-clauses').is_displayed())
        self.js('(document.getElementById("field-finish").value = "raw", 1)')
        self.element('field-thin').clear()
        self.element('field-thin').send_keys('20')
        self.element('run').click()
        self.until('!document.getElementById("show-clauses").hidden')
        self.shot('not-accepted')
        self.element('show-clauses').click()
        self.until('document.getElementById("paper").contentDocument.querySelector(".verdict")')
        self.assertEqual(self.element('sheet-says').text, 'Not accepted')
        self.assertIn('NOT ACCEPTED', self.js('document.getElementById("paper").contentDocument.body.textContent'))
        self.shot('not-accepted-sheet')
        self.element('close-sheet').click()
        self.element('field-thin').send_keys('1')
        self.assertFalse(self.element('show-clauses').is_displayed())
        self.element('chooser').send_keys(os.path.join(FILES, 'second-order.msh'))
        self.until('!document.getElementById("refused").hidden')
        self.assertIn('second order', self.element('refused').text)
        self.browser.execute_script(DROP, 'Point(1) = {0, 0, 0};', 'slab.geo')
        self.assertIn('slab.geo: it is a geometry and no mesh: mesh it first, as in gmsh -2 slab.geo -o slab.msh', self.element('refused').text)

    def test_stop(self):
        with tempfile.TemporaryDirectory() as folder:
            path = os.path.join(folder, 'large.vtk')
            write_grid(path, 224, 224)
            self.open(path)
        self.element('run').click()
        self.until('desk.state.run && desk.state.run.task')
        self.shot('running')
        task = self.js('desk.state.run.task')
        self.element('stop').click()
        self.until('!document.getElementById("refused").hidden')
        self.assertIn('Stopped', self.element('refused').text)
        self.assertEqual(self.desk.facts('GET', 'task/' + task)[1]['state'], 'stopped')
        self.assertTrue(self.element('run').is_displayed())

    def test_hostile_names(self):
        with open(JOINTS, encoding='utf-8') as file:
            content = file.read().replace('"wall"', '"%s"' % HOSTILE)
        self.browser.execute_script(DROP, content, HOSTILE + '.msh')
        self.until('desk.state.given')
        self.assertIn(HOSTILE, self.element('given-facts').text)
        self.run_it()
        self.element('show-sheet').click()
        self.until('document.getElementById("paper").contentDocument.getElementById("name")')
        self.assertIn(HOSTILE, self.js('document.getElementById("paper").contentDocument.body.innerText'))
        self.assertIsNone(self.js('globalThis.stolen || document.getElementById("paper").contentWindow.stolen || null'))
        self.assertEqual(len(self.browser.find_elements('css selector', 'img[src=x]')), 0)

    def test_themes_and_phone(self):
        """Nothing is wider than the window, and words have a contrast of 4.5 to what is behind them, in both schemes."""
        self.open(JOINTS)
        self.run_it()
        for width, height in ((1280, 800), (390, 844)):
            self.browser.execute_cdp_cmd('Emulation.setDeviceMetricsOverride', {'width': width, 'height': height, 'deviceScaleFactor': 1, 'mobile': width < 600})
            for scheme in ('light', 'dark'):
                self.browser.execute_cdp_cmd('Emulation.setEmulatedMedia', {'features': [{'name': 'prefers-color-scheme', 'value': scheme}]})
                self.until('document.documentElement.dataset.theme === "%s"' % scheme)
                self.assertLessEqual(self.js('document.documentElement.scrollWidth'), width)
                self.assertEqual(self.js(FAINT), [])
                self.shot('%s-%d' % (scheme, width))
        self.browser.execute_cdp_cmd('Emulation.clearDeviceMetricsOverride', {})

    def test_labels(self):
        """Every control has a name; Enter runs; Tab reaches every control that is shown and enabled, and each shows that it has the focus."""
        self.open()
        bare = self.js("""[...document.querySelectorAll('button, input, select, a[href]')].filter(e => e.offsetParent && !(e.textContent.trim() || e.getAttribute('aria-label') || e.labels && e.labels.length)).map(e => e.id)""")
        self.assertEqual(bare, [])
        self.element('field-size').send_keys(Keys.ENTER)
        self.until('desk.state.done')
        self.js('(document.getElementById("quality").open = true, document.activeElement.blur(), scrollTo(0, 0), 1)')
        wanted = set(self.js("""[...document.querySelectorAll('button, input, select, a[href], summary, canvas')].filter(e => e.offsetParent && !e.disabled).map((e, i) => e.id || (e.id = 'own-' + i))"""))
        found = {}
        for _ in range(len(wanted) + 4):
            ActionChains(self.browser).send_keys(Keys.TAB).perform()
            id, style, width, offset, clipped = self.js("""(() => { const e = document.activeElement, s = getComputedStyle(e), b = e.getBoundingClientRect(), far = parseFloat(s.outlineOffset) + parseFloat(s.outlineWidth);
              let clipped = false;
              for (let up = e.parentElement; up; up = up.parentElement) {
                const o = getComputedStyle(up).overflow, p = up.getBoundingClientRect();
                if (o !== 'visible' && up !== document.body && (b.left - far < p.left - 0.5 || b.right + far > p.right + 0.5)) clipped = true;
              }
              return [e.id, s.outlineStyle, parseFloat(s.outlineWidth), s.outlineOffset, clipped]; })()""")
            if id in found:
                break
            found[id] = (style != 'none' and width >= 2, clipped)
        self.assertEqual(wanted - set(found), set())
        self.assertEqual([id for id in wanted if found[id] != (True, False)], [])


@unittest.skipUnless(webdriver and CHROMIUM and DRIVER, 'chromium, chromedriver or python3-selenium is not installed')
class PageAlone(Page):
    """The page when the server is gone."""

    for name in [name for name in dir(Page) if name.startswith('test_')]:
        locals()[name] = None
    del name

    def test_server_killed(self):
        self.open()
        self.desk.end(signal.SIGKILL)
        self.element('run').click()
        self.until('!document.getElementById("gone").hidden')
        self.assertIn('Start sedgepick-desk again', self.element('gone').text)
        self.shot('gone')

    def tearDown(self):
        """Its last requests fail, and the browser says so."""


class Labels(unittest.TestCase):
    def test_labels_do_not_collide(self):
        """Marks at one place have labels beside each other, within the window."""
        piece = picture.Piece((0.0, 0.0), (10.0, 10.0), (0, 0), 50.0)
        for places in ([(5.0, 5.0)] * 6, [(0.05, 9.95)] * 3, [(5.0, 5.0), (5.2, 5.0), (5.4, 5.1), (5.1, 5.3)], [(9.9, 0.1), (9.8, 0.1)]):
            mesh, lines = types.SimpleNamespace(marks=[('q%d' % (i + 1), place) for i, place in enumerate(places)], lost_edges=[], lost_points=[]), []
            picture.marks_of(mesh, piece, lines)
            boxes = [(float(x), float(y) - 9, float(x) + 15, float(y) + 2) for x, y in re.findall(r'<text x="([-.\d]+)" y="([-.\d]+)"', ''.join(lines))]
            self.assertEqual(len(boxes), len(places))
            for i, a in enumerate(boxes):
                self.assertTrue(0 <= a[0] and a[2] <= 500 and 0 <= a[1] and a[3] <= 500, a)
                for b in boxes[:i]:
                    self.assertTrue(a[2] <= b[0] or b[2] <= a[0] or a[3] <= b[1] or b[3] <= a[1], (a, b))


@unittest.skipUnless(webdriver and CHROMIUM and DRIVER, 'chromium, chromedriver or python3-selenium is not installed')
class Written(unittest.TestCase):
    """The pages that the command writes, in Chromium."""

    @classmethod
    def setUpClass(cls):
        cls.folder = tempfile.mkdtemp()
        subprocess.run([sys.executable, os.path.join(PACKAGES, 'sedgepick-mesh'), COLUMNS, '-o', os.path.join(cls.folder, 'q.msh'), '--report', os.path.join(cls.folder, 'report.html'), '--steps',
                        os.path.join(cls.folder, 'steps.html'), '--preview', os.path.join(cls.folder, 'front.html'), '-q'], check=True, stderr=subprocess.DEVNULL)
        options = Options()
        options.binary_location = CHROMIUM
        for word in ('--headless=new', '--no-sandbox', '--disable-dev-shm-usage'):
            options.add_argument(word)
        options.set_capability('goog:loggingPrefs', {'browser': 'ALL'})
        cls.browser = webdriver.Chrome(service=Service(DRIVER), options=options)

    @classmethod
    def tearDownClass(cls):
        cls.browser.quit()
        shutil.rmtree(cls.folder)

    def show(self, name, width=1280, height=900, scheme='light'):
        self.browser.execute_cdp_cmd('Emulation.setDeviceMetricsOverride', {'width': width, 'height': height, 'deviceScaleFactor': 1, 'mobile': width < 600})
        self.browser.execute_cdp_cmd('Emulation.setEmulatedMedia', {'media': '', 'features': [{'name': 'prefers-color-scheme', 'value': scheme}]})
        self.browser.get('file://' + os.path.join(self.folder, name))

    def js(self, words, *more):
        return self.browser.execute_script('return ' + words, *more)

    def camera(self):
        return self.js('[boards[0].view.camera.x, boards[0].view.camera.y, boards[0].view.camera.scale]')

    def test_zoom(self):
        """Each picture is on a canvas, by the desk's own drawing code: it is zoomed by buttons, Ctrl and the wheel and keys, and moved; the bare wheel is the page's own."""
        for name in ('report.html', 'steps.html', 'front.html'):
            self.show(name)
            whole = self.camera()
            near, far, fit = self.browser.find_elements('css selector', '.zoom button')
            near.click()
            self.assertAlmostEqual(self.camera()[2], whole[2] * 1.5, 6)
            canvas = self.browser.find_element('css selector', '.sight canvas')
            before = self.camera()
            ActionChains(self.browser).move_to_element_with_offset(canvas, 0, 0).click_and_hold().move_by_offset(40, 30).release().perform()
            self.assertTrue(self.camera()[0] < before[0] and self.camera()[1] > before[1])
            far.click()
            fit.click()
            self.assertEqual(self.camera(), whole)
            turned = lambda ctrl: self.js("""(() => { const e = document.querySelector('.sight canvas'), b = e.getBoundingClientRect(), w = new WheelEvent('wheel', {ctrlKey: arguments[0], deltaY: -60,
                clientX: b.left + 9, clientY: b.top + 9, bubbles: true, cancelable: true}); e.dispatchEvent(w); return w.defaultPrevented; })()""", ctrl)
            self.assertEqual((turned(False), self.camera()), (False, whole))
            self.assertTrue(turned(True))
            self.assertGreater(self.camera()[2], whole[2])
            canvas.send_keys('0', '+')
            self.assertAlmostEqual(self.camera()[2], whole[2] * 1.4, 6)
            self.assertEqual([entry['message'] for entry in self.browser.get_log('browser') if entry['level'] == 'SEVERE'], [])

    def test_same_picture(self):
        """The canvas has the cells, lines, dots and marks of the paper, in the file's units, and rulers whose words are apart from each other."""
        self.show('report.html')
        mesh = meshio.read(os.path.join(self.folder, 'q.msh'))
        quads, left = (numpy.concatenate([block.data for block in mesh.cells if block.type == kind] or [numpy.zeros((0, width), dtype=int)]) for kind, width in (('quad', 4), ('triangle', 3)))
        self.assertEqual(self.js('boards[0].view.picture.count'), len(quads) + len(left))
        middles = self.js("""(() => { const {index, points} = boards[0].view.picture, found = []; for (let i = 0; i < index.count; i++) { const n = [...index.nodes(i)];
            found.push([0, 1].map(k => n.reduce((sum, node) => sum + points[2 * node + k], 0) / n.length)); } return found; })()""")
        own = numpy.concatenate([mesh.points[cells, :2].mean(axis=1) for cells in (quads, left) if len(cells)])
        apart = numpy.abs(numpy.array(middles)[:, None] - own[None]).max(axis=2)
        self.assertLess(apart.min(axis=1).max(), 0.002)
        self.assertLess(apart.min(axis=0).max(), 0.002)
        marks = self.js('[...document.querySelectorAll("svg.picture .window text")].map(e => e.textContent)')
        self.assertEqual(self.js('boards[0].view.picture.labels.map(label => label.words)'), marks)
        self.assertTrue(self.js('boards[0].view.picture.lines.some(line => line.width === 3 && line.pairs.length > 10)'))
        for words in ('1', 'boards[0].by(7)', 'boards[0].by(40)', 'boards[0].view.pan(3333, 1234)'):
            self.browser.execute_async_script('%s; const done = arguments[0]; boards[0].view.request(); requestAnimationFrame(() => requestAnimationFrame(done));' % words)
            ticks, wide, high = self.js('[boards[0].ticks, boards[0].view.width, boards[0].view.height]')
            self.assertGreater(len(ticks), 6)
            for i, tick in enumerate(ticks):
                a = tick['room']
                self.assertTrue(0 <= a[0] and a[2] <= wide and 0 <= a[1] and a[3] <= high, tick)
                for b in (other['room'] for other in ticks[:i]):
                    self.assertTrue(a[2] <= b[0] or b[2] <= a[0] or a[3] <= b[1] or b[3] <= a[1], (tick, b))

    def test_front(self):
        """An edge that is pointed at says what it would give, as its title on paper does; the keys go from edge to edge."""
        self.show('front.html')
        titles = self.js('[...document.querySelectorAll("g.edge title")].map(e => e.textContent)')
        spot = self.js('(() => { const {view, edges} = boards[0], [a, b, c] = edges[5].places; return view.spot(...[0, 1].map(k => (4 * a[k] + 4 * b[k] + c[k]) / 9)).map((n, k) => Math.round(n - [view.width, view.height][k] / 2)); })()')
        ActionChains(self.browser).move_to_element_with_offset(self.browser.find_element('css selector', '.sight canvas'), *spot).perform()
        says = self.browser.find_element('id', 'says')
        self.assertEqual(says.text, titles[5])
        self.browser.find_element('css selector', '.sight canvas').send_keys(Keys.PAGE_DOWN)
        self.assertEqual(says.text, titles[6])

    def test_long(self):
        """A long mesh is on a canvas in one piece, with each edge once, and below it in rows."""
        given = os.path.join(self.folder, 'long.vtk')
        write_grid(given, 40, 2)
        subprocess.run([sys.executable, os.path.join(PACKAGES, 'sedgepick-mesh'), given, '--preview', os.path.join(self.folder, 'long.html'), '-q'], check=True, stderr=subprocess.DEVNULL)
        self.show('long.html')
        shown, windows, edges, titles = self.js('[getComputedStyle(document.querySelector("svg.picture")).display, document.querySelectorAll("g.window").length, boards[0].edges.length, document.querySelectorAll("g.edge").length]')
        self.assertNotEqual(shown, 'none')
        self.assertGreater(windows, 1)
        self.assertEqual(edges, 84)
        self.assertGreater(titles, edges)
        self.assertEqual(self.js('boards[0].places.length'), 6 * edges)

    def test_steps(self):
        """The last step has the cells of the raw front, and the counts of the legend; a cell that is pointed at has its nodes."""
        self.show('steps.html')
        self.assertEqual(self.js('boards[0].view.picture.count'), 642)
        self.browser.find_element('id', 'last').click()
        quads, left, count = self.js('[document.getElementById("count-quads").textContent, document.getElementById("count-triangles").textContent, boards[0].view.picture.count]')
        self.assertEqual(int(quads) + int(left), count)
        self.assertEqual(sum(int(self.js('document.getElementById("count-t%d").textContent' % i)) for i in range(5)), int(left))
        self.assertTrue(self.js('page.story.faithful'))
        ActionChains(self.browser).move_to_element_with_offset(self.browser.find_element('css selector', '.sight canvas'), 30, 60).perform()
        self.assertRegex(self.browser.find_element('id', 'cell').text, r'^(quad( \d+){4}|triangle( \d+){3})$')

    def test_insets(self):
        """Each cell that is marked is shown from near, in the middle of its inset."""
        self.show('report.html')
        marks = self.js('[...document.querySelectorAll("svg.picture text")].map(e => e.textContent).filter(words => /^[qt][0-9]+$/.test(words))')
        self.assertTrue(marks)
        self.assertEqual(self.js('[...document.querySelectorAll(".insets figcaption")].map(e => e.textContent)'), marks)
        middles = self.js("""[...document.querySelectorAll('.insets svg')].map(svg => { const box = svg.querySelector(':scope > path:last-of-type').getBBox(), whole = svg.viewBox.baseVal;
            return [box.x + box.width / 2 - whole.width / 2, box.y + box.height / 2 - whole.height / 2, Math.max(box.width, box.height) / whole.width]; })""")
        for x, y, share in middles:
            self.assertTrue(abs(x) < 1 and abs(y) < 1 and 0.3 < share < 0.7, (x, y, share))
        whole = self.camera()
        self.browser.find_elements('css selector', '.insets figure')[1].click()
        place = self.js('(() => { const {points, labels} = boards[0].view.picture, {node} = labels[1]; return [points[2 * node], points[2 * node + 1]]; })()')
        self.assertEqual(self.camera()[:2], place)
        self.assertGreater(self.camera()[2], 1.5 * whole[2])

    def test_schemes_phone_and_date(self):
        for name in ('report.html', 'steps.html', 'front.html'):
            for width, scheme in ((1280, 'light'), (1280, 'dark'), (390, 'light')):
                self.show(name, width, 844, scheme)
                self.assertLessEqual(self.js('document.documentElement.scrollWidth'), width)
                light = sum(map(int, re.findall(r'\d+', self.js('getComputedStyle(document.body).backgroundColor'))[:3])) > 600
                self.assertEqual(light, scheme == 'light')
        self.show('report.html', 390, 844)
        sizes = self.js('[...document.querySelectorAll(".chart text")].map(e => e.getBoundingClientRect().height)')
        self.assertGreater(min(sizes), 9)  # pixels: words that can be read, in a chart that is moved sideways
        self.show('report.html')
        self.assertRegex(self.browser.find_element('class name', 'date').text, time.strftime('%Y-'))

    def test_print(self):
        """In print the page is light, has the picture of the paper in whole, and no buttons, also where it was zoomed in the dark; the steps print what is shown."""
        shown = lambda selector: self.js('getComputedStyle(document.querySelector(arguments[0])).display', selector) != 'none'
        for name in ('report.html', 'steps.html', 'front.html'):
            self.show(name, scheme='dark')
            self.assertEqual((shown('.board'), shown('.zoom'), shown('svg.picture')), (True, True, False))
            self.browser.find_element('css selector', '.zoom button').click()
            self.browser.execute_cdp_cmd('Emulation.setEmulatedMedia', {'media': 'print', 'features': [{'name': 'prefers-color-scheme', 'value': 'dark'}]})
            self.assertEqual((shown('.board'), shown('.zoom'), shown('svg.picture')), (name == 'steps.html', False, True))
            self.assertEqual(self.js('getComputedStyle(document.body).backgroundColor'), 'rgb(255, 255, 255)')


@unittest.skipUnless(shutil.which('node'), 'node is not installed')
class Drawing(unittest.TestCase):
    """The drawing code by itself."""

    def ran(self, words):
        script = """const d = require(%s);
            const grid = (columns, rows, hole = [0, 0, 0, 0]) => {
              const points = [], cells = [];
              for (let j = 0; j <= rows; j++) for (let i = 0; i <= columns; i++) points.push(i, j);
              for (let j = 0; j < rows; j++) for (let i = 0; i < columns; i++) {
                const a = j * (columns + 1) + i;
                if (i < hole[0] || i >= hole[2] || j < hole[1] || j >= hole[3]) cells.push(a, a + 1, a + columns + 2, a, a + columns + 2, a + columns + 1);
              }
              const rings = points.map(() => new Set());
              cells.forEach((node, i) => { for (const k of [1, 2]) rings[node].add(cells[i - i %% 3 + (i + k) %% 3]); });
              return {index: new d.Index(Float64Array.from(points), [{nodes: Uint32Array.from(cells), width: 3}]), around: node => rings[node], node: (x, y) => y * (columns + 1) + x};
            };
            console.log(JSON.stringify((() => { %s })()));""" % (json.dumps(os.path.join(PACKAGES, 'sedgepick', 'draw.js')), words)
        return json.loads(subprocess.run(['node', '-e', script], capture_output=True, text=True, check=True).stdout)

    def chain(self, path, first, last):
        """The nodes of a path from its first to its last, each edge once."""
        at, found = first, [first]
        for edge in path:
            self.assertIn(at, edge)
            at = sum(edge) - at
            found.append(at)
        self.assertEqual((at, len(set(found))), (last, len(found)))

    def test_along(self):
        """The path keeps within about half an edge of the line, whatever its slope, and leads around a hole to where the line ends."""
        *found, around, none = self.ran("""const {index, around, node} = grid(20, 10), a = node(0, 2), holed = grid(20, 10, [8, 3, 12, 7]), [c, e] = [holed.node(2, 5), holed.node(18, 5)];
            return [...[[20, 7], [20, 10], [13, 1], [3, 10], [20, 2], [0, 9]].map(end => {
              const b = node(...end), path = d.along(index, around, a, b);
              return [path, Math.max(...path.flat().map(n => d.off(index.points, a, b, index.points[2 * n], index.points[2 * n + 1]))), a, b];
            }), [d.along(holed.index, holed.around, c, e), c, e], d.along(index, around, 2, 2)];""")
        self.assertEqual(len(found), 6)
        for path, far, first, last in found:
            self.chain(path, first, last)
            self.assertLess(far, 0.56, last)
        self.chain(*around)
        self.assertLess(len(around[0]), 23)
        self.assertEqual(none, [])

    def test_beside(self):
        self.assertEqual(self.ran("""const {index, around, node} = grid(4, 4);
            return [[1, 0], [0, 1], [-1, 0], [0, -1], [Math.SQRT1_2, Math.SQRT1_2]].map(way => d.beside(index, around, node(2, 2), way)).concat(d.beside(index, around, node(0, 0), [-1, 0]), d.closestNode(index, -900, 7000));"""),
                         [13, 17, 11, 7, 18, -1, 20])

    def test_labels_do_not_collide(self):
        every = [[(50, 50)] * 6, [(50, 50), (52, 50), (54, 51), (51, 53)], [(10 * i, 5 * i) for i in range(10)]]
        for found in self.ran('return %s.map(places => d.labelled(places.map(([x, y], i) => ({x, y, words: "q" + (i + 1)}))));' % json.dumps(every)):
            boxes = [(one['left'], one['base'] - 9, one['left'] + 15, one['base'] + 2) for one in found]
            for i, a in enumerate(boxes):
                for b in boxes[:i]:
                    self.assertTrue(a[2] <= b[0] or b[2] <= a[0] or a[3] <= b[1] or b[3] <= a[1], (a, b))

    def test_rulers(self):
        """Ticks have the words of the axes on paper, and tell apart."""
        steps = [0.05, 2e-7, 1e7, 20.0, 0.5]
        found = self.ran('return %s.map(step => [0, step, -3 * step, 7 * step].map(value => [value, d.tickWords(value, step)]));' % json.dumps(steps))
        for step, rows in zip(steps, found):
            for value, words in rows:
                self.assertAlmostEqual(float(words), value, delta=1e-6 * step)
                if 1e-5 < step < 1e6:
                    self.assertEqual(words, axes.label(value, step))


def write_grid(path, columns, rows):
    """A rectangle of triangles as VTK."""
    x, y = numpy.meshgrid(numpy.arange(columns + 1.0), numpy.arange(rows + 1.0))
    x = x + 0.2 * numpy.sin(3 * y) * (x > 0) * (x < columns)
    points = numpy.column_stack([x.ravel(), y.ravel(), numpy.zeros(x.size)])
    a = (numpy.arange(rows)[:, None] * (columns + 1) + numpy.arange(columns)).ravel()
    cells = numpy.concatenate([numpy.column_stack([a, a + 1, a + columns + 2]), numpy.column_stack([a, a + columns + 2, a + columns + 1])])
    meshio.write(path, meshio.Mesh(points, [('triangle', cells)]), file_format='vtk')


class Fields(unittest.TestCase):
    def test_words(self):
        """The usual values are no options but the one that differs with --raw; each other value is one."""
        self.assertEqual(fields.words_of({}), ['--thin', '10'])
        self.assertEqual(fields.words_of({'finish': 'raw', 'grid': 'yes', 'pairs': '9', 'thin': '0'}), ['--raw', '--thin', '0', '--grid', '--pairs', '9'])
        self.assertEqual(fields.faults({}), {})


if __name__ == '__main__':
    unittest.main()
