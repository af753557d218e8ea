"""sedgepick-desk: serves one page on this machine and opens the browser: drop a slab on it, look at it, mesh it and sign for it.

  sedgepick-desk
  sedgepick-desk slab.msh

The page is served to this machine alone, under an address that nobody can guess and that is printed. Ctrl-C ends it, and every run with it; what is not downloaded is
gone then. Files are held in a temporary folder.

Exit status: 0 ended by Ctrl-C, SIGTERM or SIGHUP; 1 the library, the file or the port cannot be had; 2 wrong options."""
import argparse, hmac, json, os, re, secrets, signal, socket, sys, threading, webbrowser
from http.server import BaseHTTPRequestHandler, ThreadingHTTPServer
from urllib.parse import quote, unquote, urlsplit
from .. import library
from ..files import GEOMETRY, READ, suffix_of
from ..picture import QUADS, TRIANGLES
from ..preview_picture import REFUSED
from ..surfaces import visible
from . import fields, runs
from .tasks import Busy, Desk, Limits

HERE = os.path.dirname(os.path.abspath(__file__))
STATIC = os.path.join(HERE, 'static')
LOOPBACK = '127.0.0.1'
MEGABYTE = 1 << 20
MOST_UPLOAD = 256        # megabytes of a file
MOST_WORDS = 8           # and of a request in JSON
MOST_NAME = 200          # characters of a file's name
MOST_JOINTS = 20000      # edges that a page may lock
PIECE = 1 << 16
SILENT = 30.0            # seconds that a connection may say nothing
# what is served as it is: the name in the address, the file, its type. No other file of the disk is
PAGES = {'': ('desk.html', 'text/html'), 'desk.css': ('desk.css', 'text/css'), 'desk.js': ('desk.js', 'text/javascript'), 'icon.svg': ('icon.svg', 'image/svg+xml'),
         **{name: (os.path.join(os.pardir, os.pardir, name), 'text/javascript') for name in ('draw.js', 'steps.js')}}
POLICY = ("default-src 'none'; script-src 'self'; style-src 'self'; img-src 'self' data: blob:; connect-src 'self'; frame-src 'self'; base-uri 'none'; form-action 'none'; "
          "frame-ancestors 'none'")
# a paper that was made of a stranger's file: no script, no network, an origin of its own
PAPER = "default-src 'none'; style-src 'unsafe-inline'; img-src data:; base-uri 'none'; form-action 'none'; frame-ancestors 'self'; sandbox allow-modals allow-same-origin"
OUT = {'mesh': None, 'report': (runs.REPORT, 'text/html', '-report.html'), 'sheet': (runs.SHEET, 'text/html', '-sheet.html'), 'table': (runs.TABLE, 'text/csv', '-quality.csv')}


class Wrong(Exception):
    """A request that is not answered: its status, and words for the page."""

    def __init__(self, status, words, **more):
        super().__init__(words)
        self.status, self.more = status, more


class Server(ThreadingHTTPServer):
    """The desk's server: on the loopback address alone."""
    daemon_threads = True
    allow_reuse_address = False
    request_queue_size = 32

    def __init__(self, desk, port=0, most_upload=MOST_UPLOAD):
        super().__init__((LOOPBACK, port), Handler)
        self.desk, self.token, self.most_upload, self.opened = desk, secrets.token_urlsafe(24), most_upload, None
        self.hosts = {'%s:%d' % (name, self.server_port) for name in (LOOPBACK, 'localhost')}

    def address(self):
        return 'http://%s:%d/%s/' % (LOOPBACK, self.server_port, self.token)

    def handle_error(self, request, client_address):
        """A browser that goes away is no fault."""
        if not isinstance(sys.exc_info()[1], (ConnectionError, TimeoutError, socket.timeout)):
            super().handle_error(request, client_address)


class Handler(BaseHTTPRequestHandler):
    """One request. Every path begins with the token; ids in it name files and tasks in memory, never a place on the disk."""
    protocol_version = 'HTTP/1.1'
    timeout = SILENT
    server_version, sys_version = 'sedgepick-desk', ''

    def log_message(self, *words):
        """Nothing is logged: addresses have the token."""

    def do_GET(self):
        self.answer('GET')

    def do_HEAD(self):
        self.answer('HEAD')

    def do_POST(self):
        self.answer('POST')

    def answer(self, method):
        self.taken = 0
        try:
            way = self.trusted(method)
            self.post(way) if method == 'POST' else self.get(way)
        except Wrong as wrong:
            self.close_connection = True  # a body may still be under way
            self.say(wrong.status, {'words': str(wrong), **wrong.more})
        except (ConnectionError, TimeoutError, socket.timeout):
            self.close_connection = True

    # ---- who asks

    def trusted(self, method):
        """The words of the path behind the token, of a request that comes from the desk's own page; otherwise it is refused."""
        if self.headers.get('Host') not in self.server.hosts:
            raise Wrong(403, 'another host is asked for')
        origin, site = self.headers.get('Origin'), self.headers.get('Sec-Fetch-Site')
        if origin is not None and origin not in {'http://' + host for host in self.server.hosts}:
            raise Wrong(403, 'another page asks')
        if method == 'POST' and origin is None or site not in (None, 'same-origin', 'none'):
            raise Wrong(403, 'another page asks')
        words = urlsplit(self.path).path.split('/')
        if len(words) < 2 or not hmac.compare_digest(words[1].encode('utf-8', 'replace'), self.server.token.encode()):
            raise Wrong(404, 'nothing is here')
        return words[2:]

    # ---- answers

    def send(self, status, content, kind, policy=POLICY, name=None):
        self.send_response(status)
        self.send_header('Content-Type', kind + ('; charset=utf-8' if kind.startswith('text/') else ''))
        self.send_header('Content-Length', str(len(content)))
        self.send_header('Content-Security-Policy', policy)
        for header, words in (('X-Content-Type-Options', 'nosniff'), ('Referrer-Policy', 'no-referrer'), ('Cache-Control', 'no-store'), ('Cross-Origin-Resource-Policy', 'same-origin'),
                              ('Cross-Origin-Opener-Policy', 'same-origin')):
            self.send_header(header, words)
        if name:
            self.send_header('Content-Disposition', "attachment; filename=\"%s\"; filename*=UTF-8''%s" % (re.sub(r'[^\w.-]', '_', name, flags=re.ASCII), quote(name, safe='')))
        if self.close_connection:
            self.send_header('Connection', 'close')
        self.end_headers()
        if self.command != 'HEAD':
            self.wfile.write(content)

    def say(self, status, facts):
        self.send(status, json.dumps(facts).encode(), 'application/json')

    def get(self, way):
        if len(way) == 1 and way[0] in PAGES:
            name, kind = PAGES[way[0]]
            with open(os.path.join(STATIC, name), 'rb') as file:
                return self.send(200, file.read(), kind)
        if way == ['about']:
            return self.say(200, about(self.server))
        if len(way) >= 2 and way[0] == 'task':
            return self.get_task(self.task(way[1]), way[2:])
        raise Wrong(404, 'nothing is here')

    def task(self, id):
        task = self.server.desk.tasks.get(id)
        if task is None:
            raise Wrong(404, 'the desk no longer has this run: open the file once more')
        return task

    def get_task(self, task, way):
        if not way:
            return self.say(200, task.told())
        if task.state == 'refused' and task.said.get('sheet') and way in (['show', 'sheet'], ['out', 'sheet']):
            return self.paper(task, 'sheet', way[0] == 'show')
        if task.state != 'done':
            raise Wrong(409, 'the run is not done')
        if way == ['data']:
            return self.send(200, content_of(task, runs.DATA), 'application/octet-stream')
        if task.kind == 'mesh' and len(way) == 2 and way[0] in ('out', 'show') and way[1] in OUT:
            return self.paper(task, way[1], way[0] == 'show')
        raise Wrong(404, 'nothing is here')

    def paper(self, task, which, shown):
        """A file of a run: to look at, where it is a page, or to download."""
        output = task.said['output']
        stem, suffix = os.path.splitext(output)
        if which == 'mesh':
            return self.send(200, content_of(task, runs.MESH + suffix), 'application/octet-stream', PAPER, output)
        name, kind, ending = OUT[which]
        self.send(200, content_of(task, name), kind, PAPER, None if shown and kind == 'text/html' else stem + ending)

    # ---- what the page sends

    def post(self, way):
        if way == ['file']:
            return self.take_file()
        facts = self.json()
        if way == ['task']:
            return self.begin(facts)
        if len(way) == 3 and way[0] == 'task' and way[2] == 'stop':
            task = self.task(way[1])
            task.stop()
            task.settled.wait(5)
            return self.say(200, task.told())
        raise Wrong(404, 'nothing is here')

    def length(self, most):
        """The length of the body, within the bound."""
        word = self.headers.get('Content-Length', '')
        if self.headers.get('Transfer-Encoding') or not re.fullmatch(r'\d{1,15}', word):
            raise Wrong(411, 'the length of the file is not said')
        if int(word) > most * MEGABYTE:
            raise Wrong(413, 'the file has over %d MB, and the desk takes no larger one' % most)
        return int(word)

    def pieces(self, length):
        while length:
            piece = self.rfile.read(min(length, PIECE))
            if not piece:
                raise Wrong(400, 'the file breaks off')
            length -= len(piece)
            yield piece

    def json(self):
        content = b''.join(self.pieces(self.length(MOST_WORDS)))
        try:
            facts = json.loads(content or b'{}')
        except (ValueError, RecursionError):
            facts = None
        if not isinstance(facts, dict):
            raise Wrong(400, 'not what the page sends')
        return facts

    def take_file(self):
        """A file that is dropped: its name comes in a header, and is shown and never used on the disk."""
        length = self.length(self.server.most_upload)
        name = shown_name(unquote(self.headers.get('X-Name', '')))
        suffix = suffix_for(name)
        document = self.server.desk.keep(name, suffix, lambda path: store(path, self.pieces(length)))
        self.reply(document, self.server.desk.start, 'read', document, {})

    def reply(self, document, start, *words):
        try:
            task = start(*words)
        except Busy as busy:
            raise Wrong(429, str(busy))
        self.say(200, {'file': document.id, **task.told()})

    def begin(self, facts):
        """A run, or a look at the front."""
        document = self.server.desk.files.get(facts.get('file'))
        if document is None:
            raise Wrong(404, 'the desk no longer has this file: open it once more')
        kind, values, joints = facts.get('kind'), facts.get('values'), facts.get('joints', [])
        if kind not in ('mesh', 'front') or not isinstance(values, dict):
            raise Wrong(400, 'not what the page sends')
        whole = lambda n: isinstance(n, int) and not isinstance(n, bool) and 0 <= n < 1 << 32
        if not isinstance(joints, list) or len(joints) > MOST_JOINTS or not all(isinstance(pair, list) and len(pair) == 2 and all(map(whole, pair)) for pair in joints):
            raise Wrong(400, 'locked edges are pairs of nodes, at most %d' % MOST_JOINTS)
        wrong = fields.faults(values)
        if wrong:
            raise Wrong(422, 'a setting cannot be', fields=wrong)
        self.reply(document, self.server.desk.start, kind, document, {'values': values, 'joints': joints})


def content_of(task, name):
    with open(os.path.join(task.folder, name), 'rb') as file:
        return file.read()


def shown_name(name):
    """A file's name as it is shown: no folders, no control characters, not too long."""
    return visible(name.replace('\\', '/').rsplit('/', 1)[-1])[-MOST_NAME:].strip() or 'slab'


def suffix_for(name):
    """The suffix of a format that is read, from the desk's own list."""
    suffix = suffix_of(name)
    found = next((own for own in READ if own == suffix), None)
    if suffix in GEOMETRY:
        raise Wrong(415, 'it is a geometry and no mesh: mesh it first, as in gmsh -2 %s -o slab.msh' % name)
    if found is None:
        raise Wrong(415, "a file with the suffix '%s' is not read; formats that are: %s" % (suffix, ', '.join(sorted(READ))))
    return found


def store(path, pieces):
    with open(path, 'xb') as file:
        for piece in pieces:
            file.write(piece)


def about(server):
    """What the page needs to know at its start."""
    return {'version': library.VERSION, 'fields': fields.described(), 'suffixes': sorted(READ), 'geometry': sorted(GEOMETRY), 'most_upload': server.most_upload, 'opened': server.opened,
            'quads': QUADS, 'triangles': TRIANGLES, 'refused': REFUSED, 'most_steps': runs.MOST_STEPS}


def open_given(server, path):
    """Opens the file of the command line, as if it were dropped on the page."""
    if os.path.isdir(path):
        raise Wrong(400, 'it is a folder; name a mesh file')
    name = shown_name(os.path.basename(path))
    suffix = suffix_for(name)
    if not os.path.exists(path):
        raise Wrong(404, 'there is no such file')

    def copy(place):
        with open(path, 'rb') as file:
            if os.fstat(file.fileno()).st_size > server.most_upload * MEGABYTE:
                raise Wrong(413, 'it has over %d MB' % server.most_upload)
            store(place, iter(lambda: file.read(PIECE), b''))
    document = server.desk.keep(name, suffix, copy)
    server.opened = {'file': document.id, 'name': name, 'task': server.desk.start('read', document, {}).id}


def arguments(words):
    head, text = __doc__.split('\n', 1)
    parser = argparse.ArgumentParser(prog='sedgepick-desk', description=head + '\n' + text, formatter_class=argparse.RawDescriptionHelpFormatter)
    add = parser.add_argument
    add('file', metavar='FILE', nargs='?', help='a mesh file with triangles to open at once')
    add('--port', type=int, default=0, help='the port; a free one if left out')
    add('--no-browser', action='store_true', help='print the address and open no browser')
    add('--seconds', type=float, default=Limits.seconds, help='a run may take so long; %(default)g if left out')
    add('--memory', type=int, default=Limits.megabytes, metavar='MB', help='and so much memory; %(default)d if left out')
    add('--upload', type=int, default=MOST_UPLOAD, metavar='MB', help='the largest file that is taken; %(default)d if left out')
    add('--version', action='version', version='sedgepick-desk ' + library.VERSION)
    return parser.parse_args(words)


def show(address):
    """Opens the browser, where there is a screen for it."""
    if sys.platform.startswith('linux') and not (os.environ.get('DISPLAY') or os.environ.get('WAYLAND_DISPLAY')):
        return
    threading.Thread(target=webbrowser.open, args=(address,), daemon=True).start()


def fail(words):
    print('sedgepick-desk: %s' % visible(words), file=sys.stderr)
    return 1


def main(words=None):
    """Serves until it is ended; returns the exit status."""
    chosen = arguments(words)
    try:
        library.load()
        desk = Desk(Limits(chosen.seconds, chosen.memory))
    except (library.NoLibrary, OSError) as fault:
        return fail(str(fault))
    try:
        server = Server(desk, chosen.port, chosen.upload)
    except (OSError, OverflowError) as fault:
        desk.close()
        return fail('port %d cannot be had: %s' % (chosen.port, getattr(fault, 'strerror', None) or 'it is none from 0 to 65535'))
    try:
        if chosen.file:
            open_given(server, chosen.file)
    except (Wrong, OSError) as fault:
        desk.close()
        server.server_close()
        return fail('%s: %s' % (chosen.file, getattr(fault, 'strerror', None) or fault))
    stop = lambda number, frame: threading.Thread(target=server.shutdown, daemon=True).start()
    for number in (signal.SIGINT, signal.SIGTERM, signal.SIGHUP):
        signal.signal(number, stop)
    print('Sedgepick desk: %s\nOpen it in a browser on this machine. Ctrl-C ends it.' % server.address(), flush=True)
    if not chosen.no_browser:
        show(server.address())
    try:
        server.serve_forever(poll_interval=0.1)
    finally:
        desk.close()
        server.server_close()
    return 0
