#!/usr/bin/env python3
"""A small service: a POST of a mesh file answers with the mesh of quads, or with the object that describes it. The standard library only; sedgepick-mesh does the work.

    python3 examples/service/service.py --port 8080
    curl --data-binary @slab.msh 'http://127.0.0.1:8080/mesh?from=gmsh&to=vtu' -o quads.vtu
    curl --data-binary @slab.msh 'http://127.0.0.1:8080/mesh?from=gmsh&to=vtu&answer=json'

The command runs in a process of its own with limits of time, of memory and of attempts. A client names formats of a list, and nothing else of what it sends is a name, an option or a path here.
`application` is a WSGI application, for any server that takes one; it is plain HTTP without accounts, so a proxy stands before it."""
import argparse, json, os, shutil, subprocess, sys, tempfile, threading
from dataclasses import dataclass
from socketserver import ThreadingMixIn
from urllib.parse import parse_qs
from wsgiref.simple_server import WSGIRequestHandler, WSGIServer, make_server

HERE = os.path.dirname(os.path.abspath(__file__))
CHECKOUT = os.path.join(HERE, '..', '..', 'python', 'sedgepick-mesh')
READ = ('gmsh', 'vtk', 'vtu', 'abaqus', 'nastran', 'medit', 'stl', 'off', 'obj')
# formats that are written: the command's name and the suffix
WRITTEN = {'gmsh': ('gmsh22', '.msh'), 'vtk': ('vtk42', '.vtk'), 'vtu': ('vtu', '.vtu'), 'abaqus': ('abaqus', '.inp'), 'obj': ('obj', '.obj')}
PART = 1 << 16  # bytes that are read at a time
GRACE = 30.0    # seconds more than its own limit that the command has to start and to end


@dataclass(frozen=True)
class Limits:
    """What one request may take."""
    megabytes: int = 32          # of the file
    seconds: float = 60.0        # of the whole command
    read_seconds: float = 20.0   # of reading it
    memory: int = 1024           # megabytes, of reading it
    attempts: int = 500000       # of the run
    at_once: int = 2             # requests that are worked on; one more is turned away


class Answer(Exception):
    """An answer before the mesh: its status line, and words."""

    def __init__(self, status, words):
        super().__init__(status, words)
        self.status, self.words = status, words


class Application:
    """The WSGI application."""

    def __init__(self, limits=Limits(), command=None):
        self.limits = limits
        self.command = command or shutil.which('sedgepick-mesh') or CHECKOUT
        self.free = threading.BoundedSemaphore(limits.at_once)

    def __call__(self, environ, start_response):
        try:
            status, kind, content = self.answer(environ)
        except Answer as early:
            status, kind, content = early.status, 'application/json', json.dumps({'words': early.words}).encode() + b'\n'
        start_response(status, [('Content-Type', kind), ('Content-Length', str(len(content))), ('X-Content-Type-Options', 'nosniff'), ('Cache-Control', 'no-store')])
        return [content]

    def answer(self, environ):
        """(status, type, content) of a request."""
        if environ.get('PATH_INFO') != '/mesh':
            raise Answer('404 Not Found', 'POST a mesh file to /mesh?from=gmsh&to=vtu')
        if environ.get('REQUEST_METHOD') != 'POST':
            raise Answer('405 Method Not Allowed', 'POST a mesh file to /mesh?from=gmsh&to=vtu')
        given, written, wants_json = asked(environ.get('QUERY_STRING', ''))
        length = self.length(environ)
        if not self.free.acquire(blocking=False):
            raise Answer('503 Service Unavailable', '%d meshes are worked on: try again later' % self.limits.at_once)
        try:
            with tempfile.TemporaryDirectory(prefix='sedgepick-service-') as folder:
                return self.meshed(environ['wsgi.input'], length, folder, given, written, wants_json)
        finally:
            self.free.release()

    def length(self, environ):
        """The bytes that are sent, within the limit."""
        word = environ.get('CONTENT_LENGTH') or ''
        if not (word.isascii() and word.isdigit()):
            raise Answer('411 Length Required', 'a request says its Content-Length')
        if int(word) > self.limits.megabytes << 20:
            raise Answer('413 Content Too Large', 'a file has at most %d MB' % self.limits.megabytes)
        return int(word)

    def meshed(self, source, length, folder, given, written, wants_json):
        """The answer of the command, which reads the file from standard input."""
        form, suffix = WRITTEN[written]
        path, out = os.path.join(folder, 'given'), os.path.join(folder, 'quads' + suffix)
        copy(source, length, path)
        limits = self.limits
        words = [sys.executable, self.command, '-', '--from', given, '-o', out, '--to', form, '--json', '--seconds', str(limits.seconds), '--read-seconds', str(limits.read_seconds),
                 '--read-memory', str(limits.memory), '--most-attempts', str(limits.attempts), '--jobs', '1']
        with open(path, 'rb') as file:
            try:
                ran = subprocess.run(words, stdin=file, capture_output=True, cwd=folder, timeout=limits.seconds + GRACE)
            except subprocess.TimeoutExpired:
                raise Answer('500 Internal Server Error', 'the command did not end in its time') from None
        try:
            json.loads(ran.stdout)
        except ValueError:
            raise Answer('500 Internal Server Error', 'the command failed with status %d' % ran.returncode) from None
        if ran.returncode not in (0, 3):
            return '422 Unprocessable Content', 'application/json', ran.stdout
        if wants_json:
            return '200 OK', 'application/json', ran.stdout
        with open(out, 'rb') as file:
            return '200 OK', 'application/octet-stream', file.read()


def asked(query):
    """(format that is read, format that is written, whether the object is asked for) of a query."""
    words = {name: values[-1] for name, values in parse_qs(query).items()}
    given, written, answer = words.get('from', 'gmsh'), words.get('to', 'gmsh'), words.get('answer', 'mesh')
    if given not in READ:
        raise Answer('415 Unsupported Media Type', 'from is one of %s' % ', '.join(READ))
    if written not in WRITTEN:
        raise Answer('415 Unsupported Media Type', 'to is one of %s' % ', '.join(WRITTEN))
    if answer not in ('mesh', 'json'):
        raise Answer('400 Bad Request', 'answer is mesh or json')
    return given, written, answer == 'json'


def copy(source, length, path):
    """Writes so many bytes of a request to a file."""
    with open(path, 'wb') as file:
        while length:
            part = source.read(min(PART, length))
            if not part:
                raise Answer('400 Bad Request', 'the file breaks off: %d bytes are missing' % length)
            file.write(part)
            length -= len(part)


class Server(ThreadingMixIn, WSGIServer):
    """Requests in threads of their own; each has a socket that is closed where nothing comes."""
    daemon_threads = True


class Handler(WSGIRequestHandler):
    timeout = 30


application = Application()


def main():
    parser = argparse.ArgumentParser(description=__doc__, formatter_class=argparse.RawDescriptionHelpFormatter)
    parser.add_argument('--host', default='127.0.0.1')
    parser.add_argument('--port', type=int, default=8080, help='0: any that is free')
    parser.add_argument('--megabytes', type=int, default=Limits.megabytes)
    parser.add_argument('--seconds', type=float, default=Limits.seconds)
    options = parser.parse_args()
    with make_server(options.host, options.port, Application(Limits(options.megabytes, options.seconds)), Server, Handler) as server:
        print('http://%s:%d/mesh' % server.server_address, flush=True)
        try:
            server.serve_forever()
        except KeyboardInterrupt:
            pass


if __name__ == '__main__':
    main()
