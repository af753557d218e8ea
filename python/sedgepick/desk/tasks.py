"""Work in child processes: each task has a process of its own with limits of time and memory, says how far it is, and can be stopped. It ends with the server."""
import json, os, secrets, shutil, signal, subprocess, sys, threading, time
from dataclasses import dataclass
from ..outputs import Folder

PACKAGES = os.path.dirname(os.path.dirname(os.path.dirname(os.path.abspath(__file__))))
MOST_FILES = 8       # that the desk keeps; the oldest goes
MOST_TASKS = 24      # finished ones that it keeps
MOST_AT_ONCE = 3
LINE = 1 << 16       # bytes of a line that a child says
GRACE = 2.0          # seconds that a stopped child has


class Busy(Exception):
    """So many tasks are under way that another has to wait."""


@dataclass(frozen=True)
class Limits:
    """What a task may take."""
    seconds: float = 600.0
    megabytes: int = 6144


class Task:
    """A child at work: `state` is running, done, refused or stopped; `said` is the last that it said."""

    def __init__(self, kind, folder, limits, about):
        self.id, self.kind, self.folder, self.limits = secrets.token_hex(8), kind, folder, limits
        self.state, self.said, self.started, self.ended = 'running', {'stage': 'starting'}, time.monotonic(), None
        self.settled = threading.Event()
        words = dict(about, kind=kind, folder=folder, megabytes=limits.megabytes, seconds=limits.seconds)
        environment = dict(os.environ, PYTHONPATH=os.pathsep.join([PACKAGES, *filter(None, [os.environ.get('PYTHONPATH')])]), PYTHONDONTWRITEBYTECODE='1')
        self.child = subprocess.Popen([sys.executable, '-m', 'sedgepick.desk.runs'], stdin=subprocess.PIPE, stdout=subprocess.PIPE, stderr=subprocess.PIPE, cwd=folder,
                                      env=environment, start_new_session=True)
        try:
            self.child.stdin.write(json.dumps(words).encode() + b'\n')
            self.child.stdin.flush()  # and stays open: its end tells the child that the server is gone
        except BrokenPipeError:
            pass
        self.errors = b''
        threading.Thread(target=self.take_errors, daemon=True).start()
        threading.Thread(target=self.follow, daemon=True).start()
        self.timer = threading.Timer(limits.seconds, self.stop, ('it takes over %g s and was ended' % limits.seconds,))
        self.timer.daemon = True
        self.timer.start()

    def take_errors(self):
        self.errors = self.child.stderr.read(LINE)
        while self.child.stderr.read(LINE):
            pass

    def follow(self):
        """Takes what the child says until it ends."""
        last = None
        for line in iter(lambda: self.child.stdout.readline(LINE), b''):
            try:
                said = json.loads(line)
            except ValueError:
                continue
            if isinstance(said, dict):
                last = said
                if 'state' not in said:
                    self.said = said
        status = self.child.wait()
        self.timer.cancel()
        if self.state == 'running':
            if last and last.get('state') in ('done', 'refused'):
                self.said, self.state = last, last['state']
            else:
                self.said, self.state = {'words': self.crash(status)}, 'refused'
        self.finish()

    def crash(self, status):
        """Words on a child that ended without any."""
        silent = status == 1 and not self.errors.strip()  # Python itself had no memory left for a traceback
        if silent or b'MemoryError' in self.errors or b"can't start new thread" in self.errors or status == -signal.SIGSEGV:
            return 'it takes over %d MB of memory' % self.limits.megabytes
        if status == -signal.SIGXCPU:
            return 'it takes over %g s of processor time' % self.limits.seconds
        tail = self.errors.decode('utf-8', 'replace').strip().splitlines()
        return 'a fault of the desk itself: %s. Please report it' % (tail[-1] if tail else 'the run ended with status %d' % status)

    def finish(self):
        self.ended = self.ended or time.monotonic()
        try:
            self.child.stdin.close()
        except (OSError, ValueError):
            pass
        self.settled.set()

    def stop(self, words='stopped'):
        """Ends the child and all that it started."""
        if self.state != 'running':
            return
        self.state, self.said, self.ended = 'stopped', {'words': words}, time.monotonic()
        self.timer.cancel()
        for number, seconds in ((signal.SIGTERM, GRACE), (signal.SIGKILL, GRACE)):
            try:
                os.killpg(self.child.pid, number)
                self.child.wait(seconds)
                break
            except subprocess.TimeoutExpired:
                continue
            except OSError:
                break
        try:
            os.killpg(self.child.pid, signal.SIGKILL)  # what it may have started
        except OSError:
            pass

    def told(self):
        """What the page is told."""
        return {'task': self.id, 'kind': self.kind, 'state': self.state, 'seconds': round((self.ended or time.monotonic()) - self.started, 2), **self.said}


@dataclass
class Document:
    """A file that was opened: its bytes lie in the desk's folder under a name of the desk's own."""
    id: str
    name: str    # as it is shown
    path: str


class Desk:
    """Files and tasks of a server, in one temporary folder that goes with it."""

    def __init__(self, limits=Limits()):
        self.room, self.limits, self.lock = Folder(), limits, threading.Lock()
        self.files, self.tasks = {}, {}

    def place(self, word):
        """A new folder within the desk's."""
        path = os.path.join(self.room.path, '%s-%s' % (word, secrets.token_hex(8)))
        os.mkdir(path, 0o700)
        return path

    def keep(self, name, suffix, write):
        """A new file of this name; `write` writes its bytes to the path that it is handed. The suffix is one of the desk's own list."""
        path = os.path.join(self.place('file'), 'given' + suffix)
        try:
            write(path)
        except BaseException:
            remove(os.path.dirname(path))
            raise
        document = Document(secrets.token_hex(8), name, path)
        with self.lock:
            self.files[document.id] = document
            gone = [self.files.pop(old) for old in list(self.files)[:-MOST_FILES]]
        for old in gone:
            remove(os.path.dirname(old.path))
        return document

    def start(self, kind, document, about):
        """A task on a file; Busy where too many are under way."""
        with self.lock:
            running = [task for task in self.tasks.values() if task.state == 'running']
            if len(running) >= MOST_AT_ONCE:
                raise Busy('%d runs are under way; stop one, or wait until one is done' % len(running))
            task = Task(kind, self.place('task'), self.limits, dict(about, path=document.path, name=document.name))
            self.tasks[task.id] = task
            over = [old for old in self.tasks.values() if old.state != 'running'][:-MOST_TASKS]
            for old in over:
                del self.tasks[old.id]
        for old in over:
            remove(old.folder)
        return task

    def close(self):
        """Ends every task and removes the folder."""
        for task in list(self.tasks.values()):
            task.stop('the desk has ended')
        self.room.remove()


def remove(folder):
    shutil.rmtree(folder, ignore_errors=True)
