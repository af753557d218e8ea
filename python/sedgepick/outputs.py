"""The one place that writes files: each is made in a folder beside its place, and all take their
names together at the end.

A folder for temporary files, `.sedgepick-` and eight characters, is locked by the run that made it.
The lock ends with the run, however that ends; the next run that writes there removes a folder
without one."""
import contextlib
import fcntl
import hashlib
import os
import re
import shutil
import stat
import sys
import tempfile
from .ending import naming
from .surfaces import Fault

PREFIX = '.sedgepick-'
STDOUT = '-'


def place_of(path):
    """The file that is written where this path is named: a link is followed, and what is there is a
    regular file; otherwise a Fault."""
    place = os.path.realpath(path)
    if path.endswith(os.sep):
        raise Fault('cannot write %s: it names a folder; name a file in it' % path)
    try:
        mode = os.stat(place).st_mode
    except FileNotFoundError:
        return place
    except OSError as error:
        raise Fault('cannot write %s: %s' % (path, error.strerror))
    if stat.S_ISDIR(mode):
        raise Fault('cannot write %s: it is a folder; name a file in it' % path)
    if not stat.S_ISREG(mode):
        raise Fault(
            'cannot write %s: it is a device, a FIFO or a socket; name a regular file' % path
        )
    return place


def check(paths, given):
    """That the files to write can be, before a long run, and that none is written over another or
    over one that is read."""
    places = []
    for path in paths:
        if path == STDOUT:
            continue
        place = place_of(path)
        folder = os.path.dirname(place)
        if not os.path.isdir(folder):
            raise Fault(
                'cannot write %s: there is no folder %s' % (path, os.path.dirname(path) or folder)
            )
        if (
            not os.access(place if os.path.exists(place) else folder, os.W_OK)
            or not os.access(folder, os.W_OK)
        ):
            raise Fault('cannot write %s: you have no permission' % path)
        if any(
            os.path.exists(place) and os.path.exists(own) and os.path.samefile(place, own)
            for own in given
        ):
            raise Fault(
                '%s is the file that is read, and would be written over: name another' % path
            )
        if place in places:
            raise Fault('%s would be written twice: name different files' % path)
        places.append(place)


def remove_left(folder):
    """Removes the temporary folders there of runs that were killed: those that no run has
    locked."""
    with contextlib.suppress(OSError), os.scandir(folder) as entries:
        for entry in entries:
            if (
                re.fullmatch(re.escape(PREFIX) + r'\w{8}', entry.name)
                and entry.is_dir(follow_symlinks=False)
            ):
                remove_unlocked(entry)


def remove_unlocked(entry):
    with contextlib.suppress(OSError):
        if entry.stat(follow_symlinks=False).st_uid != os.geteuid():
            return
        lock = os.open(entry.path, os.O_RDONLY | os.O_DIRECTORY | os.O_NOFOLLOW)
        try:
            fcntl.flock(lock, fcntl.LOCK_EX | fcntl.LOCK_NB)
            shutil.rmtree(entry.path, ignore_errors=True)
        finally:
            os.close(lock)


class Folder:
    """A temporary folder in another one, locked while this run lasts; with `with` it is gone
    afterwards."""

    def __init__(self, within=None):
        within = within or tempfile.gettempdir()
        remove_left(within)
        while True:
            self.path = tempfile.mkdtemp(prefix=PREFIX, dir=within)
            try:
                self.lock = os.open(self.path, os.O_RDONLY | os.O_DIRECTORY)
            except FileNotFoundError:  # removed by another run already
                continue
            # a file system without locks: nobody removes it then
            with contextlib.suppress(OSError):
                fcntl.flock(self.lock, fcntl.LOCK_EX | fcntl.LOCK_NB)
            if os.path.isdir(self.path):  # not removed by another run before it was locked
                return
            os.close(self.lock)

    def remove(self):
        shutil.rmtree(self.path, ignore_errors=True)
        os.close(self.lock)

    def __enter__(self):
        return self.path

    def __exit__(self, *fault):
        self.remove()


class Outputs:
    """The files of a run: made one after the other, named all together by `commit`; with `with`
    none is left under a temporary name."""

    def __init__(self):
        self.folders = {}  # by the folder that they stand in
        self.made = {}     # {path: (file under its temporary name, place)}

    def __enter__(self):
        return self

    def __exit__(self, *fault):
        for folder in self.folders.values():
            folder.remove()
        self.folders, self.made = {}, {}

    def room(self, path):
        """The temporary name under which the file of this path is to be made, in a folder of its
        own."""
        place = STDOUT if path == STDOUT else place_of(path)
        within = tempfile.gettempdir() if path == STDOUT else os.path.dirname(place)
        try:
            if within not in self.folders:
                self.folders[within] = Folder(within)
            own = os.path.join(self.folders[within].path, str(len(self.made)))
            os.mkdir(own)
        except OSError as error:
            raise Fault('cannot write %s: %s' % (path, error.strerror or error))
        self.made[path] = (
            os.path.join(own, 'out' if path == STDOUT else os.path.basename(place)), place
        )
        return self.made[path][0]

    def text(self, path, content):
        """Makes a text file."""
        try:
            with open(self.room(path), 'w', encoding='utf-8', errors='backslashreplace') as file:
                file.write(content)
        except OSError as error:
            raise Fault('cannot write %s: %s' % (path, error.strerror or error))

    def digest(self, path):
        """The SHA-256 of the file that takes this path's name."""
        with open(self.made[path][0], 'rb') as file:
            return (
                hashlib.file_digest(file, 'sha256').hexdigest() if hasattr(hashlib, 'file_digest')
                else hashlib.sha256(file.read()).hexdigest()
            )

    def drop(self, path):
        """Takes a file back that was made."""
        made, _ = self.made.pop(path, (None, None))
        if made:
            shutil.rmtree(os.path.dirname(made), ignore_errors=True)

    def commit(self):
        """Gives every file its name: all are on the disk before the first is renamed. A signal
        waits until the last is."""
        pairs = [pair for made, place in self.made.values() for pair in beside(made, place)]
        done = []
        try:
            for path, (made, place) in pairs:
                settle(made, place)
            with naming():
                for path, (made, place) in pairs:
                    if place != STDOUT:
                        os.replace(made, place)
                        done.append(path)
                for folder in {
                    os.path.dirname(place) for _, (_, place) in pairs if place != STDOUT
                }:
                    sync(folder, os.O_RDONLY | os.O_DIRECTORY)
        except OSError as error:
            raise Fault(
                'cannot write %s: %s; %s'
                % (
                    path, error.strerror or error,
                    'written before it: ' + ', '.join(done) if done else 'nothing is written',
                )
            )
        for path, (made, place) in pairs:
            if place == STDOUT:
                with open(made, 'rb') as file:
                    shutil.copyfileobj(file, sys.stdout.buffer)
                sys.stdout.buffer.flush()


def beside(made, place):
    """[(name, (made, place))] of a file and of those that its format puts beside it."""
    if place == STDOUT:
        return [(STDOUT, (made, STDOUT))]
    own, there = os.path.dirname(made), os.path.dirname(place)
    # itself last: what it names is there then
    names = sorted(os.listdir(own), key=lambda name: name == os.path.basename(made))
    return [
        (os.path.join(there, name), (os.path.join(own, name), place_of(os.path.join(there, name))))
        for name in names
    ]


def settle(made, place):
    """Owner and mode of the file that is replaced, and the content on the disk."""
    if place != STDOUT and os.path.exists(place):
        had = os.stat(place)
        with contextlib.suppress(PermissionError):
            os.chown(made, had.st_uid, had.st_gid)
        os.chmod(made, stat.S_IMODE(had.st_mode))
    sync(made, os.O_RDONLY)


def sync(path, how):
    file = os.open(path, how)
    try:
        os.fsync(file)
    finally:
        os.close(file)
