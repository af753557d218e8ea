"""A file while meshio reads it: the line where it stops, where it cannot read it, and an end to
reading beyond the end; no other file is opened."""
import builtins
import contextlib
import io
import os
import re
import sys
import xml.etree.ElementTree as xml
from .surfaces import Fault, visible

BEYOND = 1000  # lines asked for behind the last one: a reader that asks for more would never end
SHOWN = 60     # characters of a line that words show


class Beyond(Exception):
    """A reader goes on behind the end of the file."""


class Ending:
    """Lines that end: a reader that goes on and on behind the last one is stopped. It knows the
    line that was read last and, once it is closed, how far it was read."""
    line, words, beyond, at = 0, '', 0, 0
    comment = None  # what lines begin with that are passed over
    before = ''     # a line that is read before the first

    def noted(self, words, following):
        """The words, or the first that `following` gives and that are no comment."""
        while words:
            self.line, self.words, self.beyond = self.line + 1, words, 0
            if not (self.comment and words.startswith(self.comment)):
                return words
            words = following()
        self.beyond += 1
        if self.beyond > BEYOND:
            raise Beyond()
        return words

    def readline(self, *size):
        if self.before:
            words, self.before = self.before, ''
            return words
        return self.noted(super().readline(*size), super().readline)

    def __next__(self):
        return self.noted(super().__next__(), super().__next__)

    def close(self):
        with contextlib.suppress(OSError, ValueError):  # closed already, or read by next()
            self.at = self.tell()
        super().close()


class Text(Ending, io.TextIOWrapper):
    """A text file."""

    def __init__(self, path, encoding):
        super().__init__(io.BufferedReader(io.FileIO(path)), encoding=encoding)


class Bytes(Ending, io.BufferedReader):
    """A binary file."""

    def __init__(self, path):
        super().__init__(io.FileIO(path))


def content_of(path):
    with io.FileIO(path) as raw:
        return raw.readall()


def encoding_of(path):
    """Of a text file: UTF-8, or Latin-1 where it is not that; None where it has zero bytes, which
    no text has."""
    content = content_of(path)
    if b'\0' in content:
        return None
    try:
        content.decode('utf-8')
        return 'utf-8'
    except UnicodeDecodeError:
        return 'latin-1'


def bulk_before(path):
    """The line that begins the bulk data of a Nastran file, where it has none: Gmsh writes such,
    and meshio looks for it."""
    return '' if re.search(rb'^\s*BEGIN\s+BULK', content_of(path), re.M | re.I) else 'BEGIN BULK\n'


class Watched:
    """Files that are opened for reading while this is entered are watched; `file` is the last one
    of the path."""

    def __init__(self, path, comment=None, before=''):
        self.path, self.comment, self.before, self.file = (
            os.path.abspath(path), comment, before, None
        )

    def __enter__(self):
        self.plain = builtins.open

        def opened(file, mode='r', *more, **options):
            if (
                not isinstance(file, (str, os.PathLike)) or mode not in ('r', 'rt', 'rb')
                or os.path.abspath(file) != self.path
            ):
                return self.plain(file, mode, *more, **options)
            encoding = None if 'b' in mode else encoding_of(file)
            self.file = (
                Bytes(file) if 'b' in mode else Text(file, encoding) if encoding
                else self.plain(file, mode, *more, **options)
            )
            if isinstance(self.file, Text):
                self.file.comment, self.file.before = self.comment, self.before
            return self.file
        builtins.open = opened
        return self

    def __exit__(self, *fault):
        builtins.open = self.plain

    def place(self):
        """Words on where the reading stopped, '' where that is not known."""
        if not isinstance(self.file, Ending):
            return ''
        content, at, words = content_of(self.path), self.file.at, self.file.words
        if isinstance(self.file, Text):
            # otherwise numbers were read behind that line
            if content.count(b'\n', 0, at) <= self.file.line:
                return line_words(self.file.line, words)
            words = words.encode()
        if len(content) - at < 2:
            return (
                'it ends too early, %s, or what it has does not fit together'
                % (
                    'after %d bytes' % len(content) if b'\0' in content
                    else 'after %d lines' % content.count(b'\n')
                )
            )
        if b'\0' in content[:at + 1]:
            return 'it stops at byte %d of %d' % (at, len(content))
        # a line that was read last is meant, not the next
        at -= len(words) * content[:at].endswith(words or b'-')
        begin = content.rfind(b'\n', 0, at) + 1
        return line_words(
            content.count(b'\n', 0, at) + 1,
            content[begin:].split(b'\n', 1)[0].decode('utf-8', 'replace'),
        )


def line_words(line, words):
    words = visible(words.strip())
    return (
        "it stops at line %d, '%s'"
        % (line, words if len(words) <= SHOWN else words[:SHOWN] + ' ..')
    )


def fault_words(error, said):
    """What an error of meshio's reader means."""
    if isinstance(error, Beyond):
        return 'it ends too early'
    if isinstance(error, RecursionError):
        return 'it is nested too deep'
    said = ' '.join(
        re.sub(r"(Error|Warning): ?(Couldn't read file .*)?", '', said).split()
    ).rstrip('.')
    if said or isinstance(error, (AssertionError, SystemExit)):
        return said[:300]
    if isinstance(error, KeyError) and len(str(error).split()) == 1:
        return '%s is not known there' % error
    if isinstance(error, IndexError):
        return 'a number there is missing or too large'
    if isinstance(error, UnicodeDecodeError):
        return 'it is not a text file'
    words = ' '.join(str(error).split()).rstrip('.')
    word = re.search("(could not convert string to float|invalid literal for (int).*): (.*)", words)
    if word:
        return '%s is no %snumber' % (word[3], 'whole ' if word[2] else '')
    return (
        'numbers are missing there, or are too many'
        if re.match(
            'cannot reshape|could not broadcast|setting an array|buffer size|not enough values',
            words,
        )
        else words[:300]
    )


def xml_words(path):
    """Where an XML file is broken; '' where it is whole."""
    try:
        xml.parse(path)
    except (xml.ParseError, OSError, ValueError) as error:
        return str(error)
    return ''


def find_lacking(path, form, cells):
    """What a file lacks of which meshio has read so many cells without a word; '' where nothing is
    known to be missing."""
    content = content_of(path) if form in ('vtk', 'stl') else b''
    if form == 'vtk':
        found = re.search(rb'^CELL_TYPES\s+(\d+)', content, re.M)
        return (
            'it should have %d cells, and %d are there' % (int(found[1]), cells)
            if found and int(found[1]) != cells else ''
        )
    return (
        "its last line, 'endsolid', is missing"
        if content.startswith(b'solid') and b'\0' not in content and b'endsolid' not in content
        else ''
    )


MODULES = ('.py', '.pyc', '.so')  # files that an import opens
STARTED = {
    'os.exec', 'os.fork', 'os.forkpty', 'os.posix_spawn', 'os.system', 'socket.connect',
    'subprocess.Popen',
}


def confine(path):
    """From now on this process, the child that reads, opens no file but this one and Python's
    modules, and starts nothing: what a mesh file names beside itself is not read."""
    roots = tuple(
        {
            os.path.realpath(place) + os.sep for place in (*sys.path, os.path.dirname(os.__file__))
            if os.path.isabs(place)
        }
    )

    def seen(event, words):
        if event == 'open' and isinstance(words[0], (str, bytes)):
            name = os.fsdecode(words[0])
            if (
                name not in (path, os.devnull)
                and not (name.endswith(MODULES) and os.path.realpath(name).startswith(roots))
            ):
                raise Fault(external(name))
        elif event in STARTED:
            raise Fault('it would start a program: mend the file')
    sys.addaudithook(seen)


def external(name):
    return (
        'it names another file, %s. Files beside it are not read, since the report could not say '
        'which they were: write the mesh as one file'
        % visible(name)
    )


def one_hdf5(path, beside):
    """From now on h5py opens no file but this one, from its bytes, and that has all its numbers in
    itself; or a Fault. `beside`: it is named by a file of another format, and none is opened."""
    import h5py
    plain = h5py.File

    def opened(name, *mode, **options):
        if beside or str(name) != path:
            # the bytes that are read lie in no folder
            raise Fault(
                external(str(name).lstrip('/') if os.path.dirname(name) == '/' else str(name))
            )
        return plain(io.FileIO(path), 'r')
    h5py.File = opened
    if not beside:
        with opened(path) as file:
            check_links(h5py, file)


def check_links(h5py, file):
    """That no link leads out of the file and no numbers lie outside."""
    found = []

    def link(name, own):
        if own.type == h5py.h5l.TYPE_EXTERNAL:
            found.append(file.id.links.get_val(name)[0].decode('utf-8', 'replace'))

    def data(name, own):
        if isinstance(own, h5py.Dataset) and (own.external or own.is_virtual):
            found.append(own.external[0][0] if own.external else own.virtual_sources()[0].file_name)
    file.id.links.visit(link, info=True)
    file.visititems(data)
    if found:
        raise Fault(external(found[0]))
