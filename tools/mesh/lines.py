"""Reading lines and words of a file, with errors that name the file and the line."""
import math, re, sys

INTEGER = re.compile(r'[+-]?[0-9]{1,18}')
DECIMAL = re.compile(r'[+-]?([0-9]+\.?[0-9]*|\.[0-9]+)([eE][+-]?[0-9]+)?')
NOT_FINITE = re.compile(r'[+-]?(nan(\(.*\))?|inf|infinity)', re.IGNORECASE)


class Fault(Exception):
    """What is wrong, after the file and, where there is one, the line."""

    def __init__(self, name, line, message):
        super().__init__('%s:%d: %s' % (name, line, message) if line else '%s: %s' % (name, message))


class Source:
    """A file's name and bytes."""

    def __init__(self, name, data):
        self.name = name
        self.data = data

    def fail(self, line, message):
        raise Fault(self.name, line, message)


def source_of(path):
    """The file, or standard input for '-'."""
    if path == '-':
        return Source('standard input', sys.stdin.buffer.read())
    try:
        with open(path, 'rb') as file:
            return Source(path, file.read())
    except OSError as error:
        raise Fault(path, 0, error.strerror)


class Reader:
    """Goes through a file by lines, or by words across lines. Blank lines are passed over."""

    def __init__(self, source):
        self.source = source
        self.lines = source.data.splitlines()
        self.number = 0  # of the line read last, from 1
        self.rest = []   # its words that word() has not given yet

    def fail(self, message):
        self.source.fail(self.number, message)

    def raw(self):
        """The bytes of the next line, None after the last."""
        if self.number == len(self.lines):
            return None
        self.number += 1
        return self.lines[self.number - 1]

    def line(self):
        """The words of the next line that has any, None after the last."""
        while (raw := self.raw()) is not None:
            if raw.strip():
                return [self.ascii(word) for word in raw.split()]
        return None

    def needed(self, what):
        """line(), where the file must go on."""
        words = self.line()
        if words is None:
            self.fail('the file ends where %s should follow' % what)
        return words

    def word(self, what):
        """The next word, on this line or a later one."""
        if not self.rest:
            self.rest = self.needed(what)[::-1]
        return self.rest.pop()

    def ascii(self, word):
        if any(byte > 126 or byte < 32 for byte in word):
            self.fail('not ASCII: byte %02x' % next(byte for byte in word if byte > 126 or byte < 32))
        return word.decode('ascii')

    def whole(self, word, what):
        if not INTEGER.fullmatch(word):
            self.fail("%s should be a whole number, not '%s'" % (what, word))
        return int(word)

    def count(self, word, what):
        number = self.whole(word, what)
        if number < 0:
            self.fail('%s is below zero' % what)
        return number

    def real(self, word, what):
        """The double nearest the decimal number."""
        if NOT_FINITE.fullmatch(word):
            self.fail('%s is %s; coordinates are finite' % (what, word))
        if not DECIMAL.fullmatch(word):
            self.fail("%s should be a decimal number, not '%s'" % (what, word))
        value = float(word)
        if math.isinf(value):
            self.fail('%s is %s, beyond the largest double' % (what, word))
        return value

    def point(self, words):
        """Three coordinates."""
        return tuple(self.real(word, name) for word, name in zip(words, 'xyz'))
