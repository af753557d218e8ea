"""A function run in a child process that has limits: of seconds, and of memory beyond what this
process has. What it gives comes back as arrays, numbers and words, never as code. Used for reading
strangers' files."""
import contextlib
import ctypes
import dataclasses
import json
import os
import resource
import select
import signal
import struct
import time
import numpy
from .surfaces import Fault, Marked, Surface

KINDS = {'Surface': Surface, 'Marked': Marked}
GIVEN, FAULT, MEMORY = b'+', b'-', b'm'
DIE_WITH_PARENT = 1  # prctl's PR_SET_PDEATHSIG


@dataclasses.dataclass(frozen=True)
class Limits:
    seconds: float = 60.0
    megabytes: int = 1024


def pack(value, arrays):
    """The value as JSON takes it; arrays are put behind it."""
    if isinstance(value, numpy.ndarray):
        if value.dtype.kind not in 'biuf':
            raise Fault('numbers of type %s are not taken' % value.dtype)
        arrays.append(numpy.ascontiguousarray(value))
        return {'array': [arrays[-1].dtype.str, list(value.shape)]}
    if dataclasses.is_dataclass(value):
        return {
            'kind': type(value).__name__,
            'fields': [
                pack(getattr(value, field.name), arrays) for field in dataclasses.fields(value)
            ],
        }
    if isinstance(value, dict):
        return {'names': list(value), 'values': [pack(own, arrays) for own in value.values()]}
    if isinstance(value, (list, tuple)):
        return {
            'list' if isinstance(value, list) else 'tuple': [pack(own, arrays) for own in value]
        }
    return value.item() if isinstance(value, numpy.generic) else value


def unpack(value, take):
    if not isinstance(value, dict):
        return value
    if 'array' in value:
        (form, shape), count = value['array'], int(numpy.prod(value['array'][1], dtype=numpy.int64))
        return numpy.frombuffer(
            take(count * numpy.dtype(form).itemsize), dtype=form
        ).reshape(shape).copy()
    if 'kind' in value:
        return KINDS[value['kind']](*[unpack(own, take) for own in value['fields']])
    if 'names' in value:
        return dict(zip(value['names'], [unpack(own, take) for own in value['values']]))
    return (
        [unpack(own, take) for own in value['list']] if 'list' in value
        else tuple(unpack(own, take) for own in value['tuple'])
    )


def encode(value):
    arrays = []
    head = json.dumps(pack(value, arrays)).encode()
    return [struct.pack('<Q', len(head)), head, *(array.tobytes() for array in arrays)]


def decode(content):
    place = 0

    def take(count):
        nonlocal place
        place += count
        return content[place - count:place]
    (length,) = struct.unpack('<Q', take(8))
    return unpack(json.loads(bytes(take(length))), take)


def lower(kind, value):
    """Sets a limit of this process, where it has no lower one."""
    hard = resource.getrlimit(kind)[1]
    value = value if hard == resource.RLIM_INFINITY else min(value, hard)
    resource.setrlimit(kind, (value, value))


def set_limits(limits):
    """The limits of this process, which is the child; it ends with its parent."""
    with open('/proc/self/statm') as file:
        own = int(file.read().split()[0]) * resource.getpagesize()
    lower(resource.RLIMIT_AS, own + (limits.megabytes << 20))
    lower(resource.RLIMIT_CPU, int(limits.seconds) + 2)
    lower(resource.RLIMIT_CORE, 0)
    lower(resource.RLIMIT_FSIZE, 0)  # reading writes no file
    for name in (signal.SIGINT, signal.SIGTERM, signal.SIGHUP):
        signal.signal(name, signal.SIG_DFL)
    with contextlib.suppress(OSError, AttributeError):
        ctypes.CDLL(None).prctl(DIE_WITH_PARENT, signal.SIGKILL, 0, 0, 0)


def run_child(call, limits, out):
    """The child's whole life: what the call gives, or why not, goes into the pipe."""
    try:
        for number in (0, 1, 2):
            os.dup2(os.open(os.devnull, os.O_RDWR), number)
        set_limits(limits)
        try:
            parts = [GIVEN, *encode(call())]
        except MemoryError:
            parts = [MEMORY]
        except Fault as fault:
            parts = [FAULT, str(fault).encode('utf-8', 'backslashreplace')]
        except Exception as error:
            parts = [
                FAULT,
                (
                    'what is read makes no mesh, %s: %s. Mend the file or write it anew'
                    % (type(error).__name__, str(error)[:200])
                ).encode('utf-8', 'backslashreplace'),
            ]
        with open(out, 'wb') as pipe:
            pipe.writelines(parts)
        os._exit(0)
    finally:
        os._exit(1)


def run(call, limits, what):
    """What `call` gives in a child; a Fault where it raises one or reaches a limit. `what` says in
    words what the child does."""
    reading, writing = os.pipe()
    pid = os.fork()
    if pid == 0:
        os.close(reading)
        run_child(call, limits, writing)
    os.close(writing)
    status = None
    try:
        content = gather(reading, time.monotonic() + limits.seconds)
        if content is not None:
            status = os.waitpid(pid, 0)[1]
            pid = 0
    finally:
        os.close(reading)
        if pid:
            os.kill(pid, signal.SIGKILL)
            os.waitpid(pid, 0)
    return take_answer(content, status, limits, what)


def gather(pipe, end):
    """What the child writes until it closes the pipe; None where it takes longer."""
    parts = []
    while True:
        if not select.select([pipe], [], [], max(0.0, end - time.monotonic()))[0]:
            return None
        part = os.read(pipe, 1 << 20)
        if not part:
            return b''.join(parts)
        parts.append(part)


def take_answer(content, status, limits, what):
    if content is None or os.WIFSIGNALED(status) and os.WTERMSIG(status) == signal.SIGXCPU:
        raise Fault(
            '%s takes over %g s. A sound file takes far less: mend it or write it anew; '
            '--read-seconds allows more'
            % (what, limits.seconds)
        )
    if content[:1] == MEMORY:
        raise Fault(
            '%s takes over %d MB of memory, as do node numbers far beyond their count or packed '
            'data. Number the nodes from 1 on or write the file anew; --read-memory allows more'
            % (what, limits.megabytes)
        )
    if os.WIFSIGNALED(status):
        raise Fault(
            '%s ended by signal %d, a fault of the reader that the file brings about. Mend the '
            'file or write it in another format'
            % (what, os.WTERMSIG(status))
        )
    if content[:1] == FAULT:
        raise Fault(content[1:].decode())
    if content[:1] != GIVEN or os.WEXITSTATUS(status):
        raise Fault('%s failed without words. Mend the file or write it in another format' % what)
    return decode(memoryview(content)[1:])
