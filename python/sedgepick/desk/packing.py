"""Facts and arrays as one run of bytes that the page takes without parsing: a length, JSON, then the arrays, each at a multiple of eight bytes."""
import json, struct

MAGIC = b'SDK1'
KINDS = {'<f8': 'Float64Array', '<f4': 'Float32Array', '<u4': 'Uint32Array', '<i4': 'Int32Array', '|u1': 'Uint8Array'}


def padded(content: bytes) -> bytes:
    return content + b'\0' * (-len(content) % 8)


def packed(facts: dict, arrays: dict) -> bytes:
    """The bytes; arrays are numpy's, of the kinds above, and come back flat."""
    import numpy
    stated, bodies, place = {}, [], 0
    for name, array in arrays.items():
        array = numpy.ascontiguousarray(array)
        stated[name] = [KINDS[array.dtype.str], place, int(array.size)]
        bodies.append(padded(array.tobytes()))
        place += len(bodies[-1])
    head = json.dumps({**facts, 'arrays': stated}).encode()
    head += b' ' * (-(len(head) + 8) % 8)
    return b''.join([MAGIC, struct.pack('<I', len(head)), head, *bodies])
