"""The stack that the functions of an archive may take, by their disassembly: frames along the deepest path of calls. So it holds for every input."""
import re, subprocess

LABEL = re.compile(r'^[0-9a-f]+ <(.+)>:$')
PLACE = re.compile(r'\s+[0-9a-f]+: R_X86_64_(?:PLT32|PC32)\s+(?:\.text\.)?(\S+?)(?:[-+]0x[0-9a-f]+)?$')
STEP = re.compile(r'\s*[0-9a-f]+:\s+(\S+)\s*(.*)$')
TARGET = re.compile(r'[0-9a-f]+ <(.+?)(?:\+0x[0-9a-f]+)?>$')  # an instance of a generic function has brackets in its name
NO_CODE = {'memcpy', 'memset'}  # of the C library; leaves


def frames(archive):
    """{function: (bytes of its frame and of the return address, functions that it calls)}; a ValueError where code has another shape than is read here."""
    found, name, last = {}, None, ''
    for line in subprocess.run(['objdump', '-dr', '--no-show-raw-insn', archive], capture_output=True, text=True, check=True).stdout.splitlines():
        if label := LABEL.match(line):
            name, last = label[1], ''
            found[name] = [8, set()]
        elif place := PLACE.match(line):
            if last in ('call', 'jmp'):
                found[name][1].add(place[1])
        elif name and (step := STEP.match(line)):
            last, words = step[1], step[2]
            if last == 'push':
                found[name][0] += 8
            elif last == 'sub' and words.endswith(',%rsp'):
                found[name][0] += int(re.fullmatch(r'\$0x([0-9a-f]+),%rsp', words)[1], 16)  # a frame of one size
            elif last == 'call' and words.startswith('*'):  # a jump by a register is a table of cases, within the function
                raise ValueError('%s calls what it is handed: %s' % (name, line))
            elif last[0] in 'cj' and (target := TARGET.match(words)) and target[1] != name and not target[1].startswith('.LCPI'):  # a constant's name stands for the next step
                found[name][1].add(target[1])
    return found


def deepest(archive):
    """{export: bytes}; a ValueError where a function may call itself."""
    found, known = frames(archive), {}

    def depth(name, path):
        if name in path:
            raise ValueError('%s may call itself' % name)
        if name not in known:
            own, calls = found[name]
            known[name] = own + max((depth(call, path | {name}) for call in calls - NO_CODE), default=0)
        return known[name]
    return {name: depth(name, frozenset()) for name in found if name.startswith('sedgepick_')}
