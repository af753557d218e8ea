"""Makes the wheel of the Python package with the shared library inside: a PEP 517 and PEP 660 backend of the standard library.

    python3 packaging/wheel_of_tree.py FOLDER     writes the wheel without pip

The library is target/shared/libsedgepick.so.2, made by tools/shared of a proved archive where it is not there. The tag of the wheel is
manylinux_2_N: N is the newest glibc version among those of the functions that the library takes from outside (objdump -T), and it may take
them from glibc alone (DT_NEEDED)."""
import base64, hashlib, os, re, subprocess, sys, zipfile

ROOT = os.path.dirname(os.path.dirname(os.path.abspath(__file__)))
SONAME = 'libsedgepick.so.2'
LIBRARY = os.path.join(ROOT, 'target', 'shared', SONAME)
GLIBC = {'libc.so.6', 'libm.so.6', 'ld-linux-x86-64.so.2'}
OLDEST = 5  # of glibc 2: what manylinux begins with
DATE = (2020, 1, 1, 0, 0, 0)  # of every file, so that the same tree gives the same bytes


class NotBuilt(Exception):
    """The library is not there, or is none that a wheel may carry."""


def version() -> str:
    """The version of the tree, from the header."""
    with open(os.path.join(ROOT, 'include', 'sedgepick.h')) as file:
        return re.search(r'^#define SEDGEPICK_VERSION "(.*)"$', file.read(), re.M)[1]


def project() -> dict:
    """What pyproject.toml says that the wheel repeats: by a few patterns, since tomllib is younger than the oldest Python that is taken."""
    with open(os.path.join(ROOT, 'pyproject.toml')) as file:
        text = file.read()
    part = lambda name: re.search(r'^\[%s\]\n(.*?)(?=^\[|\Z)' % re.escape(name), text, re.M | re.S)[1]
    words = lambda line: re.findall('"([^"]*)"', line)
    own = part('project')
    return {'description': re.search('^description = "(.*)"$', own, re.M)[1], 'python': re.search('^requires-python = "(.*)"$', own, re.M)[1],
            'dependencies': words(re.search(r'^dependencies = (\[.*\])$', own, re.M)[1]),
            'extras': {name: words(line) for name, line in re.findall(r'^(\w+) = (\[.*\])$', part('project.optional-dependencies'), re.M)},
            'scripts': re.findall(r'^([\w-]+) = "(.*)"$', part('project.scripts'), re.M)}


def library() -> str:
    """The path of the shared library."""
    if not os.path.exists(LIBRARY):
        made = subprocess.run([os.path.join(ROOT, 'tools', 'shared')], capture_output=True, text=True)
        if made.returncode:
            raise NotBuilt('the library is not built, and a wheel has it inside: tools/library proves and builds it. %s' % made.stderr.strip())
    return LIBRARY


def tag(path: str) -> str:
    """The platform's tag: the oldest glibc that has every function which the library takes."""
    head = subprocess.run(['objdump', '-p', path], capture_output=True, text=True, check=True).stdout
    needed = set(re.findall(r'^\s*NEEDED\s+(\S+)', head, re.M))
    if needed - GLIBC:
        raise NotBuilt('%s takes functions of %s: a manylinux wheel may not' % (path, ', '.join(sorted(needed - GLIBC))))
    taken = subprocess.run(['objdump', '-T', path], capture_output=True, text=True, check=True).stdout
    minors = [int(minor) for minor in re.findall(r'\*UND\*.*\(?GLIBC_2\.(\d+)', taken)]
    return 'manylinux_2_%d_x86_64' % max([OLDEST, *minors])


def metadata() -> str:
    found = project()
    rows = [('Metadata-Version', '2.1'), ('Name', 'sedgepick'), ('Version', version()), ('Summary', found['description']), ('License', 'MIT'), ('License-File', 'LICENSE'),
            ('Requires-Python', found['python']), *(('Requires-Dist', name) for name in found['dependencies'])]
    for extra, names in found['extras'].items():
        rows += [('Provides-Extra', extra), *(('Requires-Dist', "%s; extra == '%s'" % (name, extra)) for name in names)]
    return ''.join('%s: %s\n' % row for row in rows)


def informed(platform: str) -> dict:
    """{path in the wheel: bytes} of its dist-info."""
    folder = 'sedgepick-%s.dist-info/' % version()
    scripts = '[console_scripts]\n' + ''.join('%s = %s\n' % row for row in project()['scripts'])
    with open(os.path.join(ROOT, 'LICENSE'), 'rb') as file:
        licence = file.read()
    wheel = 'Wheel-Version: 1.0\nGenerator: sedgepick %s\nRoot-Is-Purelib: false\nTag: py3-none-%s\n' % (version(), platform)
    return {folder + 'METADATA': metadata().encode(), folder + 'WHEEL': wheel.encode(), folder + 'entry_points.txt': scripts.encode(), folder + 'LICENSE': licence}


def package() -> dict:
    """{path in the wheel: bytes} of the package, the library among them."""
    found, base = {}, os.path.join(ROOT, 'python')
    for folder, folders, names in os.walk(os.path.join(base, 'sedgepick')):
        folders[:] = sorted(name for name in folders if name != '__pycache__')
        for name in sorted(names):
            if not name.endswith(('.pyc', '.so.2')):
                with open(os.path.join(folder, name), 'rb') as file:
                    found[os.path.relpath(os.path.join(folder, name), base)] = file.read()
    with open(library(), 'rb') as file:
        found['sedgepick/' + SONAME] = file.read()
    return found


def packed(folder: str, platform: str, files: dict) -> str:
    """Writes the wheel of the files; its name."""
    name = 'sedgepick-%s-py3-none-%s.whl' % (version(), platform)
    files = {**files, **informed(platform)}
    hashed = lambda content: base64.urlsafe_b64encode(hashlib.sha256(content).digest()).rstrip(b'=').decode()
    record = 'sedgepick-%s.dist-info/RECORD' % version()
    rows = ['%s,sha256=%s,%d\n' % (path, hashed(content), len(content)) for path, content in files.items()] + [record + ',,\n']
    with zipfile.ZipFile(os.path.join(folder, name), 'w', zipfile.ZIP_DEFLATED) as wheel:
        for path, content in {**files, record: ''.join(rows).encode()}.items():
            entry = zipfile.ZipInfo(path, DATE)
            entry.external_attr, entry.compress_type = (0o100755 if path.endswith(SONAME) else 0o100644) << 16, zipfile.ZIP_DEFLATED
            wheel.writestr(entry, content)
    return name


def build_wheel(wheel_directory, config_settings=None, metadata_directory=None):
    """PEP 517: writes the wheel; its name."""
    return packed(wheel_directory, tag(library()), package())


def build_editable(wheel_directory, config_settings=None, metadata_directory=None):
    """PEP 660: a wheel that leads to the package of the checkout, and so to target/shared."""
    return packed(wheel_directory, tag(library()), {'sedgepick.pth': (os.path.join(ROOT, 'python') + '\n').encode()})


def build_sdist(sdist_directory, config_settings=None):
    raise NotBuilt('there is no source distribution: the library is proved and built in a checkout, by tools/library')


if __name__ == '__main__':
    if len(sys.argv) != 2 or not os.path.isdir(sys.argv[1]):
        sys.exit('wheel_of_tree.py FOLDER: writes the wheel into a folder that is there')
    print(os.path.join(sys.argv[1], build_wheel(sys.argv[1])))
