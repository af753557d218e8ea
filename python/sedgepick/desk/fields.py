"""The settings of a run as the page has them: their ranges, and the options of the command that they stand for."""
from dataclasses import asdict, dataclass
from ..front import RANGES, Quality

USUAL = Quality()
# what the mesh can be written as, by the suffix; each holds quads and is read back
FORMATS = ('.msh', '.vtu', '.vtk', '.inp', '.med', '.xdmf', '.bdf', '.mesh')
AUTO = 'auto'


@dataclass(frozen=True)
class Field:
    """A setting: a number within bounds, a choice, or yes or no."""
    name: str
    label: str
    kind: str            # size, number, whole, choice or yes
    usual: str
    help: str
    option: str          # of the command
    low: float = 0.0
    high: float = 0.0
    choices: tuple = ()  # (value, label)
    group: str = ''

    def fault(self, word: str) -> str:
        """Why the word is no value of this field, in words; '' where it is one."""
        if self.kind == 'choice':
            return '' if word in dict(self.choices) else 'choose one of: %s' % ', '.join(label for _, label in self.choices)
        if self.kind == 'yes':
            return '' if word in ('yes', 'no') else 'yes or no'
        if self.kind == 'size' and word == AUTO:
            return ''
        try:
            value = int(word) if self.kind == 'whole' else float(word)
        except ValueError:
            return 'not a %snumber%s' % ('whole ' if self.kind == 'whole' else '', '; a length, 0 or auto' if self.kind == 'size' else '')
        if self.kind == 'size':
            return '' if 0.0 <= value < float('inf') else 'a length in the units of the file, 0 or auto'
        return '' if self.low <= value <= self.high else 'out of range: from %g to %g' % (self.low, self.high)


def bounds(name: str) -> dict:
    low, high = RANGES[name]
    return {'low': low, 'high': high}


FIELDS = (
    Field('size', 'Size of the quads', 'size', AUTO, 'Length of an edge in the units of the file; 0: each edge sets its own; auto: 0.65 of the mean edge.', '--size'),
    Field('finish', 'Answer', 'choice', 'finished', 'Finished: what the front leaves is closed, no node is added or dropped. Raw: the proved front alone.', '--raw',
          choices=(('finished', 'Finished mesh'), ('raw', 'Raw front'))),
    Field('thin', 'Least triangle angle', 'number', '10', 'Degrees. A leftover triangle below it is not accepted; 0 asks nothing.', '--thin', 0.0, 60.0),
    Field('stop', 'Stop rule', 'choice', '0', 'Even groups: leftover triangles stay in groups of even number.', '--stop', choices=(('0', 'While an edge is open'), ('1', 'Even groups'))),
    Field('grid', 'Grid profile', 'yes', 'no', 'For drawings on a fixed grid, such as whole millimetres: no node is added, the area is kept exactly.', '--grid'),
    Field('least_jacobian', 'Least scaled Jacobian', 'number', '%g' % USUAL.least_jacobian, 'Of a quad of the front.', '--least-jacobian', **bounds('least_jacobian'), group='quality'),
    Field('least_angle', 'Least quad angle', 'number', '25', 'Degrees, at each corner. The verdict asks for it too.', '--least-angle', 8.11, 60.0, group='quality'),
    Field('side_low', 'Side nodes from', 'number', '%g' % USUAL.side_low, 'Times the size, from the end of an edge.', '--side-low', **bounds('side_low'), group='quality'),
    Field('side_high', 'Side nodes to', 'number', '%g' % USUAL.side_high, 'Times the size.', '--side-high', **bounds('side_high'), group='quality'),
    Field('pairs', 'Pairs tried', 'whole', '%d' % USUAL.pairs, 'Of side nodes, for each edge.', '--pairs', **bounds('pairs'), group='quality'),
    Field('format', 'Write the mesh as', 'choice', '.msh', 'The sheet has the hash of this file.', '', choices=(
        ('.msh', 'Gmsh .msh'), ('.vtu', 'VTK .vtu'), ('.vtk', 'VTK .vtk'), ('.inp', 'Abaqus, CalculiX .inp'), ('.med', 'MED .med'), ('.xdmf', 'XDMF .xdmf'),
        ('.bdf', 'Nastran .bdf'), ('.mesh', 'Medit .mesh'))),
)
BY_NAME = {field.name: field for field in FIELDS}


def described() -> list:
    """The fields as JSON takes them."""
    return [asdict(field) for field in FIELDS]


def faults(values: dict) -> dict:
    """{field: words} of the values that cannot be; a value that is left out is the usual one."""
    found = {}
    for name, word in values.items():
        field = BY_NAME.get(name)
        if field is None:
            found[str(name)] = 'no such setting'
        elif not isinstance(word, str) or len(word) > 40:
            found[name] = 'not a value'
        elif field.fault(word):
            found[name] = field.fault(word)
    full = filled(values)
    if not found and float(full['side_low']) > float(full['side_high']):
        found['side_low'] = 'above where side nodes end, %s' % full['side_high']
    if not found and full['grid'] == 'yes' and full['size'] != AUTO and float(full['size']):
        found['size'] = 'auto or 0 in the grid profile: there each edge sets its own'
    return found


def filled(values: dict) -> dict:
    """The values of all fields."""
    return {field.name: values.get(field.name, field.usual) for field in FIELDS}


def words_of(values: dict) -> list:
    """The options of the command for these values; those that are as usual are left out."""
    words = []
    for name, word in filled(values).items():
        field = BY_NAME[name]
        if name == 'finish':
            words += ['--raw'] if word == 'raw' else []
        elif name == 'grid':
            words += ['--grid'] if word == 'yes' else []
        elif name == 'thin':  # the command's own usual value differs with --raw
            words += ['--thin', word]
        elif field.option and word != field.usual:
            words += [field.option, word]
    return words


def field_of(words: str) -> str:
    """The field that a fault of a run speaks of; '' where it is none."""
    if words.startswith('not accepted: triangle'):
        return 'thin'
    if words.startswith('not accepted: quad') and 'is too sharp' in words:
        return 'least_angle'
    if words.startswith('cannot write'):
        return 'format'
    return next((field.name for field in FIELDS if field.option and words.startswith(field.option)), '')
