"""Lines of scripts and the commands that they read as, shown as the type `Command` shows them."""
import script
from cases import unspelled
from refusals import Refused


def text(given):
    return 'Text { bytes: %s }' % list(given)


def rows(given):
    return 'Rows { list: %s }' % [list(it) if isinstance(it, tuple) else it for it in given]


def number(given):
    return '%d' % given


def numbers(given):
    return str([list(it) if isinstance(it, tuple) else it for it in given])


def word(given):
    return given.decode().capitalize()


def truth(given):
    return 'true' if given else 'false'


def counts(unit):
    return lambda given: '[%s]' % ', '.join('%s(%d)' % (unit, it) for it in given)


def rotation(given):
    return 'Micro(%d)' % given


def surface(given):
    if given == 'stay':
        return 'Stay'
    return 'Out' if given is None else 'Set { contents: %d, flags: %d, value: Micro(%d) }' % given


NODE = [('node', 0, number)]
NODES = [('nodes', slice(0, None), rows)]
SHIFT = [('shift', 'shift', numbers)]
KEY = [('key', 'key', text)]

# The fields of each command: its name, the place among the named nodes or the name of the argument, and how it is shown
FIELDS = {
    b'box': [('a', 'a', numbers), ('b', 'b', numbers)],
    b'hull': [('points', 'points', rows)],
    b'delete': NODES,
    b'copy': SHIFT + NODES,
    b'move': SHIFT + NODES,
    b'turn': [('axis', 'axis', word), ('quarters', 'quarters', number), ('about', 'about', numbers)] + NODES,
    b'flip': [('axis', 'axis', word), ('at', 'at', number)] + NODES,
    b'clip': [('part', 'part', word), ('plane', 'plane', numbers)] + NODES,
    b'subtract': [('by', 0, number), ('nodes', slice(1, None), rows)],
    b'intersect': NODES,
    b'merge': NODES,
    b'hollow': [('thickness', 'thickness', number)] + NODES,
    b'vertex': NODE + SHIFT + [('picks', 'picks', rows)],
    b'snap': [('grid', 'grid', number)] + NODES,
    b'material': [('name', 'name', text)],
    b'tex': NODE + [('face', 'face', number), ('name', 'name', text), ('off', 'offsets', counts('Pico')), ('rotation', 'rotation', rotation),
                    ('scale', 'scales', counts('Nano')), ('surface', 'surface', surface)],
    b'lock': [('on', 'on', truth)],
    b'uv': NODE + [('face', 'face', number), ('at', 'at', numbers)],
    b'convert': [],
    b'entity': [('class', 'class', text), ('at', 'at', numbers)],
    b'set': NODE + KEY + [('value', 'value', text)],
    b'unset': NODE + KEY,
    b'tie': [('class', 'name', text)] + NODES,
    b'untie': NODES,
    b'layer': [('name', 'name', text)],
    b'freeze': NODE,
    b'thaw': NODE,
    b'group': [('name', 'name', text)] + NODES,
    b'ungroup': NODES,
    b'into': [('place', 0, number), ('nodes', slice(1, None), rows)],
    b'link': NODE + SHIFT,
    b'unlink': NODE,
    b'protect': NODE + KEY,
    b'unprotect': NODE + KEY,
    b'undo': [],
    b'redo': [],
    b'show': NODE,
    b'tree': [],
    b'pick': [('from', 'from', numbers), ('to', 'to', numbers)],
    b'touching': NODE,
}

FAULTS = {'line-too-long': 'TooLong', 'unknown-command': 'UnknownWord', 'arguments': 'Arguments'}


def shown(command):
    fields = []
    for name, source, show in FIELDS[command.word]:
        given = command.args[source] if isinstance(source, str) else command.named[source]
        fields.append('%s: %s' % (name, show(given)))
    return command.word.decode().capitalize() + (' { %s }' % ', '.join(fields) if fields else '')


def script_line(case, row):
    """What a line of a script reads as."""
    try:
        command = script.read_line(unspelled(row))
    except Refused as fault:
        name = FAULTS[fault.name]
        return [('= Err(%s)' % (name + ('(%d)' % fault.fields[0] if fault.fields else ''))).encode()]
    return [b'= Ok(None)' if command is None else ('= Ok(Some(%s))' % shown(command)).encode()]
