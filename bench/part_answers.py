"""What the libraries answer, by the reference of their definitions."""
import math

import brushes
import decimals
import map_text
import planes
import textures
from cases import NoCase, behind, spelled, unspelled, with_line
from line_answers import script_line
from refusals import MapRefused


# Numbers

NO_NUMBER, NOT_WHOLE, TOO_LARGE = b'= Err(NotNumber)', b'= Err(NotWhole)', b'= Err(TooLarge)'


def count_of(places, name):
    def answer(case, row):
        count = decimals.rounded(unspelled(row), places)
        return [NO_NUMBER if count is None else b'= Ok(%s(%d))' % (name, count) if decimals.below_million(count, places) else TOO_LARGE]
    return answer


def whole(case, row):
    found = decimals.whole(unspelled(row))
    if found[0] == 'value':
        return [b'= Ok(%d)' % found[1] if abs(found[1]) <= int(case.fields(b'limit')[0]) else TOO_LARGE]
    return [NO_NUMBER if found[0] == 'number' else NOT_WHOLE]


def wide(case, row):
    found = decimals.whole(unspelled(row))
    if found[0] == 'value':
        return [b'= Ok(%d)' % found[1] if decimals.in_wide_range(found[1]) else TOO_LARGE]
    return [NO_NUMBER if found[0] == 'number' else NOT_WHOLE]


def decimal(case, row):
    places, = case.numbers(b'places')
    if places not in (6, 9, 12) or not decimals.below_million(int(row), places):
        raise NoCase('no number, or one out of range', row)
    return [b'= ' + decimals.shortest(int(row), places)]


def integers(row):
    return [int(word) for word in row.split() if word not in (b'(', b')')]


def quotient(case, row):
    n, d, limit = integers(row)
    return [b'= Some(%d)' % (n // d) if n % d == 0 and abs(n // d) < limit else b'= None']


def divisor(case, row):
    return [b'= %d' % math.gcd(*integers(row))]


# Planes and vertices

def triples(numbers):
    return [tuple(numbers[k:k + 3]) for k in range(0, len(numbers), 3)]


def faces_of(row):
    points = triples(integers(row))
    return [tuple(points[k:k + 3]) for k in range(0, len(points), 3)]


def plane(case, row):
    points = triples(integers(row))
    for place, point in enumerate(points):
        if not planes.point_in_range(point):
            return [b'= PointRange(%d)' % place]
    if planes.flat(tuple(points)):
        return [b'= Flat']
    *normal, distance = planes.half_space(tuple(points))
    axes = [list(axis) for axis in textures.base_axes(tuple(points))]
    return [b'= normal %s, distance %d' % (str(normal).encode(), distance), b'= axes ' + str(axes).encode()]


def same(case, row):
    a, b = faces_of(row)
    def said(x, y):
        return b'true' if planes.same_half_space(planes.half_space(x), planes.half_space(y)) else b'false'
    return [b'= %s %s, reversed %s' % (said(a, b), said(b, a), said(planes.reverse(a), b))]


def sign(number):
    return b'Behind' if number < 0 else b'On' if number == 0 else b'Front'


def point_text(X):
    return b'(%d %d %d)' % X[:3] + (b'/%d' % X[3] if X[3] != 1 else b'')


def vertex(case, row):
    a, b, c, probe = [planes.half_space(face) for face in faces_of(row)]
    found = [b'= normals ' + sign(planes.dot(a[:3], planes.cross(b[:3], c[:3])))]
    X = planes.meet(a, b, c)
    if X is None:
        return found + [b'= none']
    found.append(b'= %s %s' % (sign(planes.side(probe, X)), point_text(X)))
    if not planes.in_cube(X, planes.WORLD):
        return found + [b'= out of the world']
    found.append(b'= whole ' + (b'Some(Point { x: %d, y: %d, z: %d })' % X[:3] if brushes.is_whole(X) else b'None'))
    return found + [b'= on %d (%d %d %d)' % ((grid,) + brushes.rounded_to_grid(X, grid)) for grid in (1, 2, 4, 8, 16, 32, 64)]


# Solids

def box(row):
    a, b = triples(integers(row[4:]))
    (ax, ay, az), (bx, by, bz) = [[planes.plus(p, d) for d in ((1, 0, 0), (0, 1, 0), (0, 0, 1))] for p in (a, b)]
    return [(a, ay, az), (a, az, ax), (a, ax, ay), (b, by, bx), (b, bx, bz), (b, bz, by)]


def solid(case):
    faces = [face for row in case.rows() for face in (box(row) if row.startswith(b'box ') else faces_of(row))]
    if len(faces) > 256 or any(planes.flat(face) or not all(map(planes.point_in_range, face)) for face in faces):
        raise NoCase('no number, or one out of range', case.head)
    spaces = tuple(planes.half_space(face) for face in faces)
    cause = brushes.cause(spaces)
    if cause is not None:
        return [{'volume': b'= NoVolume', 'world': b'= OutOfWorld'}.get(cause[0]) or b'= TooManyFaces(%d)' % cause[1]]
    kept = brushes.trim(spaces)
    needed = tuple(spaces[k] for k in kept)
    points = brushes.vertices(needed)
    found = [b'= sides' + b''.join(b' %d' % k for k in kept)]
    found += [b'= vertex %d %s' % (k, point_text(X)) for k, X in enumerate(points)]
    for place in range(len(needed)):
        found.append(b'= loop %d:' % place + b''.join(b' %d' % points.index(X) for X in brushes.loop(needed, place)))
    for base in case.fields(b'retag'):
        found.append(b'= tags' + b''.join(b' %d' % (k + int(base)) for k in kept))
    return found


def hull(case, row):
    times, _, again = row.rpartition(b' times ')
    if times:
        (found,) = hull(case, again)
        return [b'= %d times Some(%d)' % (int(times), found.count(b'[') - 1)]
    points = triples(integers(row.replace(b'%', b'')))
    distinct = brushes.distinct(points)
    if len(distinct) > 512:
        return [b'= TooManyPoints(%d)' % len(distinct)]
    if not brushes.spans_space(distinct):
        return [b'= NoVolume']
    facets = brushes.facets(distinct)
    if len(facets) > 128:
        return [b'= TooManyFaces(%d)' % len(facets)]
    if any(abs(part) > planes.WORLD for point in distinct for part in point):
        return [b'= OutOfWorld']
    return [b'= ' + str([[points.index(distinct[k]) for k in facet] for facet in facets]).encode()]


# Tokens and map texts

def refusal(fault):
    """A refusal as the type of its cause shows it."""
    name, *fields = fault.words
    shown = ''.join(part.capitalize() for part in name.split('-'))
    if name in ('open-quote', 'stray-byte'):
        return b'Lex(%s(%d))' % (shown.encode(), *fields)
    if name == 'expected':
        return b'Expected(%s, %d)' % (fields[0].capitalize().encode(), fields[1])
    return b'%s(%d)' % (shown.encode(), *fields)


def tokens(case, row):
    """The tokens of a text, each with its line, and what stands behind them."""
    found, left = [], map_text.Tokens(unspelled(row))
    try:
        while True:
            token = left.next()
            if token is None:
                return found + [b'= end']
            quote = b'"' * token.quoted
            found.append(b'= %d ' % token.line + quote + spelled(token.text) + quote)
    except MapRefused as fault:
        return found + [b'= ' + refusal(fault)[len(b'Lex('):-1]]


def read(text, before, behind_it, texts):
    try:
        document = map_text.read_document(text)
    except MapRefused as fault:
        return [b'= ' + refusal(fault)]
    found = [brush for entity in document.entities for brush in entity.brushes]
    if any(isinstance(brush, map_text.Bad) for brush in found):
        return [b'= brushes' + b''.join(b' ' + (brush.reason.capitalize().encode() if isinstance(brush, map_text.Bad) else b'Good') for brush in found)]
    written = map_text.written_document([(entity.props, entity.brushes) for entity in document.entities])
    if before and written.startswith(before) and written[len(before):].endswith(behind_it):
        return [b'= ' + spelled(written[len(before):len(written) - len(behind_it)])]
    same = next((name for name in texts if texts[name] == written), None)
    return [b'= written as ' + same.encode()] if same is not None else behind(b'=| ', written)


def part(case, row):
    before, behind_it = case.bytes(b'before'), case.bytes(b'behind')
    return read(before + unspelled(row) + behind_it, before, behind_it, case.texts)


def line(case, row):
    return read(with_line(case.named(), row), b'', b'', case.texts)


def form(case, row):
    try:
        return [b'= ' + map_text.read_document(unspelled(row)).format.capitalize()]
    except MapRefused as fault:
        return [b'= ' + refusal(fault)]


FACES = {b'Point': b'( 0.5 0 0 ) ( 0 1 0 ) ( 1 0 0 ) a 0 0 0 1 1\n', b'Range': b'( 4353 0 0 ) ( 0 1 0 ) ( 1 0 0 ) a 0 0 0 1 1\n',
         b'Texture': b'( 0 0 0 ) ( 0 1 0 ) ( 1 0 0 ) a 1e6 0 0 1 1\n', b'Flat': b'( 0 0 0 ) ( 0 1 0 ) ( 0 2 0 ) a 0 0 0 1 1\n'}
GOOD = b'( 0 0 0 ) ( 0 1 0 ) ( 1 0 0 ) a 0 0 0 1 1\n'


def judged(case, row):
    faces = b''.join(FACES[word] if word in FACES else GOOD * int(word) for word in row.split())
    return read(b'{ {\n' + faces + b'} { ( .5 0 0 ) ( 0 1 0 ) ( 1 0 0 ) a 0 0 0 1 1 } }\n', b'', b'', case.texts)


def cuts(case):
    text, found = case.named(), []
    for length in range(len(text) + 1):
        try:
            map_text.read_document(text[:length])
            said = b'None'
        except MapRefused as fault:
            said = b'Some(%s)' % refusal(fault)
        if not found or found[-1][2] != said:
            found.append([length, length, said])
        found[-1][1] = length
    return [b'= %d to %d: %s' % tuple(stretch) for stretch in found]


# Words

COMMANDS = (b'box hull delete copy move turn flip clip subtract intersect merge hollow vertex snap material tex lock uv convert entity set '
            b'unset tie untie layer freeze thaw group ungroup into link unlink protect unprotect undo redo show tree pick touching').split()
FILE_KEYS = (b'_tb_type _tb_name _tb_id _tb_layer _tb_group _tb_layer_locked _tb_linked_group_id _tb_transformation '
             b'_tb_protected_properties mapversion').split()


def place(words, word):
    return [b'= Some(%d)' % words.index(word) if word in words else b'= None']


def three(case, row):
    *words, sought = [unspelled(word) for word in row.split()]
    return place(words, sought) if len(set(words)) == 3 else [b'= no table']


# What a row of a table asks, and what a whole case asks, by the kind of the case
ROWS = {b'millionths': count_of(6, b'Micro'), b'billionths': count_of(9, b'Nano'), b'trillionths': count_of(12, b'Pico'),
        b'whole': whole, b'wide': wide, b'decimals': decimal, b'quotients': quotient, b'divisors': divisor,
        b'planes': plane, b'hulls': hull, b'half-spaces': same, b'vertices': vertex, b'tokens': tokens, b'maps': part, b'lines': line,
        b'script-lines': script_line, b'formats': form, b'faces': judged, b'three': three,
        b'commands': lambda case, row: place(COMMANDS, unspelled(row)),
        b'file-keys': lambda case, row: place(FILE_KEYS, unspelled(row)),
        b'words': lambda case, row: [b'= true' if len(unspelled(row)) <= 32 else b'= false']}
CASES = {b'solid': solid, b'cuts': cuts}
