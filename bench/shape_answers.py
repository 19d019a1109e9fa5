"""What shapes that are made of others are, by the reference of their definitions: polyhedra that are cut, brushes that are cut by one
another, moved vertices, motions, and faces that motions carry."""
from fractions import Fraction
from itertools import combinations

import brushes
import map_text
import motions
import planes
import textures
from cases import NoCase, spelled, unspelled
from part_answers import CASES, ROWS, box, faces_of, integers, point_text, triples


def points_text(points):
    return b''.join(b' ' + point_text(X) for X in points)


# Polyhedra

# The cube's faces in the order of their tags: right, left, far, near, top and bottom.
FIRST_TAG = 0xFFFFFFFA


def edge_count(faces, points):
    """Pairs of vertices that lie on two faces with independent normals."""
    on = [frozenset(k for k, h in enumerate(faces) if planes.side(h, X) == 0) for X in points]
    return sum(any(planes.cross(faces[f], faces[g]) != (0, 0, 0) for f, g in combinations(a & b, 2)) for a, b in combinations(on, 2))


class Polyhedron:
    def __init__(self):
        self.faces = tuple(brushes.CUBE)
        self.tags = [FIRST_TAG + k for k in range(6)]

    def cut(self, plane, tag):
        """What the plane does, and the polyhedron after it."""
        if tag in self.tags:
            raise NoCase('a tag twice', tag)
        sides = [planes.side(plane, X) for X in brushes.vertices(self.faces)]
        if all(side <= 0 for side in sides):
            return b'Missed', self
        if all(side >= 0 for side in sides):
            return b'Gone', self
        faces, tags = self.faces + (plane,), self.tags + [tag]
        kept, after = brushes.trim(faces), Polyhedron()
        after.faces, after.tags = tuple(faces[k] for k in kept), [tags[k] for k in kept]
        return b'Halved', after

    def counts(self):
        points = brushes.vertices(self.faces)
        return b'%d faces, %d vertices, %d edges' % (len(self.faces), len(points), edge_count(self.faces, points))

    def listing(self):
        found = [b'= vertices:' + points_text(brushes.vertices(self.faces))]
        return found + [b'= face %d:' % tag + points_text(brushes.loop(self.faces, place)) for place, tag in enumerate(self.tags)]


def polyhedron(case):
    """One answer for each row, so the lines are given whole."""
    poly, tag, found = Polyhedron(), 0, []
    for line in case.lines:
        found.append(line)
        if not line.startswith(b'> '):
            continue
        row = line[2:]
        times, _, plane = row.rpartition(b' times ')
        if row == b'listing':
            found += poly.listing()
        else:
            (face,) = faces_of(plane)
            done, after = poly.cut(planes.half_space(face), tag)
            found.append(b'= ' + (b'%d times ' % int(times) if times else b'') + done + b': ' + after.counts())
            poly = poly if times else after
        tag += 1
    return found


# Brushes

class Brush:
    """The half-spaces of a valid brush, its three points each, and its tags."""

    def __init__(self, part, base):
        faces = []
        for side in part.split(b'/'):
            side = side.strip()
            faces += box(side) if side.startswith(b'box ') else faces_of(side)
        spaces = tuple(planes.half_space(face) for face in faces)
        if brushes.cause(spaces) is not None or any(not all(map(planes.point_in_range, face)) for face in faces):
            raise NoCase('no brush', part)
        kept = brushes.trim(spaces)
        self.spaces, self.tags = tuple(spaces[k] for k in kept), [base + k for k in kept]


def brush_text(name, spaces, tags):
    """What a list of half-spaces keeps, by tags, and its vertices."""
    kept = brushes.trim(spaces)
    needed = tuple(spaces[k] for k in kept)
    return b'= ' + name + b''.join(b' %d' % tags[k] for k in kept) + b':' + points_text(brushes.vertices(needed))


def too_many(lists):
    """The first list with more than 128 faces."""
    counts = [len(brushes.trim(spaces)) for spaces in lists]
    return next((b'= TooManyFaces(%d)' % n for n in counts if n > 128), None)


def split(case, row):
    part, plane = row.split(b'|')
    a, (face,) = Brush(part, 0), faces_of(plane)
    cut = planes.half_space(face)
    lists = [a.spaces + (cut,), a.spaces + (brushes.reverse_half_space(cut),)]
    if not all(brushes.some_point_inside(spaces) for spaces in lists):
        return [b'= PlaneMisses']
    full = too_many(lists)
    return [full] if full else [brush_text(name, spaces, a.tags + [256]) for name, spaces in zip((b'back', b'front'), lists)]


def intersection(case, row):
    solids = [Brush(part, 256 * k) for k, part in enumerate(row.split(b'|'))]
    spaces, tags = (), []
    for k, solid in enumerate(solids):
        spaces, tags = spaces + solid.spaces, tags + solid.tags
        if not brushes.some_point_inside(spaces):
            return [b'= Apart(%d)' % k]
    full = too_many([spaces])
    return [full or brush_text(b'common', spaces, tags)]


def difference(case, row):
    a, b = [Brush(part, 256 * k) for k, part in enumerate(row.split(b'|'))]
    if not brushes.some_point_inside(a.spaces + b.spaces):
        return [b'= Apart']
    pieces = brushes.piece_lists(a.spaces, b.spaces)
    full = too_many([spaces for _, spaces in pieces])
    found = [brush_text(b'piece', spaces, a.tags + b.tags[:i + 1]) for i, spaces in pieces]
    return [full] if full else found + [b'= %d pieces' % len(pieces)]


def pushed_in(space, thickness):
    """The half-space of a side along an axis, moved inward."""
    *normal, distance = space
    return (*normal, distance - thickness * sum(map(abs, normal)))


def hollow(case, row):
    part, thickness = row.split(b'|')
    a, t = Brush(part, 0), int(thickness)
    if not (1 <= t <= 4096):
        raise NoCase('no thickness', row)
    if len(a.spaces) != 6 or any(sum(map(bool, space[:3])) != 1 for space in a.spaces):
        return [b'= NotBox']
    corners = brushes.vertices(a.spaces)
    if any(2 * t >= max(X[k] for X in corners) - min(X[k] for X in corners) for k in range(3)):
        return [b'= Thick']
    pieces = brushes.piece_lists(a.spaces, tuple(pushed_in(space, t) for space in a.spaces))
    found = [brush_text(b'piece', spaces, a.tags + [tag + 2 ** 30 for tag in a.tags[:i + 1]]) for i, spaces in pieces]
    return found + [b'= %d pieces' % len(pieces)]


# Moved and rounded vertices

def edited(spaces, change):
    points, facets = brushes.moved(spaces, change)
    if facets is None:
        return [b'= NoVolume']
    if len(facets) > 128:
        return [b'= TooManyFaces(%d)' % len(facets)]
    if any(abs(part) > planes.WORLD for point in points for part in point):
        return [b'= OutOfWorld']
    found = [b'= from %d:' % old + points_text([p + (1,) for p in triple]) for triple, old in facets]
    hull = tuple(planes.half_space(triple) for triple, _ in facets)
    return found + [b'= vertices' + points_text(brushes.vertices(hull))]


def moved_vertices(case, row):
    part, picks, shift = row.split(b'|')
    a, picks, shift = Brush(part, 0), triples(integers(picks)), tuple(integers(shift))
    corners = brushes.vertices(a.spaces)
    for k, pick in enumerate(picks):
        if pick + (1,) not in corners:
            return [b'= NoVertex(%d)' % (k + 1)]
    if not all(map(brushes.is_whole, corners)):
        return [b'= Fractional']
    for k, pick in enumerate(picks):
        if not planes.point_in_range(planes.plus(pick, shift)):
            return [b'= PointRange(%d)' % (k + 1)]
    return edited(a.spaces, lambda X: planes.plus(X[:3], shift) if X[:3] in picks else X[:3])


def snap(case, row):
    part, grid = row.split(b'|')
    return edited(Brush(part, 0).spaces, lambda X: brushes.rounded_to_grid(X, int(grid)))


# Orientations and motions

PLACES = [(0, 1, 2), (0, 2, 1), (1, 0, 2), (1, 2, 0), (2, 0, 1), (2, 1, 0)]


def matrix(number):
    p, s = divmod(number, 8)
    return tuple(tuple((-1 if s >> i & 1 else 1) if j == PLACES[p][i] else 0 for j in range(3)) for i in range(3))


NUMBERS = {matrix(number): number for number in range(48)}


def orientation(case, row):
    words = row.split()
    if words == [b'identity']:
        M = matrix(0)
    elif words[0] == b'turn':
        M = motions.turning(words[1], int(words[2]), (0, 0, 0)).matrix
    elif words[0] == b'flip':
        M = motions.flipping(words[1], 0).matrix
    elif int(words[0]) >= 48:
        return [b'= None']
    else:
        M = matrix(int(words[0]))
    back, flip = NUMBERS[motions.columns(M)], motions.Motion(M, (0, 0, 0)).is_flip()
    return [b'= %d %s, back %d, flip %s' % (NUMBERS[M], str([list(part) for part in M]).encode(), back, str(flip).lower().encode())]


def product(case, row):
    a, b = integers(row)
    return [b'= %d' % NUMBERS[motions.product(matrix(a), matrix(b))]]


def applied(case, row):
    number, *vector = integers(row)
    return [b'= ' + str([sum(m * v for m, v in zip(part, vector)) for part in matrix(number)]).encode()]


def motion_of(numbers):
    number, *shift = numbers
    motion = motions.Motion(matrix(number), tuple(shift))
    if not motion.within_limit():
        raise NoCase('no motion', numbers)
    return motion


def motion_text(name, motion):
    return b'= ' + name + b'%d %d %d %d' % ((NUMBERS[motion.matrix],) + motion.shift)


def chain(case, row):
    numbers = integers(row)
    first, then = motion_of(numbers[:4]), motion_of(numbers[4:])
    both = motions.after(then, first)
    return [motion_text(b'back ', motions.inverse(first)), motion_text(b'both ', both) if both.within_limit() else b'= None']


def out_of_range(points):
    return next((b'= Err(%d)' % k for k, point in enumerate(points) if not planes.point_in_range(point)), None)


def moved_plane(case, row):
    numbers = integers(row)
    points = motion_of(numbers[:4]).plane(tuple(triples(numbers[4:])))
    return [out_of_range(points) or b'=' + points_text([p + (1,) for p in points])]


def written_motion(case, row):
    motion = motions.read_motion(unspelled(row), b' \t\r\n')
    return [b'= None'] if motion is None else [motion_text(b'', motion), b'= ' + motions.write_motion(motion)]


# Faces

def face_of(line):
    document = map_text.read_document(b'{ { ' + line + b' } }\n')
    return document.entities[0].brushes[0][0]


def face_line(face):
    return b'= ' + spelled(map_text.written_face(face))


def fraction_text(number):
    number = Fraction(number)
    return b'%d' % number.numerator + (b'/%d' % number.denominator if number.denominator != 1 else b'')


def carried(lock):
    def answer(case, row):
        motion, line = row.split(b'|')
        motion, face = motion_of(integers(motion)), face_of(line)
        try:
            moved = textures.carry(motion, face, lock)
        except textures.NoOffset as lost:
            return [b'= no offset ' + fraction_text(lost.offset)]
        return [out_of_range(moved.points) or face_line(moved)]
    return answer


def coordinates(case, row):
    point, line = row.split(b'|')
    found = textures.coordinates(face_of(line), tuple(integers(point)) + (1,))
    return [b'= None' if found is None else b'=' + b''.join(b' ' + fraction_text(part) for part in found)]


def valve_face(case, row):
    face = textures.to_valve(face_of(row))
    return [b'= None' if face is None else face_line(face)]


ROWS.update({b'splits': split, b'intersections': intersection, b'differences': difference, b'hollows': hollow,
             b'moved-vertices': moved_vertices,
             b'snaps': snap, b'orientations': orientation, b'products': product, b'applied': applied, b'chains': chain, b'moved-planes': moved_plane,
             b'motion-texts': written_motion, b'carried': carried(False), b'locked': carried(True), b'coordinates': coordinates,
             b'valve-faces': valve_face})
WHOLE = {b'polyhedron': polyhedron}
