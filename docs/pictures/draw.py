"""Draws exported maps: reads OBJ texts and writes an SVG picture, with the maps side by side at one scale.

    python3 docs/pictures/draw.py MAP.obj .. PICTURE.svg [AZIMUTH ELEVATION]

A map is seen from far away, from AZIMUTH degrees (0 is along the x axis, 90 along the y axis) and ELEVATION degrees above the
ground; 235 and 30 where they are left out. Only faces that look at the eye are drawn, the farther brushes first; of two brushes
that overlap one is cut up into what lies outside the other. Each material has a colour of its own. It needs Python 3 and nothing
else.
"""

import colorsys
import math
import sys
import zlib

WIDTH = 960
MARGIN = 20
GAP = 80
NEAR = 1e-6


def read_brushes(path):
    """The brushes of the text: each is a list of faces, a face is its material and its points."""
    points, brushes, material, after_face = [], [], '', True
    with open(path, encoding='utf-8', errors='replace') as lines:
        for line in lines:
            words = line.rstrip('\n').split(' ')
            if words[0] == 'v':
                if after_face:
                    brushes.append([])
                    after_face = False
                points.append(tuple(float(word) for word in words[1:]))
            elif words[0] == 'usemtl':
                material = words[1]
            elif words[0] == 'f':
                after_face = True
                brushes[-1].append((material, [points[int(word) - 1] for word in words[1:]]))
    return brushes


def dot(a, b):
    return sum(x * y for x, y in zip(a, b))


def cross(a, b):
    return (a[1] * b[2] - a[2] * b[1], a[2] * b[0] - a[0] * b[2], a[0] * b[1] - a[1] * b[0])


def normal(points):
    """The outward normal of a face, whose points run counterclockwise: the sum over its edges."""
    total = [0.0, 0.0, 0.0]
    for a, b in zip(points, points[1:] + points[:1]):
        total = [t + c for t, c in zip(total, cross(a, b))]
    size = math.sqrt(dot(total, total)) or 1.0
    return tuple(t / size for t in total)


class View:
    """A parallel projection: `eye` points to the eye, `right` and `up` span the picture."""

    def __init__(self, azimuth, elevation):
        a, e = math.radians(azimuth), math.radians(elevation)
        self.eye = (math.cos(e) * math.cos(a), math.cos(e) * math.sin(a), math.sin(e))
        self.right = (-math.sin(a), math.cos(a), 0.0)
        self.up = cross(self.eye, self.right)

    def flat(self, point):
        return dot(point, self.right), -dot(point, self.up)


def corners(brush):
    return [point for _, points in brush for point in points]


def planes(brush):
    """The outward normal and the level of each face."""
    return [(n, dot(n, points[0])) for n, points in ((normal(points), points) for _, points in brush)]


def part(points, n, level):
    """What lies of a face on the inner side of a plane."""
    kept = []
    for a, b in zip(points, points[1:] + points[:1]):
        p, q = dot(n, a) - level, dot(n, b) - level
        if p <= NEAR:
            kept.append(a)
        if (p < -NEAR and q > NEAR) or (p > NEAR and q < -NEAR):
            kept.append(tuple(x + (y - x) * p / (p - q) for x, y in zip(a, b)))
    return kept if len(kept) > 2 else []


def parts(brush, n, level):
    """What lies of the faces of a brush on the inner side of a plane; a face in the plane isn't taken."""
    cut = [(material, part(points, n, level)) for material, points in brush]
    return [(material, points) for material, points in cut if any(dot(n, p) < level - NEAR for p in points)]


def outside(brush, other):
    """What lies of the faces of a brush outside another one, piece by piece."""
    pieces = []
    for n, level in planes(other):
        pieces.append(parts(brush, tuple(-x for x in n), -level))
        brush = parts(brush, n, level)
    return [piece for piece in pieces if piece]


def are_apart(one, other):
    """Whether some face of one of them parts the two."""
    return any(all(dot(n, p) >= level - NEAR for p in corners(rest)) for brush, rest in ((one, other), (other, one)) for n, level in planes(brush))


def disjoint(brushes):
    """The brushes, and of each that overlaps earlier ones what lies outside them."""
    done = []
    for brush in brushes:
        pieces = [brush]
        for earlier in list(done):
            pieces = [rest for piece in pieces for rest in ([piece] if are_apart(piece, earlier) else outside(piece, earlier))]
        done += pieces
    return done


def lies_behind(one, other, view):
    """Whether some face of a brush parts the two so that `one` is to be drawn before `other`."""
    for near_side, brush, rest in ((True, one, other), (False, other, one)):
        for _, points in brush:
            n = normal(points)
            level = dot(n, points[0])
            if all(dot(n, p) >= level - NEAR for p in corners(rest)):
                faces_eye = dot(n, view.eye)
                if (faces_eye > NEAR) if near_side else (faces_eye < -NEAR):
                    return True
    return False


def spans(brush, view):
    flat = [view.flat(point) for point in corners(brush)]
    return [(min(c), max(c)) for c in zip(*flat)]


def overlap(a, b):
    return all(p[0] < q[1] and q[0] < p[1] for p, q in zip(a, b))


def farthest_first(brushes, view):
    """The brushes in an order in which a nearer one comes after those that it hides."""
    order = sorted(brushes, key=lambda brush: max(dot(p, view.eye) for p in corners(brush)))
    extents = [spans(brush, view) for brush in order]
    count = len(order)
    before = [set() for _ in order]
    for i in range(count):
        for j in range(i + 1, count):
            if overlap(extents[i], extents[j]):
                if lies_behind(order[i], order[j], view):
                    before[j].add(i)
                elif lies_behind(order[j], order[i], view):
                    before[i].add(j)
    drawn, left = [], list(range(count))
    while left:
        ready = next((k for k in left if not before[k].intersection(left)), left[0])
        drawn.append(order[ready])
        left.remove(ready)
    return drawn


def colour(material, light):
    """A hue for each material, as light as its face is turned to the light."""
    hue = zlib.crc32(material.encode()) % 360 / 360
    red, green, blue = colorsys.hls_to_rgb(hue, 0.30 + 0.45 * light, 0.35)
    return '#%02x%02x%02x' % tuple(round(255 * part) for part in (red, green, blue))


def seen_faces(brushes, view):
    """The faces that look at the eye, the farther ones first: of each its colour and its flat corners."""
    faces = []
    light = tuple(e + s for e, s in zip(view.eye, (0.0, 0.35, 0.6)))
    size = math.sqrt(dot(light, light))
    for brush in farthest_first(disjoint([brush for brush in brushes if brush]), view):
        for material, points in brush:
            n = normal(points)
            if dot(n, view.eye) > NEAR:
                shade = max(0.0, dot(n, light) / size)
                faces.append((colour(material, shade), [view.flat(p) for p in points]))
    return faces


def picture(maps, view):
    panels = [seen_faces(brushes, view) for brushes in maps]
    flat = [[p for _, points in faces for p in points] or [(0.0, 0.0)] for faces in panels]
    lefts, tops, rights, bottoms = zip(*([min(c) for c in zip(*points)] + [max(c) for c in zip(*points)] for points in flat))
    top, bottom = min(tops), max(bottoms)
    wide = sum(rights) - sum(lefts)
    room = WIDTH - 2 * MARGIN - GAP * (len(panels) - 1)
    scale = min(room / max(wide, 1.0), room / len(panels) / max(bottom - top, 1.0))
    height = round((bottom - top) * scale) + 2 * MARGIN
    lines = ['<svg xmlns="http://www.w3.org/2000/svg" viewBox="0 0 %d %d" stroke="#222" stroke-width="0.8" '
             'stroke-linejoin="round">' % (round(wide * scale) + 2 * MARGIN + GAP * (len(panels) - 1), height),
             '<rect width="100%" height="100%" fill="#fff" stroke="none"/>']
    begin = MARGIN
    for faces, left, right in zip(panels, lefts, rights):
        for fill, points in faces:
            places = ' '.join('%.1f,%.1f' % (begin + (x - left) * scale, MARGIN + (y - top) * scale) for x, y in points)
            lines.append('<polygon fill="%s" points="%s"/>' % (fill, places))
        begin += (right - left) * scale + GAP
    return '\n'.join(lines + ['</svg>', ''])


def main(words):
    texts = [word for word in words if word.endswith('.obj')]
    rest = words[len(texts):]
    if not texts or words[:len(texts)] != texts or len(rest) not in (1, 3):
        sys.exit(__doc__)
    azimuth, elevation = (float(word) for word in rest[1:]) if len(rest) == 3 else (235.0, 30.0)
    text = picture([read_brushes(path) for path in texts], View(azimuth, elevation))
    with open(rest[0], 'w', encoding='utf-8') as out:
        out.write(text)


if __name__ == '__main__':
    main(sys.argv[1:])
