#!/usr/bin/env python3
"""Cases for bench/solids.sh, bench/cutting.sh and bench/motions.sh: shape_cases.py KIND N."""
import sys

kind, times = sys.argv[1], int(sys.argv[2])


def plane(*points):
    return ' '.join('( %d %d %d )' % point for point in points)


BOWL = [plane((0, 0, z), (4, 0, z + i), (0, 4, z + j)) for i in range(-5, 6) for j in range(-5, 6) for z in [-64 * (i * i + j * j)]]
LEVEL = plane((0, 0, 2000), (0, 1, 2000), (1, 0, 2000))
WORLD, BOX, INNER = 'box ( -4096 -4096 -4096 ) ( 4096 4096 4096 )', 'box ( 0 0 0 ) ( 64 64 64 )', 'box ( 16 16 16 ) ( 48 48 48 )'
FACE = '( 64 64 16 ) ( 64 65 16 ) ( 65 64 16 ) a [ 1 0 0 5.25 ] [ 0 -1 0 -3 ] 0 0.5 1'


def rows(head, row):
    return [head] + ['> ' + row] * times


if kind == 'boxes':
    lines = rows('snaps', BOX + ' | 1')
elif kind == 'bowls':
    lines = '\n\n'.join(['\n> '.join(['polyhedron'] + BOWL)] * times).split('\n')
elif kind == 'splits':
    lines = rows('splits', ' / '.join([WORLD] + BOWL) + ' | ' + LEVEL)
elif kind == 'copies':
    lines = ['polyhedron'] + ['> ' + row for row in BOWL] + ['> %d times %s' % (times, LEVEL)]
elif kind == 'differences':
    lines = rows('differences', BOX + ' | ' + INNER)
elif kind == 'intersections':
    lines = rows('intersections', BOX + ' | box ( 32 32 32 ) ( 96 96 96 )')
else:
    lines = ['locked'] + ['> %d 16 -8 24 | %s' % (k % 48, FACE) for k in range(times)]
print('\n'.join(lines))
