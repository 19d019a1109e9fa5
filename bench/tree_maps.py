"""Writes a map text to standard output: `boxes N`, a world of N boxes; `chain N`, N groups, each of which lies in the next one of
the file, with one box in the first; `ring N`, the same with the last group in the first one."""
import sys

FACES = (((0, 0, 0), (0, 1, 0), (0, 0, 1), '[ 0 -1 0 0 ] [ 0 0 -1 0 ]'),
         ((0, 0, 0), (0, 0, 1), (1, 0, 0), '[ 1 0 0 0 ] [ 0 0 -1 0 ]'),
         ((0, 0, 0), (1, 0, 0), (0, 1, 0), '[ -1 0 0 0 ] [ 0 -1 0 0 ]'),
         ((8, 8, 32), (8, 9, 32), (9, 8, 32), '[ 1 0 0 0 ] [ 0 -1 0 0 ]'),
         ((8, 8, 32), (9, 8, 32), (8, 8, 33), '[ -1 0 0 0 ] [ 0 0 -1 0 ]'),
         ((8, 8, 32), (8, 8, 33), (8, 9, 32), '[ 0 1 0 0 ] [ 0 0 -1 0 ]'))


def box(out, i):
    corner = (-4000 + 15 * (i % 512), -4000 + 60 * (i // 512) % 8000, -64)
    out.append('{')
    for *points, axes in FACES:
        places = ' '.join('( %d %d %d )' % tuple(c + d for c, d in zip(corner, point)) for point in points)
        out.append('%s WALL_%d %s 0 1 1' % (places, i % 97, axes))
    out.append('}')


def boxes(out, count):
    out += ['{', '"classname" "worldspawn"', '"mapversion" "220"']
    for i in range(count):
        box(out, i)
    out.append('}')


def groups(out, count, last):
    out += ['{', '"classname" "worldspawn"', '"mapversion" "220"', '}']
    for k in range(1, count + 1):
        out += ['{', '"classname" "func_group"', '"_tb_type" "_tb_group"', '"_tb_name" "g%d"' % k, '"_tb_id" "%d"' % k]
        above = k + 1 if k < count else last
        if above:
            out.append('"_tb_group" "%d"' % above)
        if k == 1:
            box(out, 0)
        out.append('}')


def main():
    kind, count, out = sys.argv[1], int(sys.argv[2]), []
    if kind == 'boxes':
        boxes(out, count)
    else:
        groups(out, count, 1 if kind == 'ring' else 0)
    print('\n'.join(out))


main()
