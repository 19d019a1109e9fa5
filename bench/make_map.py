"""Writes a map text of about 64 MiB to standard output: entities of brushes in Valve faces."""
import sys

FACES = """( -64 -64 -16 ) ( -64 -63 -16 ) ( -64 -64 -15 ) base/wall_02 [ 0 -1 0 0.5 ] [ 0 0 -1 0 ] 0 1 1
( -64 -64 -16 ) ( -64 -64 -15 ) ( -63 -64 -16 ) base/wall_02 [ 1 0 0 -12.25 ] [ 0 0 -1 0 ] 0 1 1
( -64 -64 -16 ) ( -63 -64 -16 ) ( -64 -63 -16 ) base/floor [ -1 0 0 0 ] [ 0 -1 0 0 ] 0 1 1
( 64 64 16 ) ( 64 65 16 ) ( 65 64 16 ) base/ceiling [ 1 0 0 0 ] [ 0 -1 0 0 ] 0 0.5 0.5
( 64 64 16 ) ( 65 64 16 ) ( 64 64 17 ) base/wall_02 [ -1 0 0 0 ] [ 0 0 -1 0 ] 0 1 1
( 64 64 16 ) ( 64 64 17 ) ( 64 65 16 ) __TB_empty [ 0 1 0 0 ] [ 0 0 -1 0 ] 0 1 1
"""
SIZE = 64 * 1024 * 1024


def main():
    out, written, entity = sys.stdout, 0, 0
    while written < SIZE - 4096:
        lines = ['// entity %d\n' % entity, '{\n', '"classname" "func_detail"\n', '"message" "door %d"\n' % entity]
        for brush in range(4):
            lines += ['// brush %d\n' % brush, '{\n', FACES, '}\n']
        lines.append('}\n')
        text = ''.join(lines)
        out.write(text)
        written += len(text)
        entity += 1


main()
