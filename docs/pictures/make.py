#!/usr/bin/env python3
"""Makes the pictures of this folder from what the program exports. Run it at the top of the repository: python3 docs/pictures/make.py

Another program that understands `edit` and `export` may be named behind it.
"""
import os
import subprocess
import sys
import tempfile

HERE = os.path.dirname(os.path.abspath(__file__))
EMPTY = '{\n"classname" "worldspawn"\n"mapversion" "220"\n}\n'
BLOCK = 'material wall\nbox 0 0 0 96 96 96\nmaterial cut\n'

# The words of geometry: what stands before the command, and the command
WORDS = {
    'box': ('material floor\nbox 0 0 0 128 128 8', 'material wall\nbox 16 16 8 80 64 72'),
    'move': ('material floor\nbox 0 0 0 128 128 8\nmaterial wall\nbox 16 16 8 48 48 40', 'move 64 64 0 2'),
    'tex': ('material wall\nbox 0 0 0 96 96 96', 'tex 1 3 roof/tile 0 0 0 1 1'),
    'copy': ('material wall\nbox 0 0 0 64 64 64', 'copy 96 0 0 1'),
    'turn': ('material wall\nhull 0 0 0 128 0 0 0 64 0 128 64 0 0 0 32 0 64 32', 'turn z 1 0 0 0 1'),
    'flip': ('material wall\nhull 0 0 0 128 0 0 0 64 0 128 64 0 0 0 48 0 64 48', 'flip x 64 1'),
    'hull': ('material stone\nbox 0 0 0 64 64 8', 'hull 0 0 8 64 0 8 64 64 8 0 64 8 32 32 72'),
    'merge': ('material wall\nbox 0 0 0 64 64 32\nmaterial roof\nbox 64 0 0 128 64 96', 'merge 1 2'),
    'clip': (BLOCK, 'clip back 96 0 96 96 96 96 48 0 0 1'),
    'subtract': (BLOCK + 'box 32 -16 0 64 112 64', 'subtract 2 1'),
    'intersect': (BLOCK + 'box 32 32 32 128 128 128', 'intersect 1 2'),
    'hollow': (BLOCK, 'hollow 16 1\ndelete 5'),
    'vertex': (BLOCK, 'vertex 1 0 0 48 0 0 96 0 96 96'),
    'snap': ('material stone\nhull 5 3 0 90 12 0 104 78 0 12 93 0 40 50 82 60 52 78', 'snap 32 1'),
}
EXAMPLES = {'house': 'house.saved.map', 'room': 'room.saved.map'}


def edited(program, folder, script, name):
    """The OBJ of the empty map after a script."""
    made = os.path.join(folder, name + '.map')
    with open(os.path.join(folder, 'empty.map'), 'w') as out:
        out.write(EMPTY)
    answer = subprocess.run([program, 'edit', os.path.join(folder, 'empty.map'), made], input=script + '\n', text=True, capture_output=True, check=True)
    refused = [line for line in answer.stdout.splitlines() if line.startswith('no ')]
    if refused:
        raise SystemExit('%s: %s' % (script.splitlines()[-1], refused[0]))
    return exported(program, folder, made, name)


def exported(program, folder, map_file, name):
    obj = os.path.join(folder, name + '.obj')
    subprocess.run([program, 'export', map_file, obj], stdout=subprocess.DEVNULL, check=True)
    return obj


def draw(texts, name):
    subprocess.run([sys.executable, os.path.join(HERE, 'draw.py')] + texts + [os.path.join(HERE, name + '.svg')], check=True)


def main():
    top = os.path.dirname(os.path.dirname(HERE))
    program = os.path.abspath(sys.argv[1]) if len(sys.argv) > 1 else os.path.join(top, 'brushed')
    with tempfile.TemporaryDirectory() as folder:
        for word, (before, command) in WORDS.items():
            draw([edited(program, folder, before, 'before'), edited(program, folder, before + '\n' + command, 'after')], word)
        for name, saved in EXAMPLES.items():
            draw([exported(program, folder, os.path.join(top, 'examples', saved), name)], name)


main()
