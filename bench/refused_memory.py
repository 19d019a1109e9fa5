#!/usr/bin/env python3
"""Refuses each growth of memory in turn, and says what came of it.

    refused_memory.py REFERENCE PROGRAM

PROGRAM is `run_rows` as it was built (`rt run` in crates/run_rows makes crates/run_rows/out/run_rows), which runs a script over devices in memory; REFERENCE is the folder of the plain
reference of the definitions, as in rows.py. For each N the N-th growth of memory fails. The answers are right where they are those of all memory, or those of a script without one line, whose reply is
`memory`, or status 5 with no reply or with all of them, or a fault of a device over memory, which may fail where its list can't grow. Anything else is told as odd. Needs gcc.
"""
import collections
import os
import subprocess
import sys
import tempfile

here = os.path.dirname(os.path.abspath(__file__))
reference, program = sys.argv[1:3]
LINES = '''box 0 0 0 64 64 64
copy 128 0 0 1
turn z 1 0 0 0 2
clip both 32 0 0 32 1 0 32 0 1 1
tie func_door 1
set 4 speed 100
tex 2 0 a 1 2 3 4 5
group hall 2
layer upper
into 6 5
freeze 6
show 2
uv 2 0 1 2 3
tree
undo
redo'''.split('\n')
HEAD = 'text me.map\n| {\n| "classname" "worldspawn"\n| "mapversion" "220"\n| }\n\nrun edit me.map out.map\n'


def case(lines):
    return (HEAD + ''.join(f'> {line}\n' for line in lines)).encode()


def parts(transcript):
    """The replies of the run, and its status with what is kept."""
    lines = [line for line in transcript.split('run edit')[1].split('\n') if line.startswith(('<', '=')) and not line.startswith('= 2 cases')]
    return [line for line in lines if line.startswith('<')], [line for line in lines if line.startswith('=')]


def by_reference(lines):
    words = [sys.executable, os.path.join(here, 'rows.py'), reference, 'answer']
    return parts(subprocess.run(words, input=case(lines), capture_output=True, check=True).stdout.decode())


def without(k):
    """The answers where line k wants memory."""
    before = by_reference(LINES[:k])[0] if k else []
    replies, end = by_reference(LINES[:k] + ['# nothing'] + LINES[k + 1:])
    return replies[:len(before)] + ['< memory'] + replies[len(before):], end


def kind(transcript, whole, wanting):
    if 'run edit' not in transcript or '= status' not in transcript:
        return 'the program of rows itself wanted memory'
    found = parts(transcript)
    if found == whole:
        return 'as with all memory'
    for k, answers in enumerate(wanting):
        if found == answers:
            return 'memory for a line: ' + LINES[k].split()[0]
    if found[1] == ['= status 5'] and found[0] in ([], whole[0]):
        return 'status 5 after the last line' if found[0] else 'status 5 before the first line'
    if found[1] in (['= status 2'], ['= status 3']) and found[0] == whole[0][:len(found[0])]:
        return 'a device over memory failed'
    return 'odd'


with tempfile.TemporaryDirectory() as folder:
    shim = os.path.join(folder, 'refused.so')
    subprocess.run(['gcc', '-shared', '-fPIC', '-O2', '-o', shim, os.path.join(here, 'refused_memory.c'), '-ldl'], check=True)

    def run(**more):
        return subprocess.run([program], input=case(LINES), capture_output=True, env={**os.environ, 'LD_PRELOAD': shim, **more})

    whole, wanting = by_reference(LINES), [without(k) for k in range(len(LINES))]
    total = int(run(FAIL_COUNT='1').stderr.split()[-1])
    counts = collections.Counter(kind(run(FAIL_ALLOC=str(n)).stdout.decode(errors='replace'), whole, wanting) for n in range(1, total + 1))
    print(f'{total} growths, each refused once:')
    for name, count in sorted(counts.items()):
        print(f'{count:6} {name}')
