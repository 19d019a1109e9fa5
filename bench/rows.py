#!/usr/bin/env python3
"""Writes the answers of worked rows, by a plain reference of the definitions and not by the product.

    rows.py REFERENCE answer [--stage K] < stdin > stdout     the cases with their answers
    rows.py REFERENCE strip < stdout > stdin                  a transcript without its answers: the cases
    rows.py REFERENCE write CRATE [--stage K]                 writes CRATE/stdout from CRATE/stdin
    rows.py REFERENCE check CRATE [--stage K]                 both files of a crate's folder agree with the reference

REFERENCE is the folder of the reference's modules, which is no part of this repository; K is its stage, 20 where none is given.
To add a case, write it into the `stdin` of `crates/part_rows` or `crates/run_rows`, whose first case says how cases look, and
then `rows.py REFERENCE write CRATE`.
"""
import os
import sys

sys.dont_write_bytecode = True
sys.path.insert(0, sys.argv[1])
import stages
from cases import Case, NoCase
from part_answers import CASES, ROWS
from run_answers import run
import shape_answers
import tree_answers

CASES[b'run'] = run
WHOLE = {**shape_answers.WHOLE, **tree_answers.WHOLE}

# How the lines of a case begin
PARTS = (b'#', b'>', b'|', b'pieces: ', b'vault fails: ', b'script fails: ', b'replies fail: ', b'before: ', b'behind: ', b'limit: ',
         b'places: ', b'retag: ', b'cuts: ', b'line ')


def answered(text, texts):
    """The lines of a case with their answers."""
    case = Case(text, texts)
    if not all(line == case.head or line.startswith(PARTS) for line in case.lines):
        raise NoCase('a line of no known form', text)
    if case.kind in ROWS:
        found = []
        for line in case.lines:
            found.append(line)
            if line.startswith(b'> '):
                found += ROWS[case.kind](case, line[2:])
        return found
    if case.kind in WHOLE:
        return WHOLE[case.kind](case)
    if case.kind in CASES:
        return case.lines + CASES[case.kind](case)
    if case.kind == b'text':
        texts.setdefault(case.rest.decode(), case.marked(b'|'))
    elif case.kind != b'#':
        raise NoCase('no kind of case', text)
    return case.lines


def answers(cases):
    texts, split = {}, cases.rstrip(b'\n').split(b'\n\n')
    rows = sum(line.startswith(b'>') for case in split for line in case.split(b'\n'))
    return b'\n\n'.join(b'\n'.join(answered(case, texts)) for case in split) + b'\n= %d cases, %d rows\n' % (len(split), rows)


def stripped(transcript):
    return b''.join(line + b'\n' for line in transcript.split(b'\n')[:-1] if not line.startswith((b'<', b'=')))


def file(crate, name):
    with open(os.path.join(crate, name), 'rb') as text:
        return text.read()


def main(words):
    stages.stage = int(words[words.index('--stage') + 1]) if '--stage' in words else 20
    if words[0] == 'check':
        good = answers(file(words[1], 'stdin')) == file(words[1], 'stdout') and stripped(file(words[1], 'stdout')) == file(words[1], 'stdin')
        print('the reference agrees' if good else 'the files differ from what the reference answers')
        return not good
    if words[0] == 'write':
        text = answers(file(words[1], 'stdin'))
        with open(os.path.join(words[1], 'stdout'), 'wb') as out:
            out.write(text)
        return 0
    given = sys.stdin.buffer.read()
    sys.stdout.buffer.write(answers(given) if words[0] == 'answer' else stripped(given))
    return 0


if __name__ == '__main__':
    try:
        sys.exit(main(sys.argv[2:]))
    except NoCase as fault:
        sys.exit(f'{fault.args[0]}: {fault.args[1:]}')
