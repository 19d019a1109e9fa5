"""What a run answers, by the reference of the program over devices in memory."""
import itertools

import build_tree
import program
import stages
from cases import NoCase, behind, unspelled, with_line

# What the program knows today. Other words are refused as not built, and so are maps that ask for links; there are no other forms.
WORDS = frozenset(b'box clip copy delete entity flip freeze group hollow hull intersect into layer lock material merge move pick redo set show snap subtract tex thaw tie tree turn undo '
                  b'ungroup unset untie uv vertex'.split())
FORMS = ('edit', 'check', 'export')

refuse_by_stage = build_tree.refuse_not_built


def refuse_links(raw):
    # The last request before those of links.
    stage, stages.stage = stages.stage, 8
    try:
        refuse_by_stage(raw)
    finally:
        stages.stage = stage


stages.word_built = lambda word: word in WORDS
build_tree.refuse_not_built = refuse_links


# Stand-ins for the devices of a run: calls are counted from 1, and the numbered ones fail

class Script:
    def __init__(self, text, piece, fails):
        self.text, self.piece, self.fails, self.calls, self.at = text, piece, fails, 0, 0

    def read(self, n):
        self.calls += 1
        if self.calls in self.fails:
            raise OSError
        piece = self.text[self.at:self.at + min(n, self.piece)]
        self.at += len(piece)
        return piece


class Replies:
    def __init__(self, fails):
        self.given, self.fails, self.calls = b'', fails, 0

    def write(self, text):
        self.calls += 1
        if self.calls in self.fails:
            raise OSError
        self.given += text

    def flush(self):
        pass


class Vault:
    """In the place of the files of the reference."""

    def __init__(self, texts, fails):
        self.texts, self.fails, self.calls, self.kept = texts, fails, 0, []

    def fails_now(self):
        self.calls += 1
        return self.calls in self.fails

    def fetch(self, name):
        if self.fails_now() or name not in self.texts:
            raise program.Ended(program.READ_FAULT)
        if len(self.texts[name]) > program.MOST_BYTES:
            raise program.Ended(program.TOO_LONG)
        return self.texts[name]

    def keep(self, name, text):
        if self.fails_now():
            raise program.Ended(program.WRITE_FAULT)
        self.texts[name] = text
        self.kept.append((name, text))


def changed(case, text):
    for line in case.lines:
        if line.startswith(b'line '):
            text = with_line(text, line[5:])
    return text


def replied(text):
    """The lines of the replies; one that comes more than three times in a row is told once."""
    found = []
    for line, alike in itertools.groupby(behind(b'< ', text)):
        times = len(list(alike))
        found += [line] * times if times <= 3 else [line, b'= so %d times' % times]
    return found


def outcome(case, piece, cut=None):
    words = [unspelled(word).decode() for word in case.head.split(b' ')[1:]]
    held = {word: changed(case, case.texts[word])[:cut] for word in words if word in case.texts}
    vault = Vault(held, case.numbers(b'vault fails'))
    program.fetch, program.keep = vault.fetch, vault.keep
    script = Script(case.marked(b'>'), piece, case.numbers(b'script fails'))
    replies = Replies(case.numbers(b'replies fail'))
    status = program.run(words, script, replies) if words[:1] and words[0] in FORMS else program.USAGE
    found = replied(replies.given) + [b'= status %d' % status]
    for name, text in vault.kept:
        same = next((it for it in case.texts if case.texts[it] == text), None)
        found += [b'= %s is %s' % (name.encode(), same.encode())] if same is not None else [b'= ' + name.encode()] + behind(b'=| ', text)
    return found


def cuts(case, first, last):
    """What comes of the first bytes of the texts, where it is another than that of a byte less."""
    found, before = [], None
    for length in range(first, last + 1):
        now = outcome(case, 4096, length)
        found += [b'= cut after %d' % length] + now if now != before else []
        before = now
    return found


def run(case):
    if case.numbers(b'cuts'):
        return cuts(case, *case.numbers(b'cuts'))
    found, before = [], None
    for piece in case.numbers(b'pieces') or [4096]:
        if piece == 0:
            raise NoCase('no number, or one out of range', case.head)
        now = outcome(case, piece)
        found += [b'= the same in pieces of %d' % piece] if now == before else [b'= in pieces of %d' % piece] * (before is not None) + now
        before = now
    return found
