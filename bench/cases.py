"""Cases of a text: how bytes are spelled, and the parts of a case."""
import re


class NoCase(Exception):
    pass


# How bytes are spelled

def unspelled(text):
    parts = text.split(b'%')
    found = [parts[0]]
    for part in parts[1:]:
        if part.startswith(b'{'):
            match = re.fullmatch(rb'\{(\d+)\}(?:\(([^)]*)\)|([^(]))(.*)', part, re.S)
            if not match:
                raise NoCase('no spelling of bytes', part)
            found += [(match[3] if match[2] is None else match[2].replace(b';', b'\n')) * int(match[1]), match[4]]
        elif part:
            if not re.match(rb'[0-9A-Fa-f]{2}', part):
                raise NoCase('no spelling of bytes', part)
            found += [bytes([int(part[:2], 16)]), part[2:]]
    return b''.join(found)


def spelled(line):
    return ''.join('%%%02X' % byte if byte < 32 or byte > 126 or byte == 37 else chr(byte) for byte in line).encode()


def behind(mark, text):
    """The lines of a text, each behind a mark; a last line without a line feed gets a `%`."""
    lines = text.split(b'\n')
    last = lines.pop()
    return [mark + spelled(line) for line in lines] + ([mark + spelled(last) + b'%'] if last else [])


# The parts of a case

class Case:
    def __init__(self, text, texts):
        self.lines = text.split(b'\n')
        self.head = next((line for line in self.lines if not line.startswith(b'#')), b'#')
        self.kind, _, self.rest = self.head.partition(b' ')
        self.texts = texts

    def fields(self, name):
        return [line[len(name) + 2:] for line in self.lines if line.startswith(name + b': ')]

    def bytes(self, name):
        return unspelled((self.fields(name) or [b''])[0])

    def numbers(self, name):
        words = (self.fields(name) or [b''])[0].split()
        if not all(word.isdigit() and int(word) < 2 ** 32 for word in words):
            raise NoCase('no number, or one out of range', self.head)
        return [int(word) for word in words]

    def marked(self, mark):
        text = b''
        for line in self.lines:
            if line.startswith(mark):
                row = line[len(mark):]
                row = row[1:] if row.startswith(b' ') else row
                text += unspelled(row) + (b'' if row.endswith(b'%') else b'\n')
        return text

    def rows(self):
        return [line[2:] for line in self.lines if line.startswith(b'> ')]

    def named(self):
        if self.rest.decode() not in self.texts:
            raise NoCase('no text of this name', self.head)
        return self.texts[self.rest.decode()]


def with_line(text, change):
    """The text with another line, as `12: {` says."""
    number, _, line = change.partition(b':')
    lines = text.split(b'\n')
    if 0 < int(number) <= len(lines) - 1:
        lines[int(number) - 1] = unspelled(line[1:] if line.startswith(b' ') else line)
    return b'\n'.join(lines)
