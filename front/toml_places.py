"""Where the tables and keys of a TOML text stand: tomllib does not tell. The text has gone through tomllib before, so
that only what may stand somewhere is met there."""

import bisect
import re
import tomllib

BLANK = re.compile(r"(?:[ \t\r\n,]|#[^\n]*)*")
KEY = re.compile(r"""[ \t]*("(?:[^"\\\n]|\\.)*"|'[^'\n]*'|[A-Za-z0-9_-]+)[ \t]*""")
TEXT = re.compile(r'"""(?:[^\\]|\\.)*?"{3,5}|\'\'\'.*?\'{3,5}|"(?:[^"\\]|\\.)*"|\'[^\']*\'', re.DOTALL)
OTHER = re.compile(r"[^,\]}#\n]+")


class Scan:
    """`lines` has the line, from 1, of each path: ("prover", "metal"), ("run", 3), ("run", 3, "pulses")."""

    def __init__(self, text):
        self.text, self.lines, self.counts = text, {}, {}
        self.ends = [at for at, letter in enumerate(text) if letter == "\n"]
        table, at = (), self.blank(0)
        while at < len(text):
            if text[at] == "[":
                table, at = self.header(at)
            else:
                at = self.assignment(at, table)
            at = self.blank(at)

    def blank(self, at):
        return BLANK.match(self.text, at).end()

    def stands(self, path, at):
        self.lines.setdefault(path, bisect.bisect_left(self.ends, at) + 1)

    def key(self, at):
        """The parts of a key, prover.metal, and where it ends."""
        parts = []
        while True:
            match = KEY.match(self.text, at)
            word = match[1]
            parts.append(next(iter(tomllib.loads(f"{word} = 0"))) if word[0] in "\"'" else word)
            at = match.end()
            if self.text[at : at + 1] != ".":
                return parts, at
            at += 1

    def header(self, at):
        """[prover] and [[run]]; a table of a list is the last one of it."""
        many = self.text.startswith("[[", at)
        parts, end = self.key(at + 1 + many)
        path = ()
        for place, part in enumerate(parts, 1):
            path += (part,)
            if many and place == len(parts):
                self.counts[path] = self.counts.get(path, 0) + 1
            self.stands(path, at)
            if path in self.counts:
                path += (self.counts[path],)
        self.stands(path, at)
        return path, end + 1 + many

    def assignment(self, at, table):
        parts, end = self.key(at)
        path = table
        for part in parts:
            path += (part,)
            self.stands(path, at)
        return self.value(self.blank(end + 1), path)

    def value(self, at, path):
        """Past a value; a list's elements are numbered from 1, as runs are."""
        opening = self.text[at]
        if opening in "[{":
            at, number = self.blank(at + 1), 0
            while self.text[at] not in "]}":
                number += 1
                if opening == "{":
                    at = self.assignment(at, path)
                else:
                    self.stands((*path, number), at)
                    at = self.value(at, (*path, number))
                at = self.blank(at)
            return at + 1
        return (TEXT if opening in "\"'" else OTHER).match(self.text, at).end()


def lines_of(text):
    """The line of each path; none where the text is too deep to follow."""
    try:
        return Scan(text).lines
    except RecursionError:
        return {}


def words(path):
    """A key's place in words: 'run 3, pulses', '[prover], metal' and '[live], temperature, celsius'."""
    *table, key = path
    if not table:
        return key
    first, *inner = table
    if inner and isinstance(inner[0], int):
        return f"{first} {inner[0]}, {key}"
    return ", ".join((f"[{first}]", *map(str, inner), str(key)))
