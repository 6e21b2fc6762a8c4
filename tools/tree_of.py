#!/usr/bin/env python3
"""Writes the tree of a JSON text, with its places, as data of `Rattle.jl_model.specs.JsonTree`.

    tree_of.py FILE      or      tree_of.py < FILE

It serves to write rows; no proof rests on it.
"""
import sys


def text(raw):
    """A byte string as a term."""
    if all(32 <= c < 127 for c in raw):
        escaped = raw.decode().replace("\\", "\\\\").replace('"', '\\"')
        return 'codes "%s"' % escaped if raw else "[]"
    return " ∷ ".join(str(c) for c in raw) + " ∷ []"


class Reader:
    """Reads one JSON text that is known to be readable."""

    def __init__(self, data):
        self.data, self.at = data, 0

    def blanks(self):
        while self.at < len(self.data) and self.data[self.at] in b" \t\r\n":
            self.at += 1

    def value(self):
        self.blanks()
        at, byte = self.at, self.data[self.at:self.at + 1]
        if byte == b"{":
            return "object %d %s" % (at, wrapped(self.members()))
        if byte == b"[":
            return "array %d %s" % (at, wrapped(self.items()))
        if byte == b'"':
            return "scalar %d (Str (%s))" % (at, text(self.string()))
        for word, term in ((b"null", "Null"), (b"true", "(truth true)"), (b"false", "(truth false)")):
            if self.data.startswith(word, at):
                self.at += len(word)
                return "scalar %d %s" % (at, term)
        while self.at < len(self.data) and self.data[self.at] in b"+-.0123456789eE":
            self.at += 1
        return "scalar %d (Number (%s))" % (at, text(self.data[at:self.at]))

    def string(self):
        end = self.at + 1
        while self.data[end] != 34:
            end += 2 if self.data[end] == 92 else 1
        raw, self.at = self.data[self.at + 1:end], end + 1
        return unescaped(raw)

    def items(self):
        self.at += 1
        found = []
        self.blanks()
        while self.data[self.at] != 93:
            found.append(self.value())
            self.blanks()
            if self.data[self.at] == 44:
                self.at += 1
        self.at += 1
        term = "no_item"
        for item in reversed(found):
            term = "item (%s) %s" % (item, wrapped(term))
        return term

    def members(self):
        self.at += 1
        found = []
        self.blanks()
        while self.data[self.at] != 125:
            at, name = self.at, self.string()
            self.blanks()
            self.at += 1
            found.append((at, text(name), self.value()))
            self.blanks()
            if self.data[self.at] == 44:
                self.at += 1
                self.blanks()
        self.at += 1
        term = "no_member"
        for at, name, value in reversed(found):
            term = "member %d (%s) (%s) %s" % (at, name, value, wrapped(term))
        return term


def wrapped(term):
    return "(%s)" % term if " " in term else term


def unescaped(raw):
    """The bytes of a string behind its escapes."""
    out, units, i = b"", [], 0
    simple = {"b": 8, "f": 12, "n": 10, "r": 13, "t": 9}
    while i < len(raw):
        if raw[i] != 92:
            out, units = out + raw[i:i + 1], []
            i += 1
        elif raw[i + 1:i + 2] == b"u":
            unit = int(raw[i + 2:i + 6], 16)
            i += 6
            if 0xD800 <= unit < 0xDC00:
                units = [unit]
            elif units:
                out += chr(0x10000 + ((units[0] - 0xD800) << 10) + (unit - 0xDC00)).encode()
                units = []
            else:
                out += chr(unit).encode()
        else:
            mark = raw[i + 1:i + 2].decode()
            out += bytes([simple[mark]]) if mark in simple else mark.encode()
            i += 2
    return out


if __name__ == "__main__":
    source = open(sys.argv[1], "rb").read() if len(sys.argv) > 1 else sys.stdin.buffer.read()
    print(Reader(source).value())
