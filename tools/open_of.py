#!/usr/bin/env python3
"""Writes what has been read of a JSON text by a prefix of its bytes, as data of `Rattle.jl_defs.specs.OpenTree`.

    open_of.py COUNT FILE      or      open_of.py COUNT < FILE

It serves to write rows; no proof rests on it.
"""
import sys

from tree_of import Reader, text, wrapped


class Front(Reader):
    """Reads the first bytes of one JSON text that is known to be readable."""

    def __init__(self, data, count):
        super().__init__(data)
        self.count = count

    def over(self):
        return self.at >= self.count

    def is_closed(self):
        """The value at this place ends among the bytes that have been read; a number needs one more."""
        back, whole = self.at, Reader(self.data)
        whole.at = self.at
        term = whole.value()
        number = self.data[back:back + 1] in b"-0123456789"
        if whole.at + (1 if number else 0) <= self.count:
            self.at = whole.at
            return term
        return None

    def open_value(self):
        """The value, closed or open: a pair of its tree, where it has closed, and its open form."""
        self.blanks()
        if self.over():
            return None, "unread"
        closed = self.is_closed()
        if closed:
            return closed, None
        at, byte = self.at, self.data[self.at:self.at + 1]
        if byte == b"{":
            return None, self.open_object(at)
        if byte == b"[":
            return None, self.open_array(at)
        return None, "in_scalar %d %s" % (at, "quote" if byte == b'"' else "sign")

    def open_array(self, at):
        self.at += 1
        found = []
        while True:
            term, opened = self.open_value()
            if term is None:
                break
            found.append(term)
            self.blanks()
            if self.over():
                opened = "unread"
                break
            self.at += 1
        closed = "no_item"
        for item in reversed(found):
            closed = "item (%s) %s" % (item, wrapped(closed))
        return "in_array %d %s %s" % (at, wrapped(closed), wrapped(opened))

    def open_object(self, at):
        self.at += 1
        found, ends = [], []

        def closed():
            term = "no_member"
            for key_at, name, value in reversed(found):
                term = "member %d (%s) (%s) %s" % (key_at, name, value, wrapped(term))
            return "%s %s" % (wrapped(term), wrapped(" ∷ ".join([str(e) for e in ends] + ["[]"])))

        while True:
            self.blanks()
            if self.over():
                return "in_object %d %s" % (at, closed())
            key_at, name = self.at, self.string()
            if self.at > self.count:
                return "in_key %d %s %d" % (at, closed(), key_at)
            self.blanks()
            opened = "unread"
            if not self.over():
                self.at += 1
                term, opened = self.open_value()
                if term is not None:
                    found.append((key_at, text(name), term))
                    ends.append(self.at)
                    self.blanks()
                    if self.over():
                        continue
                    self.at += 1
                    continue
            return "in_member %d %s %d (%s) %s" % (at, closed(), key_at, text(name), wrapped(opened))

    def document(self):
        term, opened = self.open_value()
        return opened if term is None else "whole (%s)" % term


if __name__ == "__main__":
    size = int(sys.argv[1])
    source = open(sys.argv[2], "rb").read() if len(sys.argv) > 2 else sys.stdin.buffer.read()
    print(Front(source, size).document())
