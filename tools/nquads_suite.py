#!/usr/bin/env python3
"""Runs the W3C's public syntax tests of N-Quads against a built program.

    nquads_suite.py FOLDER PROGRAM

FOLDER is the suite's, with its `manifest.ttl` and the files that this names. Each file is given to `PROGRAM write` on
the standard input. A positive test must end with status 0 and nothing on the standard error, a negative one with
status 1 and `jl: bad line at PLACE`. A line is printed for each test that fails, and the counts at the end; the status
is 1 where a test failed. Where there is no FOLDER nothing is run, and the status is 0.
"""
import pathlib
import re
import subprocess
import sys

KIND = re.compile(r"rdft:TestNQuads(Positive|Negative)Syntax\b")
ACTION = re.compile(r"mf:action\s+<([^<>]+)>")
BAD_LINE = re.compile(rb"jl: bad line at [0-9]+\n")
SECONDS = 60


class BadManifest(Exception):
    """The manifest isn't one of tests of N-Quads."""


def uncommented(text):
    """The text without the lines that are comments."""
    return "\n".join(line for line in text.splitlines() if not line.lstrip().startswith("#"))


def tests_of(manifest):
    """The tests that a manifest lists, as pairs of a file's name and whether it is to be accepted."""
    text = uncommented(manifest)
    kinds = list(KIND.finditer(text))
    ends = [kind.start() for kind in kinds[1:]] + [len(text)]
    if not kinds:
        raise BadManifest("the manifest has no test of N-Quads")
    return [(file_in(text[kind.end():end]), kind.group(1) == "Positive") for kind, end in zip(kinds, ends)]


def file_in(test):
    """The one file that what the manifest says of a test names."""
    files = ACTION.findall(test)
    if len(files) != 1:
        raise BadManifest("a test of the manifest names %d files" % len(files))
    return files[0]


def fault_of(program, path, positive):
    """What is wrong with the program's answer to the file, or nothing."""
    try:
        with open(path, "rb") as file:
            run = subprocess.run([program, "write"], stdin=file, capture_output=True, timeout=SECONDS)
    except subprocess.TimeoutExpired:
        return "no end in %d seconds" % SECONDS
    except OSError as error:
        return str(error)
    return fault_in(run.returncode, run.stderr, positive)


def fault_in(status, said, positive):
    """What is wrong with a status and what was said, or nothing."""
    wanted = 0 if positive else 1
    if status != wanted:
        return "status %d in place of %d, and %r" % (status, wanted, said)
    fits = said == b"" if positive else BAD_LINE.fullmatch(said)
    return None if fits else "status %d as wanted, but %r" % (status, said)


def run_all(folder, program, tests):
    """Runs the tests, prints each that fails, and gives how many did."""
    failed = 0
    for name, positive in tests:
        fault = fault_of(program, folder / name, positive)
        if fault:
            failed += 1
            print("%s (%s): %s" % (name, "positive" if positive else "negative", fault))
    return failed


def main(words):
    if len(words) != 2:
        print(__doc__.strip(), file=sys.stderr)
        return 2
    folder, program = pathlib.Path(words[0]), words[1]
    if not folder.is_dir():
        print("skipped: there is no folder %s" % folder)
        return 0
    try:
        tests = tests_of((folder / "manifest.ttl").read_text(encoding="utf-8"))
    except (OSError, BadManifest) as error:
        print(error, file=sys.stderr)
        return 1
    failed = run_all(folder, program, tests)
    print("%d passed, %d failed" % (len(tests) - failed, failed))
    return 1 if failed else 0


if __name__ == "__main__":
    sys.exit(main(sys.argv[1:]))
