#!/usr/bin/env python3
"""Reads a sheet from standard input, plans it with seed 1 and 1,000 rounds, judges the plan and
prints the sheet with its starts. Refused, it prints the number and the line, as the plan program
does. The exit status is 0 for a plan, 1 for a refusal, 2 where something else went wrong: what was
printed is then not to be used.

A plan that the sheet came with is replaced; what judging it answers is said on standard error.

The library is the shared object NESBRUNKA_SO, by default target/libnesbrunka.so of this repository;
README.md has the command that makes it.
"""
import os
import sys
from contextlib import suppress
from ctypes import CDLL, POINTER, Structure, c_size_t, c_uint8, c_uint16, c_uint32
from pathlib import Path

# Names and values as in include/nesbrunka.h.
PATHS, CELLS, LABEL, LABELS, SHEET_MOST = 128, 16384, 8, 1024, 45489
DONE, REFUSED_CLASH = 0, 8

# A table is passed as a pointer and then its number of cells.
BYTES = [POINTER(c_uint8), c_size_t]
NUMBERS = [POINTER(c_uint16), c_size_t]


class Answer(Structure):
    """What every answer begins with; the fields of a subclass come after these."""
    _fields_ = [("number", c_size_t), ("place", c_size_t)]


class Judged(Answer):
    _fields_ = [("short", c_size_t)]


class Planned(Answer):
    _fields_ = [("highest", c_size_t), ("kept", c_size_t)]


class SheetRead(Answer):
    _fields_ = [("n", c_size_t)]


class SheetWritten(Answer):
    _fields_ = [("length", c_size_t)]


def call(library, name, answer, *kinds):
    """The call of that name, with the types of its answer and of what it is given."""
    function = library["nesbrunka_" + name]
    function.restype, function.argtypes = answer, kinds
    return function


def done(name, answer):
    """The answer, if it is no refusal: a sheet that was read is planned, valid and written."""
    if answer.number != DONE:
        raise RuntimeError(f"{name}: refused {answer.number} at {answer.place}")
    return answer


def label(labels, path):
    """The label of a path, without the zero bytes that fill it."""
    return bytes(labels[LABEL * path : LABEL * (path + 1)]).rstrip(b"\0").decode()


def said(judged, labels):
    """What is said of the sheet's own plan, which is valid or has a clash."""
    if judged.number != REFUSED_CLASH:
        done("judge", judged)
        return "the sheet's plan is valid"
    a, b = (label(labels, path) for path in divmod(judged.place, PATHS))
    slots = "slot" if judged.short == 1 else "slots"
    return f"the sheet's plan: {a} and {b} are {judged.short} {slots} short"


def planned(library, sheet):
    """The exit status, and what is printed."""
    read = call(library, "read", SheetRead, *BYTES, *BYTES, *NUMBERS, *BYTES, *NUMBERS)
    plan = call(library, "plan", Planned, c_size_t, *NUMBERS, *BYTES, *BYTES, *NUMBERS, c_uint32,
                c_size_t)
    judge = call(library, "judge", Judged, c_size_t, *NUMBERS, *BYTES, *NUMBERS)
    write = call(library, "write", SheetWritten, c_size_t, *BYTES, *NUMBERS, *BYTES, *NUMBERS,
                 *BYTES)

    text = (c_uint8 * (SHEET_MOST + 1))(*sheet)
    labels = (c_uint8 * LABELS)(), LABELS
    widths = (c_uint16 * PATHS)(), PATHS
    guards = (c_uint8 * CELLS)(), CELLS
    starts = (c_uint16 * PATHS)(), PATHS
    order = (c_uint8 * PATHS)(), PATHS

    found = read(text, len(sheet), *labels, *widths, *guards, *starts)
    if found.number != DONE:
        return 1, b"refused %d line %d\n" % (found.number, found.place)
    n = found.n

    def judged():
        return judge(n, *widths, *guards, *starts)

    if starts[0][0] != 0:  # A sheet has all its starts or none.
        say(said(judged(), labels[0]))
    plan_found = done("plan", plan(n, *widths, *guards, *order, *starts, 1, 1000))
    done("judge", judged())
    written = done("write", write(n, *labels, *widths, *guards, *starts, text, len(text)))
    say(f"{n} paths, highest slot {plan_found.highest}, {plan_found.kept} swaps kept")
    return 0, bytes(text[: written.length])


def say(words):
    """On standard error, as far as that takes it: what is said there changes no answer."""
    with suppress(OSError):
        os.write(2, f"{words}\n".encode())


def main():
    built = Path(__file__).resolve().parents[2] / "target" / "libnesbrunka.so"
    try:
        library = CDLL(os.environ.get("NESBRUNKA_SO", str(built)))
        # One byte more than the longest sheet: a longer text is refused by these bytes alone.
        with open(0, "rb", closefd=False) as source:
            sheet = source.read(SHEET_MOST + 1)
        status, printed = planned(library, sheet)
        with open(1, "wb", closefd=False) as output:
            output.write(printed)
        return status
    except Exception as trouble:  # Python's own status for it would be 1, a refusal.
        say(f"plan.py: {trouble}")
        return 2


if __name__ == "__main__":
    sys.exit(main())
