#!/usr/bin/env python3
"""Blocks of the house format, for the scripts that make and damage them. Nothing is judged here.

    blocks.py list BLOCK      the words that write the file's block anew: side, mode number, and the numbers of each task
"""
import sys

# The mark, the most tasks, and sizes and places in bytes.
MARK = bytes([0x4D, 0x54])
MOST = 30
HEAD, RECORD, CHECK, SIZE = 8, 16, 508, 512
# A task's numbers in the order of a list, each with its place in a record and its bytes. The rest of a record is zero.
FIELDS = {"kind": (0, 1), "priority": (1, 1), "number": (2, 2), "T": (4, 2), "D": (6, 2), "C": (8, 2), "Y": (10, 2)}
# The kinds by the letters of the printed lines.
KINDS = {"o": 0, "a": 1, "n": 2}


def largest(field):
    """The largest number that fits a field."""
    return 256 ** FIELDS[field][1] - 1


def place(record, field="kind"):
    """Where a field of a record starts in its block."""
    return HEAD + RECORD * record + FIELDS[field][0]


def mended(block):
    """A block with the check that its other bytes ask for."""
    words = (int.from_bytes(block[k : k + 4], "little") for k in range(0, CHECK, 4))
    return bytes(block[:CHECK]) + (sum(words) % 2**32).to_bytes(SIZE - CHECK, "little")


def block(side, mode, tasks):
    """The block of some tasks; a task has a number for each field, by its name."""
    made = bytearray(SIZE)
    made[:HEAD] = MARK + bytes([side, len(tasks)]) + mode.to_bytes(2, "little") + bytes(2)
    for k, task in enumerate(tasks):
        for field, (_, width) in FIELDS.items():
            made[place(k, field) : place(k, field) + width] = task[field].to_bytes(width, "little")
    return mended(made)


def task(*numbers):
    """A task by the numbers of a list."""
    return dict(zip(FIELDS, numbers, strict=True))


def numbers(made):
    """The numbers of a block's tasks, as in a list."""
    for k in range(made[3]):
        for field, (_, width) in FIELDS.items():
            yield int.from_bytes(made[place(k, field) : place(k, field) + width], "little")


if __name__ == "__main__":
    if len(sys.argv) != 3 or sys.argv[1] != "list":
        sys.exit("usage: blocks.py list BLOCK")
    with open(sys.argv[2], "rb") as file:
        bytes_of = file.read()
    print(bytes_of[2], int.from_bytes(bytes_of[4:6], "little"), *numbers(bytes_of))
