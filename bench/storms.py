#!/usr/bin/env python3
"""Compares storms of `zeus` with those of an independent program, and tells each that differs.

    bench/storms.py ZEUS OTHER [COUNT [SEED]]

ZEUS and OTHER are commands that take the words `storm` and eight numbers, print the summary and end by its status: a built
program, or a shell script around one. COUNT storms (2,000 if not given) have random numbers; each fourth has some of them
at an end of its range. The last line is the count of storms and of differences. Not part of the gate."""
import random
import subprocess
import sys

# The least and the greatest of each number, and the greatest that a random storm takes mostly.
RANGES = (
    ("nodes", 1, 8, 8),
    ("slots", 1, 8, 8),
    ("objects", 1, 256, 64),
    ("txs", 0, 10_000, 200),
    ("steps", 0, 50_000, 4_000),
    ("loss", 0, 100, 20),
    ("stops", 0, 7, 3),
    ("start", 0, 2**64 - 1, 2**64 - 1),
)


def drawn(source, at_ends):
    """Returns the eight numbers of a storm."""
    numbers = []
    for _name, least, greatest, most in RANGES:
        if at_ends and source.random() < 0.4:
            numbers.append(source.choice((least, greatest)))
        else:
            numbers.append(source.randint(least, most))
    return numbers


def answer(command, numbers):
    """Returns what a program prints of the storm, and its status."""
    words = command.split() + ["storm"] + [str(number) for number in numbers]
    ended = subprocess.run(words, stdin=subprocess.DEVNULL, capture_output=True, check=False)
    return ended.returncode, ended.stdout


def main():
    ours, other = sys.argv[1:3]
    count = int(sys.argv[3]) if len(sys.argv) > 3 else 2_000
    source = random.Random(int(sys.argv[4]) if len(sys.argv) > 4 else 1)
    differences = 0
    finished = 0
    for number in range(count):
        numbers = drawn(source, number % 4 == 3)
        found, wanted = answer(ours, numbers), answer(other, numbers)
        finished += wanted[0] == 0
        if found != wanted:
            differences += 1
            print("differs: storm", *numbers)
            print(f"  {ours}: status {found[0]}\n{found[1].decode()}")
            print(f"  {other}: status {wanted[0]}\n{wanted[1].decode()}")
    print(f"{count} storms, of which {finished} finish: {differences} differences")
    return 1 if differences else 0


if __name__ == "__main__":
    sys.exit(main())
