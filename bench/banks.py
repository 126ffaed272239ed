#!/usr/bin/env python3
"""Compares banks of `zeus_bank` with those of an independent program, and tells each that differs.

    bench/banks.py ZEUS_BANK OTHER [COUNT [SEED]]

ZEUS_BANK and OTHER are commands that take the words `bank` and six numbers, print the text and end by its status: a built
program, or a shell script around one. COUNT banks (500 if not given) have random numbers; each fourth has some of them at
an end of its range. The last line is the count of banks, of those whose transactions are all closed, and of differences.
Not part of the gate."""
import random
import subprocess
import sys

# The least and the greatest of each number, and the greatest that a random bank takes mostly.
RANGES = (
    ("accounts", 1, 128, 64),
    ("txs", 0, 10_000, 200),
    ("steps", 0, 50_000, 4_000),
    ("loss", 0, 100, 20),
    ("stops", 0, 7, 3),
    ("start", 0, 2**64 - 1, 2**64 - 1),
)


def drawn(source, at_ends):
    """Returns the six numbers of a bank."""
    numbers = []
    for _name, least, greatest, most in RANGES:
        if at_ends and source.random() < 0.4:
            numbers.append(source.choice((least, greatest)))
        else:
            numbers.append(source.randint(least, most))
    return numbers


def answer(command, numbers):
    """Returns what a program prints of the bank, and its status."""
    words = command.split() + ["bank"] + [str(number) for number in numbers]
    ended = subprocess.run(words, stdin=subprocess.DEVNULL, capture_output=True, check=False)
    return ended.returncode, ended.stdout


def main():
    ours, other = sys.argv[1:3]
    count = int(sys.argv[3]) if len(sys.argv) > 3 else 500
    source = random.Random(int(sys.argv[4]) if len(sys.argv) > 4 else 1)
    differences = 0
    finished = 0
    for number in range(count):
        numbers = drawn(source, number % 4 == 3)
        own, others = answer(ours, numbers), answer(other, numbers)
        finished += own[0] == 0
        if own != others:
            differences += 1
            print("differs: bank", *numbers, flush=True)
    print(f"{count} banks, {finished} finished, {differences} differences")
    return 1 if differences else 0


if __name__ == "__main__":
    sys.exit(main())
