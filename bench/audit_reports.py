#!/usr/bin/env python3
"""Audits reports of random scripts, and the same reports injured, with two programs, and tells where they differ. Not part
of the gate.

    bench/audit_reports.py OTHER SOUND INJURED [FLAG ..]

OTHER is another program of the rules. With the words `gen SEED FLAG ..` it prints a random script, with `run` it reads a
script and prints the report, and with `audit` it reads a script with a report behind it and prints what an audit finds.
SOUND reports of scripts of seeds SEED, SEED + 1 and so on (SEED is 1 if it is not set) are to be found sound by both
programs; INJURED reports, of the same scripts in turn with one to three injuries each, are to be found the same by both.
PROGRAM names the program to be tried, if it is not the one that `./zeus` builds.

The last line says how many inputs were tried and how many differ; those that differ are kept in a folder, which is named,
and the exit status is then 1."""
import os
import random
import subprocess
import sys
import tempfile

WORDS = (
    "0 00 1 2 3 7 8 9 18446744073709551615 18446744073709551616 -1 x y a_ 'a ' ok failed begun new current pending passed"
    " acked refused valid invalid write lost copy object history tx end report * ! > = - 0,1 1,0 1, begin try"
).split()


def call(words, data):
    """What a program writes, and its exit status."""
    done = subprocess.run(words, input=data, stdout=subprocess.PIPE, check=False)
    return done.stdout, done.returncode


STATES = (b"new", b"current", b"pending", b"passed", b"acked", b"refused")
COPIES = (b"valid", b"invalid", b"write")
HEADS = (b"* ", b"! ", b"history", b"tx ", b"object ", b"copy ")


def gentle(pick, words):
    """Changes a number or a state, so that the line mostly keeps its shape."""
    place = pick.randrange(1, len(words)) if len(words) > 1 else 0
    word = words[place]
    if word.isdigit():
        words[place] = str(max(0, int(word) + pick.choice((-1, 1, 1)))).encode()
    elif word in STATES:
        words[place] = pick.choice(STATES)
    elif word in COPIES:
        words[place] = pick.choice(COPIES)
    elif b"," in word:
        words[place] = pick.choice((word[2:], word[:-2], b"-"))
    elif words[0] == b"history":
        words.append(b"0")
    else:
        words[place] = pick.choice(WORDS).encode()


def rough(pick, words):
    """Changes a word in any way."""
    place = pick.randrange(len(words))
    odd = pick.choice(WORDS).encode()
    kind = pick.randrange(5)
    if kind == 0:
        words[place] = odd
    elif kind == 1:
        words.insert(place, odd)
    elif kind == 2:
        words.insert(place, words[place])
    elif kind == 3:
        del words[place]
    else:
        words[place] = words[pick.randrange(len(words))]


def some_line(pick, lines):
    """A line: mostly one of a kind that rules speak of, each kind as often as another."""
    head = pick.choice(HEADS)
    told = [place for place, line in enumerate(lines) if line.startswith(head)]
    if told and pick.random() < 0.9:
        return pick.choice(told)
    return pick.randrange(len(lines))


def wreck(pick, lines):
    """One injury of the lines of a report."""
    place = some_line(pick, lines)
    kind = pick.randrange(12)
    if kind == 0:
        other = some_line(pick, lines)
        lines[place], lines[other] = lines[other], lines[place]
    elif kind == 1:
        lines.insert(place, lines[place])
    elif kind == 2 and len(lines) > 1:
        del lines[place]
    elif kind == 3 and lines[place]:
        at = pick.randrange(len(lines[place]))
        lines[place] = lines[place][:at] + bytes([pick.randrange(256)]) + lines[place][at + 1 :]
    elif lines[place]:
        words = lines[place].split(b" ")
        (rough if kind == 4 else gentle)(pick, words)
        lines[place] = b" ".join(words)


def injured(seed, report):
    """The report with one to three injuries, by the seed."""
    pick = random.Random(seed)
    lines = report.split(b"\n")[:-1]
    for _ in range(pick.choice((1, 1, 1, 2, 3))):
        wreck(pick, lines)
    text = b"\n".join(lines) + b"\n"
    end = pick.randrange(100)
    if end == 0:
        text = text[:-1]
    elif end == 1:
        text += b"end\n"
    elif end == 2:
        text += b" "
    elif end == 3:
        text = text[: pick.randrange(len(text) + 1)]
    return text


def inputs(other, sound, hurt, first, flags):
    """Each input with its name, and whether it is to be sound."""
    kept = []
    for seed in range(first, first + sound):
        script, _ = call([other, "gen", str(seed), *flags], b"")
        report, status = call([other, "run"], script)
        if status != 0:
            continue
        kept.append((script, report))
        yield f"sound-{seed}", script + report, True
    for number in range(hurt):
        script, report = kept[number % len(kept)]
        yield f"injured-{first + number}", script + injured(first + number, report), False


def built():
    """The program that the shell script builds if that is needed."""
    top = os.path.join(os.path.dirname(os.path.abspath(__file__)), "..")
    call([os.path.join(top, "zeus"), "run"], b"")
    return os.path.join(top, "crates", "zeus", "out", "zeus")


def main():
    if len(sys.argv) < 4:
        sys.exit(__doc__)
    other, flags = sys.argv[1], sys.argv[4:]
    program = os.environ.get("PROGRAM") or built()
    folder = tempfile.mkdtemp()
    tried = differ = 0
    for name, data, is_sound in inputs(other, int(sys.argv[2]), int(sys.argv[3]), int(os.environ.get("SEED", "1")), flags):
        one, two = call([program, "audit"], data), call([other, "audit"], data)
        tried += 1
        if one != two or (is_sound and one != (b"audit ok\n", 0)):
            differ += 1
            print(f"{name}: {one} and {two}")
            with open(os.path.join(folder, name), "wb") as file:
                file.write(data)
    print(f"{tried} inputs, {differ} differ")
    if differ:
        print(f"kept in {folder}")
        sys.exit(1)
    os.rmdir(folder)


if __name__ == "__main__":
    main()
