#!/usr/bin/env python3
"""Runs two programs on the same random scripts of leases, every second of them injured, and tells where the bytes that they
write or their exit statuses differ. Not part of the gate.

    bench/lease_scripts.py OTHER COUNT [FIRST]

OTHER is another program of the rules of leases: with the word `lease` it reads a script from standard input and prints what
this program has to print. The scripts are those of the seeds FIRST, FIRST + 1 and so on (1 if it is not given). The variable
PROGRAM names the program to be tried, if it is not the one that `./zeus` builds.

The last line says how many scripts were tried, how many of them were no scripts, and how many differ; the first that differs
is printed before it, and the exit status is then 1."""
import os
import random
import subprocess
import sys

TOP = os.path.dirname(os.path.dirname(os.path.realpath(__file__)))
ODD = ["", "0", "1", "00", "7", "8", "9", "x", "-1", "+1", "100", "101", "4294967295", "4294967296", "18446744073709551615",
       "18446744073709551616", "leases", "nodes", "length", "percent", "pass", "ask", "hear", "take", "act", "view", "end"]


def passed(rng, nodes, percent):
    """Returns how far each clock goes on, and then the service's; now and then more than the percentage allows."""
    if rng.random() < 0.05:
        return [rng.choice([0, 1, 100, 4294967295]) for _ in range(nodes + 1)]
    slow = rng.choice([0, 1, 2, 10, 60, 1000, 4294967295 // 2 - 1])
    ticks = [slow + rng.randint(0, slow * percent // 100) for _ in range(nodes + 1)]
    if rng.random() < 0.1:
        ticks[rng.randrange(nodes + 1)] += 1
    return ticks


def step(rng, nodes, percent, asks, grants):
    """Returns a step: its word and its numbers."""
    word = rng.choice(["pass", "pass", "ask", "ask", "hear", "hear", "take", "take", "act", "act", "act", "view"])
    if word == "pass":
        return [word] + passed(rng, nodes, percent)
    if word in ("ask", "act"):
        return [word, rng.randrange(nodes)]
    if word in ("hear", "take"):
        return [word, rng.randint(0, max(0, (asks if word == "hear" else grants) - rng.randint(0, 1)))]
    keep = rng.choice([0.5, 0.8, 0.9])
    return [word] + [node for node in range(nodes) if rng.random() < keep]


def script(rng):
    """Returns a random script of leases."""
    nodes = rng.randint(1, 8)
    percent = rng.choice([0, 1, 10, 33, 100])
    length = rng.choice([1, 2, 10, 99, 1000, 4294967295])
    lines = [["leases", 1], ["nodes", nodes], ["length", length], ["percent", percent]]
    asks = 0
    for _ in range(rng.randint(0, 80)):
        line = step(rng, nodes, percent, asks, asks)
        asks += line[0] == "ask"
        lines.append(line)
    lines.append(["end"])
    return "".join(" ".join(map(str, line)) + "\n" for line in lines).encode()


def injure_line(rng, lines):
    """Changes one line: gone, doubled, moved, or with a word that is gone, doubled, moved or another one."""
    at = rng.randrange(min(len(lines), 7)) if rng.random() < 0.4 else rng.randrange(len(lines))
    words = lines[at].split(" ")
    word = rng.randrange(len(words))
    kind = rng.randrange(7)
    if kind == 0 and len(lines) > 1:
        del lines[at]
    elif kind == 1:
        lines.insert(at, lines[at])
    elif kind == 2:
        lines.insert(rng.randrange(len(lines)), lines.pop(at))
    else:
        if kind == 3:
            words[word] = rng.choice(ODD)
        elif kind == 4:
            words.insert(word, rng.choice(ODD))
        elif kind == 5:
            del words[word]
        else:
            words.append(words.pop(word))
        lines[at] = " ".join(words)


def injured(rng, text):
    """Returns the script with one to three injuries."""
    for _ in range(rng.randint(1, 3)):
        kind = rng.randrange(8)
        if kind == 0 and text:
            text = text[:rng.randrange(len(text))]
        elif kind == 1:
            text += rng.choice([b"\n", b" ", b"end\n", b"ask 0\n"])
        elif kind == 2 and text:
            at = rng.randrange(len(text))
            text = text[:at] + bytes([rng.randrange(256)]) + text[at + 1:]
        elif text:
            lines = text.decode("latin-1").removesuffix("\n").split("\n")
            injure_line(rng, lines)
            text = ("\n".join(lines) + "\n").encode("latin-1")
    return text


def case(seed):
    """Returns the script of a seed; that of every second one is injured."""
    rng = random.Random(seed)
    text = script(rng)
    return injured(rng, text) if seed % 2 else text


def answer(program, text):
    """Returns what a program writes about a script, and its exit status."""
    run = subprocess.run([program, "lease"], input=text, stdout=subprocess.PIPE, check=False)
    return run.stdout, run.returncode


def main():
    """Tries the scripts."""
    if len(sys.argv) not in (3, 4):
        sys.exit(__doc__)
    first = int(sys.argv[3]) if len(sys.argv) == 4 else 1
    program = os.environ.get("PROGRAM")
    if program is None:
        subprocess.run([os.path.join(TOP, "zeus"), "run"], stdin=subprocess.DEVNULL, stdout=subprocess.DEVNULL, check=False)
        program = os.path.join(TOP, "crates/zeus/out/zeus")
    faulty = differ = 0
    for seed in range(first, first + int(sys.argv[2])):
        text = case(seed)
        here, there = answer(program, text), answer(sys.argv[1], text)
        faulty += there[0].startswith(b"script ")
        if here != there:
            differ += 1
            if differ == 1:
                print(f"seed {seed}:", text, here, there, sep="\n")
    print(f"scripts={sys.argv[2]} faulty={faulty} differ={differ}")
    sys.exit(differ > 0)


if __name__ == "__main__":
    main()
