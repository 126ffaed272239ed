#!/usr/bin/env python3
"""Runs a gate command (`.ci/run` if none is given) and tells what each crate cost: the processor seconds of its proof,
of the proof of its tests, and of its must-fail edits, and the chain of crates that takes longest one after another.

    bench/gate_times.py [COMMAND ..]

What earlier runs on this machine proved is not proved again and counts as nothing; `bench/gate_times.py rt ci --anew`
measures from nothing. It reads the times of the prover's processes from /proc four times a second, so a process may
count up to a quarter of a second too little. Not part of the gate."""
import os
import re
import subprocess
import sys
import time

TOP = os.path.dirname(os.path.dirname(os.path.realpath(__file__)))
TICKS = os.sysconf("SC_CLK_TCK")
KINDS = ("proof", "tests", "edits")


def kind_of(words):
    """Returns what a process of the prover works at."""
    if any("/rt-edits-" in word or "/rt-fail" in word for word in words):
        return "edits"
    return "tests" if "--test" in words else "proof"


def prover(pid):
    """Returns the crate that this process proves, what it works at, and its processor seconds so far, if it is the prover."""
    with open(f"/proc/{pid}/cmdline", "rb") as file:
        words = file.read().decode(errors="replace").split("\0")
    if os.path.basename(words[0]) != "rattle" or "--crate-name" not in words:
        return None
    with open(f"/proc/{pid}/stat", encoding="utf-8") as file:
        fields = file.read().rpartition(")")[2].split()
    crate = words[words.index("--crate-name") + 1]
    return (crate, kind_of(words)), (int(fields[11]) + int(fields[12])) / TICKS


def parents():
    """Returns the parent of each process."""
    found = {}
    for pid in filter(str.isdigit, os.listdir("/proc")):
        try:
            with open(f"/proc/{pid}/stat", encoding="utf-8") as file:
                found[int(pid)] = int(file.read().rpartition(")")[2].split()[1])
        except OSError:
            continue
    return found


def below(pid, parent_of):
    """Returns the processes that this one began, and those that they began."""
    found = [pid]
    for at in found:
        found += [child for child, parent in parent_of.items() if parent == at]
    return found[1:]


def measure(command):
    """Runs the command, and returns its status and the seconds by process, with what each works at."""
    seconds = {}
    with subprocess.Popen(command, cwd=TOP) as run:
        while run.poll() is None:
            for pid in below(run.pid, parents()):
                try:
                    told = prover(pid)
                except (OSError, IndexError, ValueError):
                    continue
                if told:
                    seconds[pid, told[0]] = told[1]
            time.sleep(0.25)
    return run.returncode, seconds


def dependencies():
    """Returns the crates of the repository that each one names in crates.txt."""
    named = {}
    with open(f"{TOP}/crates.txt", encoding="utf-8") as file:
        for line in file:
            made = re.match(r"([a-z][a-z0-9_]*)[^:#]*:([^#]*)", line)
            if made:
                named[made[1]] = made[2].split()
    return {name: [it for it in lower if it in named] for name, lower in named.items()}


def longest_chain(cost, lower):
    """Returns the seconds and the crates of the chain that takes longest, from the lowest crate up."""
    best = {}

    def chain(name):
        if name not in best:
            seconds, names = max((chain(it) for it in lower[name]), default=(0, []))
            best[name] = seconds + cost.get((name, "proof"), 0), [*names, name]
        return best[name]

    return max(chain(name) for name in lower)


def main():
    begun = time.monotonic()
    status, seconds = measure(sys.argv[1:] or [f"{TOP}/.ci/run"])
    wall = time.monotonic() - begun
    cost = {}
    for (_, what), spent in seconds.items():
        cost[what] = cost.get(what, 0) + spent
    lower = dependencies()
    of = lambda name, kind: cost.get((name, kind), 0)
    whole = {name: sum(of(name, kind) for kind in KINDS) for name in lower}
    print("\n| crate | proof s | tests s | edits s | all s |\n|---|---|---|---|---|")
    for name in sorted(lower, key=lambda it: -whole[it]):
        print(f"| {name} | " + " | ".join(f"{of(name, kind):.0f}" for kind in KINDS) + f" | {whole[name]:.0f} |")
    sums = [sum(of(name, kind) for name in lower) for kind in KINDS]
    print(f"| all | {' | '.join(f'{it:.0f}' for it in sums)} | {sum(sums):.0f} |")
    chain, names = longest_chain(cost, lower)
    print(f"\nThe longest chain of proofs: {chain:.0f} s ({' '.join(names)}).")
    print(f"{wall / 60:.1f} minutes on {os.cpu_count()} processors, {sum(sums) / 60:.0f} processor minutes.")
    return status


if __name__ == "__main__":
    sys.exit(main())
