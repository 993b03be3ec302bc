#!/usr/bin/env python3
"""Runs two programs in turn on the same texts, and prints tables for each kind of text: the nanoseconds for a byte, and
of the passes from a file to a file also the peak of the memory in use.

measure.py RONBENCH BENCH: a time is that of the quickest of all passes of all rounds.
"""
import os
import subprocess
import sys
import tempfile

import peak

HERE = os.path.dirname(os.path.abspath(__file__))
ROUNDS = 5
SECONDS = 600
# The levels of the trees of each kind, and the passes of a round. The last is also read from a file and written to one.
TREES = {
    "points": [(12, 40), (15, 10), (18, 3)],
    "records": [(10, 40), (13, 10), (16, 3)],
    "entities": [(10, 40), (13, 10), (16, 3)],
    "lines": [(8, 40), (11, 10), (14, 3)],
}
TIMES = ["bytes", "read here", "Rust crate", "ratio", "write here", "Rust crate", "ratio", "laid out here", "Rust crate", "ratio"]
UNTYPED = ["bytes", "`Value` here", "Rust crate", "ratio", "read to its `Value`", "`Value` written here", "Rust crate", "ratio"]
CONVERTED = ["text", "bytes", "converted here", "Rust crate", "ratio", "read as a value and converted here", "Rust crate", "ratio"]
DEVICES = ["text", "bytes", "from a file here", "Rust crate", "ratio", "to a file here", "Rust crate", "ratio", "MB here", "Rust crate", "ratio"]


def text_of(kind, levels):
    ran = subprocess.run([sys.executable, f"{HERE}/tree.py", kind, str(levels)], stdout=subprocess.PIPE, check=True)
    return ran.stdout


def told(lines):
    return {work: int(nanoseconds) for work, nanoseconds, _ in (line.split() for line in lines.decode().splitlines())}


def leaf_of(kind):
    # Lines are entities, and are written compact.
    return ("entities", "different") if kind == "lines" else (kind, "same")


def times(program, kind, levels, passes, text):
    """The nanoseconds of the quickest pass of each kind of work that the program tells, and what it says of the texts.
    Work by the schema and work with values have a run each, since what one lets go of the other would find in pieces."""
    leaf, verdict = leaf_of(kind)
    runs = [
        subprocess.run([program, leaf, str(levels), f"{work}:{passes}"], input=text, capture_output=True)
        for work in ("data", "values")
    ]
    said = "".join(run.stdout.decode() for run in runs)
    if not said.startswith(f"{len(text)} bytes, {verdict}; "):
        sys.exit(f"{program}: {said}{''.join(run.stderr.decode() for run in runs)}")
    return {**told(runs[0].stderr), **told(runs[1].stderr), "said": said}


def copied(program, kind, levels, text):
    """The nanoseconds of reading a file and of writing one, and the peak of the memory in use."""
    leaf, verdict = leaf_of(kind)
    with tempfile.TemporaryDirectory() as folder:
        with open(f"{folder}/input", "wb") as file:
            file.write(text)
        with open(f"{folder}/input", "rb") as source, open(f"{folder}/output", "wb") as sink, open(f"{folder}/notes", "wb") as notes:
            status, _, memory = peak.run([program, leaf, str(levels), "devices"], SECONDS, stdin=source, stdout=sink, stderr=notes)
        with open(f"{folder}/notes", "rb") as notes, open(f"{folder}/output", "rb") as sink:
            if status != 0 or (sink.read() == text) != (verdict == "same"):
                sys.exit(f"{program}: {notes.read().decode()}")
            return {**told(notes.read()), "memory": memory}


def quickest(ask, programs, *asked):
    """For each program the least of all rounds."""
    rounds = [[ask(program, *asked) for program in programs] for _ in range(ROUNDS)]
    if len({run.get("said") for runs in rounds for run in runs}) > 1:
        sys.exit("the programs lay out other texts")
    return [{work: min(run[work] for run in runs) for work in runs[0]} for runs in zip(*rounds)]


def compared(size, ours, theirs):
    return [f"{ours / size:.1f}", f"{theirs / size:.1f}", f"{ours / theirs:.2f}"]


def line(cells):
    return "| " + " | ".join(cells) + " |"


def head(columns):
    return f"{line(columns)}\n{'|---' * len(columns)}|"


def main():
    programs = sys.argv[1:]
    untyped, converted, devices = [], [], []
    print(head(["text"] + TIMES), flush=True)
    for kind, trees in TREES.items():
        for levels, passes in trees:
            text = text_of(kind, levels)
            here, there = quickest(times, programs, kind, levels, passes, text)
            cells = [kind, f"{len(text):,}"]
            print(line(cells + [cell for work in ["read", "write", "pretty"] for cell in compared(len(text), here[work], there[work])]), flush=True)
            row = cells + compared(len(text), here["value"], there["value"]) + [f"{here['read'] / there['value']:.2f}"]
            untyped.append(row + compared(len(text), here["value_write"], there["value_write"]))
            if "convert" in here:
                both = [run["value"] + run["convert"] for run in (here, there)]
                converted.append(cells + compared(len(text), here["convert"], there["convert"]) + compared(len(text), *both))
        here, there = quickest(copied, programs, kind, levels, text)
        cells += [cell for work in ["read", "write"] for cell in compared(len(text), here[work], there[work])]
        devices.append(cells + compared(1_000_000, here["memory"], there["memory"]))
    for columns, rows in [(["text"] + UNTYPED, untyped), (CONVERTED, converted), (DEVICES, devices)]:
        print("\n" + head(columns))
        for cells in rows:
            print(line(cells))


main()
