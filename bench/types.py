#!/usr/bin/env python3
"""Runs two programs in turn on texts of types, and prints a table: the nanoseconds for a byte, and of a small text also
those for the whole.

types.py RONBENCH BENCH [ROUNDS [PASSES]]: a time is that of the quickest of all passes of all rounds, five where it isn't
told. A small text is read PASSES times in a round, a hundred thousand where it isn't told, and others as much fewer times
as they are longer.
"""
import random
import string
import subprocess
import sys

SMALL = ('((title:"Dragon of the north",size:(1280,720),fullscreen:false),'
         '[Empty,Named("northern gate"),Size(640,480),At(x:-12,label:"start"),Named("southern gate"),At(x:3200,label:"finish")],'
         '{"camp":(x:31,y:-4),"harbour":(x:-1200,y:88),"mill":(x:7,y:15),"tower":(x:512,y:-512),"well":(x:0,y:64)})')
ENTRIES = [3_000, 30_000, 300_000]
HEAD = ["text", "bytes", "read here", "Rust crate", "ratio", "write here", "Rust crate", "ratio"]
ROUNDS = 5
PASSES = 100_000
SECONDS = 600


def name(source):
    return "".join(source.choice(string.ascii_lowercase) for _ in range(source.randint(6, 14)))


def pairs(count):
    """A list of names, each with a number of u32 and one of i64."""
    source = random.Random(1)
    numbers = lambda: f"({source.randrange(2**24)},{source.randint(-2**40, 2**40)})"
    return "[" + ",".join(f'("{name(source)}",{numbers()})' for _ in range(count)) + "]"


def lists(count):
    """A map, in the order of its keys, from names to lists of five numbers."""
    source = random.Random(1)
    numbers = lambda: ",".join(str(source.randrange(2**12)) for _ in range(5))
    return "{" + ",".join(f'"{key}":[{numbers()}]' for key in sorted({name(source) for _ in range(count)})) + "}"


def times(program, kind, passes, text):
    run = subprocess.run([program, "types", kind, str(passes)], input=text.encode(), capture_output=True, timeout=SECONDS)
    said = run.stdout.decode()
    if said != f"{len(text.encode())} bytes, same\n":
        sys.exit(f"{program}: {said}{run.stderr.decode()}")
    return {work: int(nanoseconds) for work, nanoseconds, _ in map(str.split, run.stderr.decode().splitlines())}


def quickest(programs, rounds, *asked):
    """For each program the least of all rounds."""
    runs = [[times(program, *asked) for program in programs] for _ in range(rounds)]
    return [{work: min(run[work] for run in all_of_one) for work in all_of_one[0]} for all_of_one in zip(*runs)]


def line(cells):
    return "| " + " | ".join(cells) + " |"


def main():
    programs = sys.argv[1:3]
    rounds = int(sys.argv[3]) if len(sys.argv) > 3 else ROUNDS
    small_passes = int(sys.argv[4]) if len(sys.argv) > 4 else PASSES
    texts = [("a small configuration", "configuration", SMALL)]
    texts += [("list of names with two numbers", "pairs", pairs(count)) for count in ENTRIES]
    texts += [("map from names to lists of five numbers", "lists", lists(count)) for count in ENTRIES]
    print(f"{line(HEAD)}\n{'|---' * len(HEAD)}|", flush=True)
    whole = None
    for told, kind, text in texts:
        size = len(text.encode())
        passes = max(2, small_passes * len(SMALL) // size)
        here, there = quickest(programs, rounds, kind, passes, text)
        cells = [cell for work in ("read", "write") for cell in
                 (f"{here[work] / size:.1f}", f"{there[work] / size:.1f}", f"{here[work] / there[work]:.2f}")]
        print(line([told, f"{size:,}", *cells]), flush=True)
        whole = whole or (here, there)
    told = ", ".join(f"{work} {one[work]} ns here, {other[work]} there" for one, other in [whole] for work in ("read", "write"))
    print(f"\nthe small text as a whole: {told}")


main()
