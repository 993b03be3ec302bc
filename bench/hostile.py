#!/usr/bin/env python3
"""Times texts that were made to be dear, here and by the Rust crate, and tells the peak of the memory in use.

    hostile.py RONCASES ORACLE [SIZE..]

Both programs answer a line of JSON for each line of their standard input, ORACLE by the Rust crate: `diff/build.sh
diff/oracle` builds it. A time is that of the quickest of three runs of the program for one request, without that of a
request for nothing; so it has in it the reading of the request and the writing of the answer, by serde_json's port here
and by the Rust program there. Both get a stack without bounds, since each level of what nests takes some of it. A run
that takes more than a minute is stopped."""

import json
import resource
import subprocess
import sys
import tempfile

import peak

ROUNDS = 3
SECONDS = 60
SIZES = [10_000, 100_000, 1_000_000]
VALUE = ["value"]
POINT = [{"struct": ["Point", [["x", 1], ["y", 1]]]}, "i32"]


def read(schema, text, **options):
    return {"op": "read", "schema": schema, "text": text, "limit": None, **options}


def joined(count, item):
    return ",".join(item(number) for number in range(count))


def wide(count):
    """A struct of many fields, each behind those that follow it."""
    fields = [[f"field{number}", 1] for number in range(count)]
    return read([{"struct": ["Wide", fields]}, "u8"], "(" + ",".join(f"{name}:1" for name, _ in reversed(fields)) + ")")


def newtypes(size):
    """A chain of newtypes, as many as the size has tens of bytes, at most ten thousand."""
    count = min(size // 10, 10_000)
    schema = [{"newtype": ["N", level + 1]} for level in range(count)] + ["u8"]
    return read(schema, "N(" * count + "1" + ")" * count)


ATTACKS = {
    "`Some(` open, under `unwrap_variant_newtypes`": lambda size: read(VALUE, "Some(" * (size // 5), ext=4),
    "`Some(` closed, likewise": lambda size: read(VALUE, "Some(" * (size // 6) + "1" + ")" * (size // 6), ext=4),
    "`[` open": lambda size: read(VALUE, "[" * size),
    "commas": lambda size: read(VALUE, "[" + "," * size),
    "`/*` open": lambda size: read(VALUE, "/*" * (size // 2)),
    "hashes behind an `r`": lambda size: read(VALUE, "r" + "#" * size),
    "equal keys": lambda size: read(VALUE, "{" + joined(size // 4, lambda _: "1:2") + "}"),
    "keys that descend": lambda size: read(VALUE, "{" + joined(size // 9, lambda number: f"{10**6 - number}:1") + "}"),
    "keys alike in 100 characters": lambda size: read(VALUE, "{" + joined(size // 112, lambda n: f'"{"a" * 100}{n:06}":1') + "}"),
    "fields in the worst order": lambda size: wide(size // 13),
    "a name of that length": lambda size: read(POINT, "A" * size + "(x:1,y:2)"),
    "digits": lambda size: read(["u128"], "1" * size),
    "`\\x41`": lambda size: read(["str"], '"' + "\\x41" * (size // 4) + '"'),
    "`\\u{41}`": lambda size: read(["str"], '"' + "\\u{41}" * (size // 6) + '"'),
    "attributes": lambda size: read(VALUE, "#![enable(implicit_some)]" * (size // 25) + "1"),
    "a chain of newtypes": newtypes,
}


def unbounded_stack():
    resource.setrlimit(resource.RLIMIT_STACK, (resource.RLIM_INFINITY, resource.RLIM_INFINITY))


def run(program, request):
    """Seconds, and the peak in megabytes; or none, of a program that failed or took too long."""
    with tempfile.TemporaryFile() as asked, tempfile.TemporaryFile() as told:
        asked.write((json.dumps(request) + "\n").encode())
        asked.seek(0)
        streams = {"stdin": asked, "stdout": told, "stderr": subprocess.DEVNULL}
        status, took, memory = peak.run([program], SECONDS, preexec_fn=unbounded_stack, **streams)
        return None if status else (took, memory / 1_000_000)


def measured(program, request):
    runs = []
    for _ in range(ROUNDS):
        found = run(program, request)
        if found is None:
            return None
        runs.append(found)
    return min(runs)


def main():
    programs, sizes = sys.argv[1:3], [int(size) for size in sys.argv[3:]] or SIZES
    idle = [measured(program, read(["u8"], "1")) for program in programs]
    print("| | " + " | ".join(f"{size // 1000} KB" for size in sizes) + " |\n" + "|---" * (len(sizes) + 1) + "|")
    for name, attack in ATTACKS.items():
        cells = []
        for size in sizes:
            told = []
            for program, (least, _) in zip(programs, idle):
                found = measured(program, attack(size))
                told.append("none" if found is None else f"{max(found[0] - least, 0) * 1000:.1f} ms, {found[1]:.0f} MB")
            cells.append("; ".join(told))
        print(f"| {name} | " + " | ".join(cells) + " |", flush=True)


if __name__ == "__main__":
    main()
