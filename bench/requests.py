#!/usr/bin/env python3
"""Times requests to `ron_test_rows` that grow: a map of pairs, in order and shuffled, beside a list of as many pairs, and a
chain of `Some(`, bare and not, beside as many levels of lists. Prints the milliseconds of the quickest of five runs. The
program gets a stack without bounds, since each level of a chain takes some of it.

requests.py RONCASES: a program that answers a line of JSON for each line of its standard input.
"""
import json
import random
import resource
import subprocess
import sys
import time

ROUNDS = 5
PAIRS = [25_000, 50_000, 100_000, 200_000]
LEVELS = [1_000, 2_000, 4_000, 8_000]


def read(schema, text, **options):
    return json.dumps({"op": "read", "schema": schema, "text": text, "limit": 1_000_000, **options})


def as_map(keys):
    return read([{"map": [1, 1]}, "u32"], "{" + ",".join(f"{key}:{key}" for key in keys) + "}")


def as_list(keys):
    return read([{"seq": 1}, {"tuple": [2, 2]}, "u32"], "[" + ",".join(f"({key},{key})" for key in keys) + "]")


def shuffled(count):
    keys = list(range(count))
    random.Random(1).shuffle(keys)
    return keys


def somes(count, extensions):
    schema = [{"option": level + 1} for level in range(count)] + ["u8"]
    return read(schema, "Some(" * count + "5" + ")" * count, ext=extensions)


def lists(count):
    schema = [{"seq": level + 1} for level in range(count)] + ["u8"]
    return read(schema, "[" * count + "5" + "]" * count)


def unbounded_stack():
    resource.setrlimit(resource.RLIMIT_STACK, (resource.RLIM_INFINITY, resource.RLIM_INFINITY))


def milliseconds(program, request):
    def once():
        start = time.perf_counter()
        ran = subprocess.run([program], input=request + "\n", capture_output=True, text=True, check=True, preexec_fn=unbounded_stack)
        if '"ok"' not in ran.stdout[:200]:
            sys.exit(f"{program}: {ran.stdout[:200]}")
        return time.perf_counter() - start

    return min(once() for _ in range(ROUNDS)) * 1000


def table(program, sizes, rows):
    print("| | " + " | ".join(f"{size:,}" for size in sizes) + " |\n" + "|---" * (len(sizes) + 1) + "|")
    for name, request in rows.items():
        print(f"| {name} | " + " | ".join(f"{milliseconds(program, request(size)):.0f} ms" for size in sizes) + " |", flush=True)
    print()


def main():
    (program,) = sys.argv[1:]
    table(program, PAIRS, {
        "a map, its keys in order": lambda count: as_map(range(count)),
        "a map, its keys shuffled": lambda count: as_map(shuffled(count)),
        "a list of as many pairs": lambda count: as_list(range(count)),
    })
    table(program, LEVELS, {
        "a chain of `Some(`": lambda count: somes(count, 0),
        "the same under `unwrap_variant_newtypes`": lambda count: somes(count, 4),
        "as many lists in one another": lists,
    })


main()
