#!/usr/bin/env python3
"""Tells at how many levels reading, writing, conversion, comparing, copying and dropping run out of a stack of 8 MB.

stack.py RONCASES: a program that answers a line of JSON for each line of its standard input."""

import json
import resource
import subprocess
import sys

STACK = 8 << 20
LISTS = [{"seq": 0}]
MOST = 1 << 22


def made(call):
    return lambda levels: {"op": "deep", "call": call, "levels": levels}


def open_text(schema, front, **options):
    """Of a text that ends within its levels nothing is left to be dropped."""
    return lambda levels: {"op": "turns", "schema": schema, "pieces": [[front, levels]], "limit": None, **options}


CALLS = {
    "reading lists by a schema": open_text(LISTS, "["),
    "reading options by a schema": lambda levels: open_text([{"option": 1}, {"seq": 0}], "Some([")(levels // 2),
    "reading lists as a value": open_text(["value"], "["),
    "reading `Some(` as a value": open_text(["value"], "Some("),
    "reading `Some(` as a value, under `unwrap_variant_newtypes`": open_text(["value"], "Some(", ext=4),
    "writing data": made("write"),
    "making data its own": made("own"),
    "comparing data": made("compare"),
    "dropping data": made("drop"),
    "converting a value": made("convert"),
    "copying a value": made("clone_value"),
    "comparing values": made("compare_values"),
    "dropping a value": made("drop_value"),
}


def usual_stack():
    resource.setrlimit(resource.RLIMIT_STACK, (STACK, STACK))


def holds(program, request):
    run = subprocess.run([program], input=json.dumps(request) + "\n", capture_output=True, text=True, preexec_fn=usual_stack)
    return run.returncode == 0 and '"ok"' in run.stdout


def deepest(program, request):
    low, high = 1, MOST
    if holds(program, request(high)):
        return high
    while high - low > max(low // 200, 1):
        middle = (low + high) // 2
        low, high = (middle, high) if holds(program, request(middle)) else (low, middle)
    return low


def main():
    (program,) = sys.argv[1:]
    print("| | levels | bytes of stack a level |\n|---|---|---|")
    for name, request in CALLS.items():
        levels = deepest(program, request)
        print(f"| {name} | {'over ' if levels == MOST else ''}{levels:,} | {STACK // levels:,} |", flush=True)


if __name__ == "__main__":
    main()
