#!/usr/bin/env python3
"""Refuses each growth of memory in turn, and all from each one on, while `ron_test_rows` answers a request, and shows each
answer that is neither want of memory nor the answer with ample memory.

    diff/refused.py                      # the table of worked answers
    diff/refused.py SEED N               # N random requests
    diff/refused.py SEED N --devices     # some N through devices that give little, have little room, and fail

`refuse.c` is compiled by `cc` and put between the program, as `rt ci` built it, and the C library. A device of the
program keeps what it takes in memory, so a growth that is refused to it is `Io`, or `Fmt` where it takes text. Of a random
request through a device the answer with ample memory is held against that without a device too.
Status 1 where an answer is shown."""

import collections
import json
import os
import pathlib
import subprocess
import sys
import tempfile

HERE = pathlib.Path(__file__).parent
sys.path.insert(0, str(HERE))
import random_devices  # noqa: E402
from random_requests import requests  # noqa: E402

CASES = HERE.parent / "crates" / "ron_test_rows"
PROGRAM = CASES / "out" / "ron_test_rows"
BATCH = 200
SHOWN = 20
# Readings by the thousand, and texts of which a reading takes growths by the thousand.
LEFT_OUT = {"damage", "turns", "spare"}
LONGEST = 3000

sys.setrecursionlimit(100000)


def own_rows():
    for line in open(CASES / "stdin", encoding="ascii"):
        try:
            request = json.loads(line)
        except ValueError:
            continue
        if isinstance(request, dict) and "refuse" not in request and request.get("op") not in LEFT_OUT and len(line) <= LONGEST:
            yield request


def kind_of(answer):
    if answer is None or "bad_request" in answer:
        return "request"
    return answer.get("kind", "ok" if "ok" in answer else "other")


def is_steps(answer):
    return isinstance(answer, dict) and isinstance(answer.get("ok"), list) and "rest" in answer


def goes_on(ample, other):
    """Whether steps are answered alike up to one that wants memory, and by `Failed` from then on."""
    want = False
    for step, was in zip(other["ok"], ample["ok"]):
        if not want and step == was:
            continue
        if step.get("kind") != ("Failed" if want else "OutOfMemory"):
            return False
        want = True
    return len(other["ok"]) == len(ample["ok"])


def begins(part, whole):
    return part is None or whole is None or whole.startswith(part.rstrip("\ufffd"))


def is_wanting(request, ample, other):
    """Whether the answer is one that a refused growth may give."""
    if is_steps(other) and is_steps(ample):
        return goes_on(ample, other)
    kind = kind_of(other)
    if kind == "request":
        return True
    if other.get("data", ample.get("data")) != ample.get("data"):
        return False
    if not begins(other.get("written"), ample.get("written")):
        return False
    devices = {"write_io": "Io", "write_fmt": "Fmt"}
    return kind in ("OutOfMemory", devices.get(request["op"]))


def answers(asked, library):
    lines = "\n".join(json.dumps({"refuse": {**request, "show": True}}) for request in asked) + "\n"
    run = subprocess.run([PROGRAM], input=lines, capture_output=True, text=True,
                         env={**os.environ, "LD_PRELOAD": str(library)})
    found = [json.loads(line) for line in run.stdout.splitlines()]
    if len(found) != len(asked):
        sys.exit(f"{len(found)} answers to {len(asked)} requests, status {run.returncode}: {run.stderr[:300]}")
    return found


def plain_answers(asked):
    lines = "\n".join(map(json.dumps, asked)) + "\n"
    run = subprocess.run([PROGRAM], input=lines, capture_output=True, text=True, check=True)
    return [json.loads(line) for line in run.stdout.splitlines()]


def due_through_devices(seed, count):
    """Requests through devices, and of each whether its answer is the one that it has to be."""
    asked, due = [], []
    for one, plain in random_devices.made(seed, count, plain_answers):
        asked.append(one.request)
        due.append(lambda answer, one=one, plain=plain: one.is_due(plain, answer))
    return asked, due


def spares(library):
    run = subprocess.run([PROGRAM], input='{"op":"spare"}\n', capture_output=True, text=True,
                         env={**os.environ, "LD_PRELOAD": str(library)})
    return json.loads(run.stdout)["ok"]


def asked_for(words):
    """The requests, and of each what its answer with ample memory has to meet."""
    numbers = [int(word) for word in words if not word.startswith("--")]
    if "--devices" in words:
        return due_through_devices(*numbers)
    asked = [json.loads(line) for line in requests(*numbers)] if numbers else list(own_rows())
    return asked, [lambda answer: True] * len(asked)


def library_in(folder):
    """What stands between a program and the C library, compiled."""
    library = pathlib.Path(folder) / "refuse.so"
    subprocess.run(["cc", "-O2", "-shared", "-fPIC", "-o", library, HERE / "refuse.c"], check=True)
    return library


def main():
    asked, due = asked_for(sys.argv[1:])
    counts = collections.Counter()
    shown = 0
    with tempfile.TemporaryDirectory() as folder:
        library = library_in(folder)
        spared = spares(library)
        for start in range(0, len(asked), BATCH):
            batch = asked[start:start + BATCH]
            for request, answer, is_due in zip(batch, answers(batch, library), due[start:start + BATCH]):
                if "ample" not in answer:
                    counts["no request"] += 1
                    continue
                ample = answer["ample"]
                counts["requests"] += 1
                others = answer["refused"] + answer["starved"]
                counts.update(kind_of(other) for _, other in others)
                wrong = [] if is_due(ample) else [["ample", None]]
                wrong += [[number, other] for number, other in others if not is_wanting(request, ample, other)]
                for number, other in wrong[:max(0, SHOWN - shown)]:
                    print(json.dumps(request), number, json.dumps(ample), json.dumps(other), sep="\n  ")
                shown += len(wrong)
    print(dict(counts))
    print("without memory:", spared)
    sys.exit(1 if shown or not all(spared.values()) else 0)


if __name__ == "__main__":
    main()
