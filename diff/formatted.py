#!/usr/bin/env python3
"""Lays random texts out by `ron_test_layouts`, and reads each text and its layout with the Rust crate.

    ORACLE=PROGRAM diff/formatted.py SEED COUNT [--values]

ORACLE is the program that `diff/build.sh diff/oracle` builds. The texts are those of compare.py, of every shape, half of
them damaged; with --values they are values of any form, floats too. Gaps and comments are strewn into half of them, where
the format lets gaps stand and elsewhere. Each is laid out by a random layout. Asked of it:

- what is laid out is read to the same data by the same schema, or refused where the text was. A text that was refused may
  be read now. Raw texts are the same but for gaps and last commas, and no key of a map may hold one.
- Laid out once more it stays the same.
- A text that isn't laid out is refused by the Rust crate too.

What differs is shown, the shortest of each kind, and the status is 1. `ron_test_layouts` is run as `rt ci` built it, or
unproved where there is no such build.
"""

import collections
import json
import os
import pathlib
import random
import re
import sys

sys.path.insert(0, str(pathlib.Path(__file__).parent))
import random_values  # noqa: E402
from compare import GAP, answers, has_raw_keys, outcome  # noqa: E402
from random_requests import requests  # noqa: E402

CASES = pathlib.Path(__file__).parent.parent / "crates" / "ron_test_layouts"
BUILT = CASES / "out" / "ron_test_layouts"
BATCH = {True: 20000, False: 2000}  # as many answers as a run can print: of the build, and of `rt try`
STREWN = [" ", "\n", "\n\n\n", "\t", "\r\n", "/* c */", "// line\n", "// crlf \r\n", "/* over\n lines */", " /* /* */ */ ", ","]
LAST_COMMA = re.compile(r",(?=[)\]}]|$)")


class Layouts:
    """Random layouts, and gaps strewn into texts."""

    def __init__(self, seed):
        self.random = random.Random(seed)

    def chance(self, probability):
        return self.random.random() < probability

    def strewn(self, text):
        """The text with gaps and a comma now and then between its pieces: a piece is a word's run, or one character."""
        if self.chance(0.5):
            return text
        often = self.random.choice([0.05, 0.2, 0.5])
        pieces = re.findall(r"\w+|.", text, re.DOTALL)
        return "".join(piece + (self.random.choice(STREWN) if self.chance(often) else "") for piece in pieces)

    def layout(self):
        layout = {}
        if self.chance(0.6):
            layout["width"] = self.random.choice([0, 1, 5, 10, 20, 40, 60])
        if self.chance(0.3):
            layout["indent"] = self.random.choice([0, 1, 2, 8, "tab"])
        if self.chance(0.2):
            layout["new_line"] = self.random.choice(["lf", "crlf"])
        if self.chance(0.2):
            layout["keep_commas"] = True
        if self.chance(0.3):
            layout["keep_breaks"] = False
        return layout


def without_freedom(data):
    """The data with the gaps and last commas of its raw texts left out."""
    if not isinstance(data, list):
        return data
    if len(data) == 2 and data[0] == "raw":
        return ["raw", LAST_COMMA.sub("", re.sub(GAP, "", data[1]))]
    return [without_freedom(part) for part in data]


def difference(request, laid, again, before, after):
    """What is wrong with a layout, if anything; or, in brackets, what may be."""
    if outcome(laid) == "other":
        return "no layout"
    if outcome(laid) == "err":
        return "not laid out, but read" if outcome(before) == "ok" else None
    if not again.get("is_formatted") or again["ok"] != laid["ok"]:
        return "another layout the second time"
    if outcome(before) != "ok":
        return "(read only once it is laid out)" if outcome(after) == "ok" else None
    if has_raw_keys(request):
        return None
    if outcome(after) != "ok":
        return "read before alone"
    if without_freedom(before["ok"]) != without_freedom(after["ok"]):
        return "other data"
    return None


def main():
    words = [word for word in sys.argv[1:] if not word.startswith("--")]
    oracle = os.environ.get("ORACLE")
    if len(words) != 2 or not oracle or not os.access(oracle, os.X_OK):
        print(__doc__ if len(words) != 2 else "ORACLE names no program: nothing is compared", file=sys.stderr)
        return 2
    seed, count = map(int, words)
    layouts = Layouts(seed)
    made = random_values.requests(seed, count, False) if "--values" in sys.argv else requests(seed, count, False, None)
    asked = []
    for line in made:
        request = {name: part for name, part in json.loads(line).items() if name not in ("wext", "wlimit")}
        request["op"] = "read" if request["op"] == "rewrite" else request["op"]
        request.setdefault("schema", ["value"])
        asked.append({**request, "text": layouts.strewn(request["text"])})
    is_built = os.access(BUILT, os.X_OK)
    program = [str(BUILT.resolve())] if is_built else ["rt", "try", "--seconds", "400"]
    run = lambda batch: answers(program, [json.dumps(one) for one in batch], BATCH[is_built], CASES)
    wished = [{"text": request["text"], **layouts.layout()} for request in asked]
    laid = run(wished)
    again = run([{**wish, "text": answer.get("ok", "")} for wish, answer in zip(wished, laid)])
    read = lambda batch: answers([oracle], [json.dumps(one) for one in batch], BATCH[True])
    before = read(asked)
    after = read([{**request, "text": answer.get("ok", request["text"])} for request, answer in zip(asked, laid)])
    kinds, shortest = collections.Counter(), {}
    for request, wish, *found in zip(asked, wished, laid, again, before, after):
        kind = difference(request, *found)
        if kind:
            kinds[kind] += 1
            if kind not in shortest or len(request["text"]) < len(shortest[kind][0]["text"]):
                shortest[kind] = (request, wish, *found)
    told = collections.Counter(outcome(answer) for answer in laid)
    both = sum(outcome(one) == outcome(other) == "ok" for one, other in zip(before, after))
    print(f"{len(asked)} texts, {told['ok']} laid out, {told['err']} refused, {both} read before and after")
    for kind, count in sorted(kinds.items()):
        print(f"{count} {kind}")
        if not kind.startswith("("):
            for part in shortest[kind]:
                print(f"    {json.dumps(part)[:400]}")
    return 1 if any(not kind.startswith("(") for kind in kinds) else 0


if __name__ == "__main__":
    sys.exit(main())
