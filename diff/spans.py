#!/usr/bin/env python3
"""Puts all short texts of several alphabets through `ron_test_rows` and the Rust crate, and tells which errors differ.

    ORACLE=PROGRAM diff/spans.py RONCASES [MOST]

ORACLE answers by the Rust crate; `diff/build.sh diff/oracle` builds it. Each text is put where several shapes are read,
and each refusal is told with its error's name and its span. With MOST texts have up to as many pieces, where ALPHABETS
says how many. A line stands for a kind of difference: where the texts were read, how many there are, which errors are
told or whether a span begins, and ends, before (-1) or behind (1) that of the Rust crate, and the smallest text with both
spans. What a line means is told by docs/DIFFERENCES.md.
"""

import collections
import itertools
import json
import os
import subprocess
import sys

U8 = ["u8"]
POINT = [{"struct": ["S", [["a", 1]]]}, "u8"]
ENUM = [{"enum": ["E", [["S"], ["a", {"newtype": 1}], ["b", {"tuple": [1]}], ["c", {"struct": [[["a", 1]]]}]]]}, "u8"]
VALUE = {"op": "value"}
RAW = {"op": "raw"}


def read(schema, **options):
    return {"op": "read", "schema": schema, **options}


# A name, the pieces that texts are made of, how many at most, and where the texts are read: a request and what stands
# around the text.
ALPHABETS = [
    ("numbers", "1 0 a b x o _ . - + u8 i e ' f".split(), 4,
     [(VALUE, "{}"), (VALUE, "[{}]"), (read(U8), "{}"), (read(["i8"]), "{}"), (read([{"seq": 1}, "u8"]), "[{}]")]),
    ("quoted", "\" ' \\ n x 4 u { } b r #".split(), 4,
     [(VALUE, "{}"), (read(["str"]), "{}"), (read(["bytes"]), "{}"), (read(["char"]), "{}"), (read(U8), "{}")]),
    ("structure", [*"()[]{},:a1 ", "S"], 4,
     [(VALUE, "{}"), (read(POINT), "{}"), (read([{"tuple": [1, 1]}, "u8"]), "{}"), (read(["unit"]), "{}"),
      (read([{"tuple_struct": ["S", [1]]}, "u8"]), "{}"), (read([{"newtype": ["S", 1]}, "u8"]), "{}"),
      (read([{"seq": 1}, "u8"]), "{}"), (read([{"map": [1, 1]}, "u8"]), "{}"), (read([{"unit_struct": "S"}]), "{}"),
      (read(ENUM), "{}")]),
    ("names", ["r#", *"a-+.S()_1: "], 4,
     [(VALUE, "{}"), (read([{"struct": ["S", [["a-a", 1], ["a", 1]]]}, "u8"]), "{}"), (read(POINT, ext=8), "{}"),
      (read([{"unit_struct": "S"}]), "{}"), (read([{"unit_struct": "S-a"}], ext=8), "{}"),
      (read([{"enum": ["E", [["S"], ["a-a"], ["a", {"newtype": 1}]]]}, "u8"]), "{}")]),
    ("gaps", [*"/*\n 1#!é[]"], 5, [(VALUE, "{}"), (read(U8), "{}")]),
    ("attributes", [*"#![(,)]=5 ", "enable", "implicit_some", "type", "schema", '"x"'], 4,
     [(VALUE, "{}"), (read(U8), "#![{}]5"), (read(U8), "#![enable({}")]),
    ("options", ["Some", "None", *"()1 ,S:a"], 4,
     [(VALUE, "{}"), ({**VALUE, "ext": 4}, "{}"), (read([{"option": 1}, "u8"]), "{}"),
      (read([{"option": 1}, "u8"], ext=2), "{}"), (read([{"option": 1}, {"option": 2}, "u8"], ext=2), "{}"),
      (read([{"newtype": ["S", 1]}, "u8"], ext=1), "{}"),
      (read([{"enum": ["E", [["S", {"newtype": 1}]]]}, {"struct": ["P", [["a", 2]]]}, "u8"], ext=4), "{}"),
      (read([{"enum": ["E", [["S", {"newtype": 1}], ["a", {"newtype": 2}]]]}, {"option": 2}, "u8"], ext=7), "{}")]),
    ("raw texts", [*"()[]{},:a1 /*", '"x"'], 4,
     [(RAW, "{}"), (read([{"seq": 1}, "raw"]), "{}"), (read([{"struct": ["S", [["a", 1]]]}, "raw"]), "{}"),
      (read([{"option": 1}, "raw"], ext=4), "{}")]),
    ("fields", [*"()a:1,bc B"], 5,
     [(read([{"struct": ["S", [["a", 1], ["b", 1, True]]]}, "u8"]), "{}"),
      (read([{"struct": ["S", [["a", 1]], True]}, "u8"]), "{}")]),
]


def texts_of(pieces, most):
    found = {"".join(text) for length in range(most + 1) for text in itertools.product(pieces, repeat=length)}
    return sorted(found, key=lambda text: (len(text), text))


def answers(program, lines):
    ran = subprocess.run([program], input="\n".join(lines) + "\n", capture_output=True, text=True, check=True)
    return [json.loads(line) for line in ran.stdout.splitlines()]


def side(one, other):
    return (one > other) - (one < other)


def kind_of(here, there):
    """How two answers differ, or None."""
    names = [answer.get("kind", "a value") for answer in (here, there)]
    if names[0] != names[1]:
        return f"{names[0]} here, {names[1]} there"
    if "span" not in here or "span" not in there:
        return None if here.get("ok") == there.get("ok") else "another value"
    one, other = here["span"], there["span"]
    if one != other:
        return f"{names[0]}, span {side(one[:2], other[:2])} {side(one[2:], other[2:])}"
    return None if here["err"] == there["err"] else f"{names[0]}, another message"


def differences(lines, program, oracle):
    """How many answers differ in each way, with the smallest text of it and both spans."""
    counts, least = collections.Counter(), {}
    for line, here, there in zip(lines, answers(program, lines), answers(oracle, lines), strict=True):
        kind = kind_of(here, there)
        if kind:
            counts[kind] += 1
            least.setdefault(kind, (json.loads(line)["text"], here.get("span"), there.get("span")))
    return [(kind, count, least[kind]) for kind, count in sorted(counts.items())]


def main():
    oracle, program = os.environ["ORACLE"], sys.argv[1]
    most_of_all = int(sys.argv[2]) if len(sys.argv) > 2 else None
    asked = 0
    for name, pieces, most, places in ALPHABETS:
        texts = texts_of(pieces, most_of_all or most)
        for request, around in places:
            lines = [json.dumps({**request, "text": around.replace("{}", text), "show": True}) for text in texts]
            asked += len(lines)
            for kind, count, smallest in differences(lines, program, oracle):
                print(f"{name}: {json.dumps(request)}: {count} of {kind}: {json.dumps(smallest)}")
    print(f"{asked} requests")


if __name__ == "__main__":
    main()
