#!/usr/bin/env python3
"""Writes the table of requests and answers, the files `stdin` and `stdout` beside this one.

    ./table.py            # writes both
    ./table.py --check    # says whether both are what it would write: status 1, and the first line that differs, if not

Its rows stand in `rows.jsonl` and `vectors.jsonl`. But for a few counts of damaged texts no answer is the program's own.
Each line of both is an object:

- `comment` says what the row shows, or where it is from;
- `request` is what is asked, and `answer` the answer wanted; `line` in place of `request` is a line as it is;
- `damaged`, where it is there, makes a row of its own: how many of the text's damaged forms the Rust crate reads and how
  many it refuses, but for the rows of docs/DIFFERENCES.md;
- `empty`, the answer to the empty text, makes rows that read the same text from devices (`device_rows`);
- `pieces`, in which the text is put, makes rows that write it to devices (`budget_rows`).

A row is added to `rows.jsonl`, and the table is written anew. `vectors.jsonl` holds rows worked by hand, and requests of
the Rust crate's own tests with what it answers: what it accepts, but for answers with a float, and that it refuses.
"""
import itertools
import json
import os
import sys

HERE = os.path.dirname(os.path.abspath(__file__))

# How much `--check` shows of a line that differs.
SHOWN = 80


# ---- rows

def rows():
    """All rows in their order, as requests and answers."""
    for row in [*lines_of("rows.jsonl"), *lines_of("vectors.jsonl")]:
        request = row.get("line", row.get("request"))
        yield request, row["answer"]
        if "damaged" in row:
            damage = {name: request[name] for name in ("schema", "root", "limit", "text") if name in request}
            yield {"op": "damage", "schema": ["value"], **damage}, {"ok": row["damaged"]}
        if "empty" in row:
            yield from device_rows(request, row["answer"], row["empty"])
        if "pieces" in row:
            yield from budget_rows(request, row["answer"]["ok"], row["pieces"])


def device_rows(request, whole, empty):
    """The text by one byte in a call, by a few, and from a device that has none; and each of its fronts, with a fault
    behind it."""
    asked = {**request, "op": "read_io"}
    given = asked.pop("text").encode()
    yield {**asked, **input_of(given), "chunk": 1}, owned(whole)
    yield {**asked, **input_of(given), "sizes": len(given)}, owned(whole)
    yield {**asked, **input_of(given), "chunk": 0, "show": True}, empty
    for size in range(len(given) + 1):
        front = given[:size]
        refused = {"err": "device broken", "kind": "Io", "span": [1, 1, *position_after(front)]}
        yield {**asked, **input_of(front), "chunk": 2, "fail": True, "show": True}, refused
    refused = {"err": "device interrupted", "kind": "Io", "span": [1, 1, *position_after(given)]}
    yield {**asked, **input_of(given), "sizes": len(given), "fail": "interrupted", "show": True}, refused


def input_of(given):
    """The bytes as a member of a request."""
    try:
        return {"text": given.decode()}
    except UnicodeDecodeError:
        return {"hex": given.hex()}


def position_after(given):
    """Line and column behind the longest front that is UTF-8."""
    lines = given.decode(errors="ignore").split("\n")
    return len(lines), len(lines[-1]) + 1


def owned(answer):
    """The answer where it borrows nothing."""
    if isinstance(answer, dict):
        return {name: owned(value) for name, value in answer.items()}
    if not isinstance(answer, list):
        return answer
    if answer[:1] in (["str"], ["bytes"]) and answer[2:] == ["s"]:
        return [*answer[:2], "a"]
    return list(map(owned, answer))


def budget_rows(request, text, pieces):
    """The data into devices with room for each front of the text: a writer that takes all it can, one that takes little
    in a call, and a writer of text, which takes whole pieces. What takes the whole text doesn't fail."""
    assert "".join(pieces) == text
    given = text.encode()
    for room in range(len(given) + 1):
        asked = {**request, "budget": room, "show": True}
        front = given[:room].decode(errors="replace")
        taken = {"ok": None} if room == len(given) else {"err": "device full", "kind": "Io"}
        yield {**asked, "op": "write_io"}, {**taken, "written": front}
        yield {**asked, "op": "write_io", "slow": True}, {**taken, "written": front}
        taken = {"ok": None} if room == len(given) else {"err": "Formatting RON failed", "kind": "Fmt"}
        yield {**asked, "op": "write_fmt"}, {**taken, "written": fitting(pieces, room)}


def fitting(pieces, room):
    """As many of the first pieces as there is room for."""
    sizes = [len("".join(pieces[:count]).encode()) for count in range(len(pieces) + 1)]
    return "".join(pieces[: max(count for count, size in enumerate(sizes) if size <= room)])


def lines_of(name):
    """The objects of a file beside this one, one a line."""
    with open(os.path.join(HERE, name), encoding="utf-8") as lines:
        return [json.loads(line) for line in lines if line.strip()]


# ---- the table

def compact(value):
    return json.dumps(value, ensure_ascii=True, sort_keys=True, separators=(",", ":"))


# The members of an answer, in the order in which the program writes them; others stand in the order of their names.
MEMBERS = ["data", "ok", "err", "kind", "span", "written", "rest", "id"]


def answered(answer):
    """The answer as the program writes it."""
    return json.dumps(ordered(answer), ensure_ascii=True, separators=(",", ":"))


def ordered(value):
    if isinstance(value, list):
        return [ordered(item) for item in value]
    if isinstance(value, dict):
        place = {name: at for at, name in enumerate(MEMBERS, -len(MEMBERS))}
        return {name: ordered(value[name]) for name in sorted(value, key=lambda it: (place.get(it, 0), it))}
    return value


def stripped(request):
    """The request without the members that say what holds without them."""
    plain = {"root": 0, "ext": 0, "wext": 0, "config": None}
    return {name: value for name, value in request.items() if name not in plain or value != plain[name]}


def table():
    """Each request once, with the answer wanted, as lines."""
    wanted = {}
    for request, answer in rows():
        line = request if isinstance(request, str) else compact(stripped(request))
        if wanted.setdefault(line, answered(answer)) != answered(answer):
            sys.exit(f"two answers to {line}: {wanted[line]} and {answered(answer)}")
    return wanted


def write(name, lines):
    with open(os.path.join(HERE, name), "w", encoding="ascii") as file:
        file.writelines(line + "\n" for line in lines)


def first_difference(name, lines):
    """Where the file differs first from these lines, or None."""
    with open(os.path.join(HERE, name), encoding="utf-8", newline="\n") as file:
        found = file.read().split("\n")
    for number, (line, wanted) in enumerate(itertools.zip_longest(found, [*lines, ""], fillvalue=""), 1):
        if line != wanted:
            column = len(os.path.commonprefix([line, wanted]))
            there, here = (text[column:column + SHOWN] or "no more" for text in (line, wanted))
            return f"{name}:{number}:{column + 1}: {there} [wanted: {here}]"
    return None if len(found) == len(lines) + 1 else f"{name}: {len(found) - 1} lines [wanted: {len(lines)}]"


def check(files):
    """Tells which file isn't what would be written. The status is 1 where there is one."""
    differences = list(filter(None, (first_difference(name, lines) for name, lines in files.items())))
    for difference in differences:
        print(difference)
    print(f"{len(files) - len(differences)} passed, {len(differences)} failed")
    return 1 if differences else 0


def main():
    if sys.argv[1:] not in ([], ["--check"]):
        sys.exit(__doc__)
    sys.setrecursionlimit(100000)
    wanted = table()
    files = {"stdin": list(wanted.keys()), "stdout": list(wanted.values())}
    if sys.argv[1:]:
        return check(files)
    for name, lines in files.items():
        write(name, lines)
    print(f"{len(wanted)} rows")
    return 0


if __name__ == "__main__":
    sys.exit(main())
