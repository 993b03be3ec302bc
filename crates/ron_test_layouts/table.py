#!/usr/bin/env python3
"""Writes the table of requests and answers, the files `stdin` and `stdout` beside this one.

    ./table.py            # writes both
    ./table.py --check    # says whether both are what it would write: status 1 if not

Each line of `rows.jsonl` is an object: `comment` says what the row shows, `request` is what is asked, and `answer` what is
wanted. Layouts were worked out by the rules, which another program follows too. Refusals, and texts indented by tabs, are the
program's own answers, which were read through.
"""
import json
import pathlib
import sys

HERE = pathlib.Path(__file__).parent


def main():
    rows = [json.loads(line) for line in (HERE / "rows.jsonl").read_text("utf-8").split("\n") if line]
    tables = {"stdin": "request", "stdout": "answer"}
    made = {name: "".join(line_of(row[part], name == "stdin") for row in rows) for name, part in tables.items()}
    if sys.argv[1:] != ["--check"]:
        for name, text in made.items():
            (HERE / name).write_bytes(text.encode())
        return
    wrong = [name for name, text in made.items() if (HERE / name).read_bytes() != text.encode()]
    for name in wrong:
        print(f"{name} is not what rows.jsonl gives")
    print(f"{len(made) - len(wrong)} passed, {len(wrong)} failed")
    sys.exit(bool(wrong))


def line_of(part, is_ascii):
    """A line of JSON. The program writes each character as it is."""
    return json.dumps(part, ensure_ascii=is_ascii, separators=(",", ":")) + "\n"


main()
