#!/usr/bin/env python3
"""Puts random requests through `ron_test_rows` and through the Rust crate, and tells differences apart.

    ORACLE=PROGRAM diff/compare.py SEED COUNT [--errors]
        [--writing | --layouts | --steps | --values | --raws | --into | --spliced]

ORACLE is a program that answers `ron_test_rows`'s requests with the Rust crate: a line of JSON for each line of its standard
input. `diff/build.sh diff/oracle` builds it; where there is none, the status is 2. `diff/run.sh` does both. A difference
in whether a text is read, or in the data, is of one of the named rows of docs/DIFFERENCES.md or shown as OTHER, with
the smallest request of each kind; status 1 where there is one. `ron_test_rows` is run as `rt ci` built it, or unproved where
there is no such build. With --errors the errors of refused texts are asked for too, and counted by which error each
side names. With --writing every text is whole, and its data is written anew without a limit under another set of
extensions; what was written is read back under that set, and has to be the same data. With --layouts it is written by a
random configuration, now and then under a limit. With --steps several values are read from each text, one after
another; what is read, and what is left of the text after each, is compared up to the first refusal, after which
`ron_test_rows` has to refuse each further step and leave as much of the text. With --values each text is read as a value
without a schema, with --raws as a raw value, whose trimmed texts are compared too. With --into the values that the Rust
crate reads of the texts, where they hold no float, are converted by the schemas that the texts were made for. With
--spliced texts of the corpus are put into one another.
"""

import collections
import itertools
import json
import os
import pathlib
import re
import subprocess
import sys

sys.path.insert(0, str(pathlib.Path(__file__).parent))
import random_values  # noqa: E402
import spliced_requests  # noqa: E402
from random_requests import EXTENSIONS, IMPLICIT_SOME, UNWRAP_VARIANT_NEWTYPES, requests  # noqa: E402

CASES = pathlib.Path(__file__).parent.parent / "crates" / "ron_test_rows"
GAP = r"(?:[\t-\r \x85\u200e\u200f\u2028\u2029]|//[^\n]*(?:\n|$)|/\*(?:[^/*]|/(?!\*)|\*(?!/)|/\*(?:(?!\*/|/\*).)*\*/)*\*/)*"
SOME_ALONE = re.compile(r"(?<![\w#.+-])Some(?!\w)(?!" + GAP + r"\()")
TWO_COMMAS = re.compile("," + GAP + ",")
# A float that equal keys have dropped is in no answer. Of digits with a hexadecimal letter behind them the Rust crate reads
# the front as a float.
FLOAT = re.compile(r"[0-9_]\.|\.[0-9]|f32|f64|inf|NaN|[0-9_]{39}|(?<![0-9a-fA-FxXob_])(?!0[bxo])[0-9][0-9_]*[a-fA-F]")
# A name may go on with a middle dot, which is no `\w` of Python.
NAME_AND_GAP = re.compile(r"(?:[^\W\d][\w\xb7]*|r#[\w.+-]+)(?:[\t-\r \x85\u200e\u200f\u2028\u2029/])")
# Behind such a literal the Rust crate's lookahead is out of step by a quote.
BYTE_WITH_ESCAPE = re.compile(r"b'\\x")
# What goes on behind points that end a range, in a struct or value without an end, and a number of 128 bits in a range.
OPEN_RANGE = re.compile(r"\.\.=?[0-9b+=.-]|[iu]128")
OPEN = ("RangeFrom", "RangeFull", "RangeInclusive", '"raw"', '"value"')
BUILT = CASES / "out" / "ron_test_rows"
BATCH = {False: 20000, True: 4000}  # as many answers as a run of `rt try` can print, without errors or layouts and with them

sys.setrecursionlimit(100000)


def answers(command, lines, size, folder=None):
    """An answer for each request, in batches. One that ends the program is answered by `ended`."""
    found = []
    while len(found) < len(lines):
        batch = lines[len(found):len(found) + size]
        run = subprocess.run(command, input="\n".join(batch) + "\n", cwd=folder, capture_output=True, text=True)
        told = [json.loads(line) for line in run.stdout.split("\n") if line.startswith("{")]
        found += told[:len(batch)]
        if len(told) < len(batch):
            found.append({"ended": run.returncode})
    return found


def outcome(answer):
    return next((key for key in ("ok", "err") if key in answer), "other")


def as_one(answer):
    """The answer to several steps as the answer to one: what was read, with what was left after each step, up to the
    first refusal, and that refusal."""
    if not isinstance(answer.get("ok"), list) or "rest" not in answer:
        return answer
    steps = answer["ok"]
    taken = list(itertools.takewhile(lambda step: "ok" in step, steps))
    read = [answer["rest"]] + [[step["ok"], step["rest"]] for step in taken]
    behind = steps[len(taken):]
    goes_on = any("ok" in step or step["rest"] != behind[0]["rest"] for step in behind)
    return {**(behind[0] if behind else {"ok": None}), "read": read, "goes_on": goes_on}


def in_force(request):
    announced = re.findall(r"\w+", " ".join(re.findall(r"enable\(([^)]*)\)", request["text"])))
    return request.get("ext", 0) | sum(1 << bit for bit, name in enumerate(EXTENSIONS) if name in announced)


def holds_float(value):
    return isinstance(value, list) and (value[:1] in (["f32"], ["f64"]) or any(map(holds_float, value)))


def holds_values(schema):
    """Whether values without a schema may be read: as a shape, as raw texts, or of unknown fields that are skipped."""
    table = json.dumps(schema)
    return '"value"' in table or '"raw"' in table or "], true]" in table


def reads_raw_directly(port):
    """Whether a raw text is read directly behind what an earlier step read."""
    steps = port.get("read", [])[1:]
    return any("raw" in json.dumps(data) and not re.match(GAP, begun)[0] for (_, begun), (data, _) in zip(steps, steps[1:]))


def reads_raw_behind_gap(request, port):
    """Whether what is refused is a raw text with a gap before it, behind what an earlier step read."""
    taken = len(port.get("read", [])) - 1
    if taken < 1 or outcome(port) != "err" or not re.match(GAP, port["rest"])[0]:
        return False
    kind, *roots = request["steps"][taken]
    return kind == "read" and request["schema"][roots[0]] == "raw"


def named_row(request, port, crate):
    """The row of docs/DIFFERENCES.md that a difference is of."""
    if request["op"] == "into":
        return "what a `Value` becomes" if outcome(crate) == "ok" else "OTHER"
    extensions, text = in_force(request), request["text"]
    if request["op"] in ("raw", "value", "value_from_str") or holds_values(request["schema"]):
        if outcome(port) == "err" and (holds_float(crate.get("ok")) or FLOAT.search(text)):
            return "a float"
    if request["op"] == "rewrite" and "data" in port and port["data"] == crate.get("data"):
        return written_row(request, port, crate)
    if request["op"] == "steps" and reads_raw_behind_gap(request, port):
        return "a further `read` with a gap before it"
    if request["op"] == "steps" and holds_values(request["schema"]) and NAME_AND_GAP.search(text):
        return "the gap behind a name for the unit"
    if request["op"] == "steps" and reads_raw_directly(port):
        return "a raw text directly behind another value"
    if len(port.get("read", [])) > 1 and outcome(port) == "err" and re.match(GAP, port["rest"])[0]:
        return "a further `read` with a gap before it"
    begun = [text] + [left for _, left in port.get("read", [])[1:]]
    if extensions & IMPLICIT_SOME and any(map(SOME_ALONE.search, begun)):
        return "the word `Some` without a parenthesis"
    if extensions & UNWRAP_VARIANT_NEWTYPES and outcome(port) == "err" and TWO_COMMAS.search(text):
        return "a second comma at the end of bare items"
    taken_here_alone = outcome(port) == "ok" and outcome(crate) == "err"
    if extensions & UNWRAP_VARIANT_NEWTYPES and taken_here_alone and BYTE_WITH_ESCAPE.search(text):
        return "what stands behind a byte literal with a hexadecimal escape"
    if request["op"] == "steps" and OPEN_RANGE.search(text) and any(name in json.dumps(request["schema"]) for name in OPEN):
        return "what follows a range without an end"
    if ".." in text and '"Range' in json.dumps(request["schema"]) and crate.get("kind") == "InvalidValueForType":
        return "a number of another width in a range"
    return "OTHER"


def written_row(request, port, crate):
    """The row that a difference in what is written of the same data is of."""
    if outcome(port) != outcome(crate):
        return "the limit on writing" if request.get("wlimit") is not None else "OTHER"
    bare = IMPLICIT_SOME | UNWRAP_VARIANT_NEWTYPES
    somes = port["ok"].count("Some(") - crate["ok"].count("Some(")
    return "a `Some` around a bare tuple" if somes > 0 and written_under(request) & bare == bare else "OTHER"


def written_under(request):
    """The extensions that are in force in writing, those of the configuration too."""
    return request.get("wext", 0) | (request.get("config") or {}).get("extensions", 0)


def tells_docs(meta):
    return bool(meta.get("doc")) or any(map(tells_docs, meta.get("fields", {}).values()))


def loses_lines(request):
    """Whether a doc comment may be written that no line's end closes."""
    config = request.get("config") or {}
    return "\n" not in config.get("new_line", "\n") and tells_docs(config.get("path_meta", {}))


def difference(request, port, crate):
    here, there = outcome(port), outcome(crate)
    if here != there:
        return f"{named_row(request, port, crate)}: {here} here, {there} there"
    if port.get("goes_on"):
        return "OTHER: goes on after a refusal"
    if port.get("read") != crate.get("read"):
        return f"{named_row(request, port, crate)}: other steps"
    if here == "ok" and (port["ok"], port.get("data")) != (crate["ok"], crate.get("data")):
        return f"{named_row(request, port, crate)}: other data or text"
    if "kind" in port and port["kind"] != crate.get("kind"):
        return f"error: {port['kind']} here, {crate.get('kind')} there"
    return None


def unmarked(data):
    """The data without the marks that tell which strings and bytes are slices of the text."""
    if not isinstance(data, list):
        return data
    if len(data) == 3 and data[0] in ("str", "bytes") and data[2] in ("s", "a"):
        return data[:2]
    return [unmarked(part) for part in data]


def without_gaps(data):
    """The data with the gaps of its raw texts left out: what is written comes back the same but for gaps around them."""
    if not isinstance(data, list):
        return data
    if len(data) == 2 and data[0] == "raw":
        return ["raw", re.sub(GAP, "", data[1])]
    return [without_gaps(part) for part in data]


def has_raw_keys(request):
    """Whether a key of a map may hold a raw text, which is told from others by its gaps."""
    table = json.dumps(request["schema"])
    return '"raw"' in table and '"map"' in table


def loses_somes(request):
    """Whether a value without a schema may hold a `Some` that isn't written."""
    return holds_values(request["schema"]) and written_under(request) & IMPLICIT_SOME and "Some" in request["text"]


def without_widths(data, in_value=False):
    """The data without the widths of numbers in values without a schema, which aren't written."""
    if not isinstance(data, list):
        return data
    if in_value and len(data) == 2 and isinstance(data[1], str) and re.fullmatch("[iu][0-9]+", str(data[0])):
        return data[1]
    parts = [without_widths(part, in_value or data[:1] == ["value"]) for part in data]
    if data[:1] == ["map"]:
        # The width of a key may be all that tells it from another, and in a value it tells the key's place.
        pairs = list({json.dumps(key): value for key, value in parts[1]}.items())
        return ["map", sorted(pairs, key=json.dumps) if in_value else pairs]
    return parts


def as_raw(line):
    """The same text asked for as a raw value."""
    request = json.loads(line)
    return json.dumps({"op": "raw", **{name: request[name] for name in ("text", "show") if name in request}})


def conversions(oracle, lines, size):
    """The values of the texts, where the Rust crate reads one without a float, asked to become data of the schemas."""
    requests = [json.loads(line) for line in lines]
    asked = [json.dumps({"op": "value", "text": one["text"], "ext": one.get("ext", 0), "limit": None}) for one in requests]
    read = zip(requests, answers([oracle], asked, size))
    held = [(one["schema"], answer["ok"]) for one, answer in read if "ok" in answer and not holds_float(answer["ok"])]
    return [json.dumps({"op": "into", "schema": schema, "value": value}) for schema, value in held]


def not_read_back(run, lines, ported):
    """The requests whose written text doesn't read back to the data that was written."""
    written = [(json.loads(line), answer) for line, answer in zip(lines, ported) if outcome(answer) == "ok"]
    lost = lambda request: loses_somes(request) or has_raw_keys(request) or loses_lines(request)
    written = [(request, answer) for request, answer in written if not lost(request)]
    back = [
        json.dumps({"op": "read", "schema": request["schema"], "text": answer["ok"], "ext": request["wext"], "limit": None})
        for request, answer in written
    ]
    plain = lambda data: without_gaps(without_widths(unmarked(data)))
    again = [plain(answer.get("ok")) for answer in run(back)]
    lost = [line for line, data, (_, answer) in zip(back, again, written) if data != plain(answer["data"])]
    print(f"{len(back)} written with all their Somes, {len(back) - len(lost)} of them read back to the same data")
    return lost


def main():
    words = [word for word in sys.argv[1:] if not word.startswith("--")]
    oracle = os.environ.get("ORACLE")
    if len(words) != 2 or not oracle or not os.access(oracle, os.X_OK):
        print(__doc__ if len(words) != 2 else "ORACLE names no program: nothing is compared", file=sys.stderr)
        return 2
    with_errors = "--errors" in sys.argv
    kind = next((word for word in ("writing", "layouts", "steps") if f"--{word}" in sys.argv), None)
    seed, count = map(int, words)
    if "--spliced" in sys.argv:
        lines = list(spliced_requests.requests(seed, count, with_errors))
    elif "--values" in sys.argv or "--raws" in sys.argv:
        lines = list(random_values.requests(seed, count, with_errors))
        if "--raws" in sys.argv:
            lines = [as_raw(line) for line in lines]
    else:
        lines = list(requests(seed, count, with_errors, kind))
    if "--into" in sys.argv:
        lines = conversions(oracle, lines, BATCH[False])
    program = [str(BUILT.resolve())] if os.access(BUILT, os.X_OK) else ["rt", "try", "--seconds", "400"]
    size = BATCH[with_errors or kind == "layouts"]
    run = lambda batch: answers(program, batch, size, CASES)
    ported = run(lines)
    crates = answers([oracle], lines, size)
    lost = not_read_back(run, lines, ported) if kind in ("writing", "layouts") else []
    kinds, smallest, read = collections.Counter(), {}, 0
    for line, port, crate in zip(lines, map(as_one, ported), map(as_one, crates)):
        read += outcome(port) == outcome(crate) == "ok"
        kind = difference(json.loads(line), port, crate)
        if kind:
            kinds[kind] += 1
            if kind not in smallest or len(line) < len(smallest[kind][0]):
                smallest[kind] = (line, port, crate)
    print(f"{len(lines)} requests, {read} read by both")
    for kind, count in sorted(kinds.items()):
        line, port, crate = smallest[kind]
        print(f"{count} {kind}\n    {line}\n    here  {json.dumps(port)[:300]}\n    there {json.dumps(crate)[:300]}")
    for line in lost[:1]:
        print(f"{len(lost)} OTHER: not read back\n    {line}")
    return 1 if lost or any(kind.startswith("OTHER") for kind in kinds) else 0


if __name__ == "__main__":
    sys.exit(main())
