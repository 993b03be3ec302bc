#!/usr/bin/env python3
"""Requests by a seed, of the texts of the corpus (`crates/ron_test_rows/README.md`): pieces of one text put into another, damaged, and
now and then asked for by another text's schema, under other extensions or under a small limit."""

import json
import pathlib
import random

from random_values import Values

CORPUS = pathlib.Path(__file__).parent.parent / "crates" / "ron_test_rows"
KINDS = ("read", "value", "value_from_str", "raw", "steps")
LONGEST = 400


def has_aliases(shapes):
    """Whether a field has aliases, which no request to the Rust crate can name."""
    if not isinstance(shapes, list):
        return isinstance(shapes, dict) and any(map(has_aliases, shapes.values()))
    is_field = len(shapes) > 2 and isinstance(shapes[0], str) and isinstance(shapes[1], int)
    return is_field and isinstance(shapes[-1], list) or any(map(has_aliases, shapes))


def is_kept(request):
    return len(request.get("text", "x" * LONGEST)) < LONGEST and not has_aliases(request.get("schema"))


def corpus():
    """The requests of the corpus that can be asked of both with another text. Of a bad request none can."""
    lines = [(CORPUS / name).read_text(encoding="utf-8").splitlines() for name in ("stdin", "stdout")]
    asked = [json.loads(line) for line, answer in zip(*lines) if "bad_request" not in answer]
    asked = [one for one in asked if one.get("op") in KINDS and is_kept(one)]
    return [{key: part for key, part in one.items() if key not in ("show", "id")} for one in asked]


class Splicer:
    def __init__(self, seed):
        self.random = random.Random(seed)
        self.values = Values(seed)
        self.corpus = corpus()

    def text(self, text):
        """The text with a piece of another one in it, or damaged."""
        if self.random.random() < 0.5:
            return self.values.damaged(text)
        other = self.random.choice(self.corpus)["text"]
        begin, end = sorted(self.random.randrange(len(other) + 1) for _ in range(2))
        place = self.random.randrange(len(text) + 1)
        behind = place + self.random.choice([0, 0, 1, 2, end - begin])
        return text[:place] + other[begin:end] + text[behind:]

    def request(self):
        request = dict(self.random.choice(self.corpus))
        for _ in range(self.random.choice([0, 1, 1, 1, 1, 2])):
            request["text"] = self.text(request["text"])
        if request["op"] in ("raw", "value_from_str"):
            return request
        if self.random.random() < 0.5:
            request["ext"] = self.random.randrange(16)
        if self.random.random() < 0.15:
            request["limit"] = self.random.choice([0, 1, 2, 3, 5, None])
        other = self.random.choice(self.corpus)
        if request["op"] == "read" and "schema" in other and self.random.random() < 0.2:
            request["schema"], request["root"] = other["schema"], other.get("root", 0)
        return request


def requests(seed, count, with_errors):
    """That many requests, as lines."""
    splicer = Splicer(seed)
    for _ in range(count):
        request = splicer.request()
        yield json.dumps({**request, "show": True} if with_errors else request)
