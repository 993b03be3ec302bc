"""Random requests through devices, by a seed: readings of one that gives little at a time and may fail, writings to one
that has little room; each with what it has to answer by what the same request answers without a device."""

import json
import random

from random_requests import requests


def answered_io(answer):
    return answer.get("kind") == "Io"


def owned(data):
    """The data with each string and each byte string its own."""
    if not isinstance(data, list):
        return data
    if data[:1] in (["str"], ["bytes"]) and len(data) == 3:
        return [*data[:2], "a"]
    return [owned(part) for part in data]


class Reading:
    """The text, or the bytes, from a device that gives so many at a time, and in the end fails now and then."""

    def __init__(self, request, source):
        pieces = {"chunk": source.choice([1, 2, 3, 7, 64])} if source.random() < 0.5 else {"sizes": source.randrange(1 << 30)}
        self.fails = source.choice([False, False, True, "interrupted"])
        self.plain = {**request, "op": "read", "show": True}
        self.request = {**self.plain, "op": "read_io", **pieces, "fail": self.fails}

    def is_due(self, plain, answer):
        if self.fails:
            return answered_io(answer)
        return answer == {name: owned(held) for name, held in plain.items()}


class Writing:
    """The data of the text, to a device that has room for some bytes, or to a writer of text that has."""

    def __init__(self, request, source):
        self.plain = {**request, "show": True}
        self.source = source

    def asked(self, plain):
        """The request for the device, where there is something to be written."""
        if "data" not in plain:
            return False
        text = plain.get("ok", "")
        names = ("schema", "config", "show")
        kept = {name: self.plain[name] for name in names if name in self.plain}
        limits = {"ext": self.plain.get("wext", 0), "limit": self.plain.get("wlimit")}
        room = self.source.choice([0, 1, len(text) // 2, len(text), self.source.randrange(len(text.encode()) + 8)])
        self.op = self.source.choice(["write_io", "write_fmt"])
        self.request = {"op": self.op, **kept, **limits, "data": plain["data"], "budget": room}
        if self.source.random() < 0.5:
            self.request["slow"] = True
        return True

    def is_due(self, plain, answer):
        taken = answer.get("written", "").rstrip("\ufffd")
        if "ok" not in plain:
            return answer.get("kind") in (plain["kind"], "Io", "Fmt")
        whole, room = plain["ok"], self.request["budget"]
        if len(whole.encode()) <= room:
            return "ok" in answer and answer["written"] == whole
        failed = "Io" if self.op == "write_io" else "Fmt"
        return answer.get("kind") == failed and whole.startswith(taken) and len(taken.encode()) <= room


def made(seed, count, answers):
    """As many requests as asked for, half of them readings. `answers` says what a list of requests answers."""
    source = random.Random(seed)
    readings = [Reading(json.loads(line), source) for line in requests(seed, count // 2)]
    yield from zip(readings, answers([one.plain for one in readings]))
    writings = [Writing(json.loads(line), source) for line in requests(seed, count - count // 2, False, "layouts")]
    for one, plain in zip(writings, answers([one.plain for one in writings])):
        if one.asked(plain):
            yield one, plain
