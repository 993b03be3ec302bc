#!/usr/bin/env python3
"""Random requests to read a text as a value without a schema, by a seed: texts made by the grammar, half of them
damaged, and soups of tokens."""

import json
import random

GAPS = [" ", " ", "\n", "\t", "/*c*/", "// c\n", " /* /* */ */ ", "/*,*/", "// , ) ]\n", "\u200e"]
NAMES = ["a", "b", "Cd", "x", "r", "br", "é", "_", "r#true", "r#a", "r#.5", "Some1", "None_", "Foo", "inf1", "e5", "truest"]
SCALARS = [
    "true", "false", "None", "()", "'a'", "','", "')'", "'\\''", "'''", "'\\n'", '"a"', '""', '","', '")"', '"a\\"b"', 'r"x"', 'r#"q")"#',
    'b"a"', 'br"x,"', 'b"\\x00"', "b'a'", "b','", "b'\\''", "0", "-0", "5", "-5", "+7", "255", "256", "-128", "-129", "65536", "0x1f", "0b11", "0o17",
    "1_000", "300u16", "5i8", "5i128", "340282366920938463463374607431768211455", "340282366920938463463374607431768211456",
    "-170141183460469231731687303715884105728", "18446744073709551616", "4294967296", "-32769",
    "..", "1..2", "1..=2", "1..", "..2", "..=2", "-5..5", "0x10..0b11", "b'a'..=b'z'", "1u8..300", "5..-5i16",
]
ODD = ["1.5", "1e5", "inf", "NaN", "-inf", "NaNf64", "inff32", "1.", ".5", "0x1e5", "5f32", "1.0..", "1...2", "..=", "1..=", "1 ..2", "300u8..2", "1..2..3", "300u8", "_1", "1_", "0b2", "--1", "+-1", "'ab'", "b'é'",
       "Some", "Some 5", "None()", "true()", "r#", "b'", "r\"", "Some()", "Some(,)", "r#true(1)", "1 2", "'/'", "A('/')"]
SOUP = list("(),:[]{}'\"/*#r b0_.+-\\") + ["Some(", "None", "true", "a", "b", "1", "23", "-4", "'a'", "','", '"s"', '","', "b'a'", "b','", 'r"', 'r#"', '"#', "//", "/*", "*/", "\n", "()", "a:", "x(", ", ", "1,", "é", "r#a"]


class Values:
    def __init__(self, seed):
        self.random = random.Random(seed)
        self.gap_chance = 0

    def chance(self, p):
        return self.random.random() < p

    def choose(self, options):
        return self.random.choice(options)

    def gap(self):
        return self.choose(GAPS) if self.chance(self.gap_chance) else ""

    def joined(self, items):
        text = self.gap()
        for number, item in enumerate(items):
            text += ("," + self.gap() if number else "") + item + self.gap()
        if items and self.chance(0.25):
            text += "," + self.gap()
        return text

    def value(self, depth):
        if depth == 0 or self.chance(0.25):
            return self.choose(ODD) if self.chance(0.06) else self.choose(SCALARS)
        kind = self.random.randrange(8)
        count = self.choose([0, 1, 1, 2, 2, 3])
        if kind == 0:
            return "[" + self.joined([self.value(depth - 1) for _ in range(count)]) + "]"
        if kind == 1:
            keys = [self.value(min(depth - 1, 1)) for _ in range(count)]
            return "{" + self.joined([key + self.gap() + ":" + self.gap() + self.value(depth - 1) for key in keys]) + "}"
        if kind in (2, 3):
            name = self.choose(NAMES) + self.gap() if self.chance(0.4) else ""
            return name + "(" + self.inside(depth, count) + ")"
        if kind == 4:
            return self.choose(NAMES)
        if kind in (5, 6):
            content = self.inside(depth, count) if self.chance(0.5) else self.joined([self.value(depth - 1)])
            return "Some" + self.gap() + "(" + content + ")"
        return self.value(depth - 1)

    def inside(self, depth, count):
        if self.chance(0.4):
            return self.joined([self.choose(NAMES) + self.gap() + ":" + self.gap() + self.value(depth - 1) for _ in range(count)])
        return self.joined([self.value(depth - 1) for _ in range(count)])

    def damaged(self, text):
        for _ in range(self.choose([1, 1, 2, 3])):
            place = self.random.randrange(len(text) + 1)
            kind = self.random.randrange(4)
            if kind == 0:
                text = text[:place] + text[place + 1:]
            elif kind == 1:
                text = text[:place] + self.choose(SOUP) + text[place:]
            elif kind == 2:
                text = text[:place] + self.choose(SOUP) + text[place + 1:]
            else:
                other = self.random.randrange(len(text) + 1)
                text = text[:place] + text[min(place, other):max(place, other)] + text[place:]
        return text

    def request(self):
        self.gap_chance = self.choose([0, 0, 0.1, 0.3])
        if self.chance(0.15):
            text = "".join(self.choose(SOUP) for _ in range(self.random.randrange(1, 14)))
        else:
            text = self.gap() + self.value(self.choose([0, 1, 2, 2, 3, 4])) + self.gap()
            if self.chance(0.5):
                text = self.damaged(text)
        if len(text) > 300:
            return None
        request = {"op": "value", "text": text, "ext": self.random.randrange(16)}
        if self.chance(0.2):
            request["limit"] = self.random.randrange(8)
        if self.chance(0.05):
            request = {"op": "value_from_str", "text": text}
        return request


def requests(seed, count, with_errors):
    """That many requests, as lines."""
    values = Values(seed)
    while count:
        request = values.request()
        if request is not None:
            count -= 1
            yield json.dumps({**request, "show": True} if with_errors else request)
