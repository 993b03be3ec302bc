"""Random requests of `ron_test_rows`, by a seed: schemas of every shape, texts that they spell, and damage to half of them."""

import json
import random

from random_configs import Configs
from random_schemas import SchemaMaker, field_names
from random_values import Values

EXTENSIONS = ["unwrap_newtypes", "implicit_some", "unwrap_variant_newtypes", "explicit_struct_names"]
UNWRAP_NEWTYPES, IMPLICIT_SOME, UNWRAP_VARIANT_NEWTYPES, EXPLICIT_STRUCT_NAMES = 1, 2, 4, 8
BOUNDS = ["0", "5", "7", "120", "5", "1_0", "-5", "+3", "0x1f", "0b11", "b'a'", "300", "5u8", "9i64", "300u8", "70000"]
GAPS = [" ", " ", "\n", "\t", "/*c*/", "// c\n", " /* /* */ */ ", "\u200e", "  "]
TEXTS = {
    "bool": ["true", "false"],
    "unit": ["()"],
    "char": ["'a'", "'\\n'", "'é'", "','", "')'"],
    "str": ['"a"', '""', '"a\\nb"', 'r"x"', 'r#"q"#', '"),"', '"None"'],
    "bytes": ['b"a"', 'b""', 'br"x"', "[1,2]", "[]", 'b"\\x00"'],
}
# Texts whose characters are written in several ways.
ROUGH_TEXTS = {
    "char": ["'a'", "'\\''", "'\\\\'", "'\\n'", "'\\u{301}'", "'\"'"],
    "str": ['"a"', '""', 'r#"a"b"#', 'r##"a"#b"##', 'r###"x"##y"###', '"\\\\"', '"\\n\\t\\r\\0\\u{7f}"', '"it\'s"', '"\\u{200b}\u00e9\\u{301}"', '"Some(1)"'],
    "bytes": ['b"a"', 'b"\\xff\\"\\x00"', 'br#"a"b"#', 'b"\\xc3\\xa9"', 'b"\\\\"', 'br##"x"#y"##', 'b"\\n\'"', "[195,169,34]"],
}
PIECES = list("(),:[]{}#!\"'/*.+-_ rb0123Nabx\n=") + [
    "None", "Some", "Some(", "()", "é", "//", "/*", "Some(1)", "None,", ",1", "r#None",
]


class Requests:
    """A stream of requests. `show` asks for the errors of refused texts as well. A `kind` asks for one thing alone:
    `writing` for whole texts to be read and written anew, `layouts` for these to be written by configurations too, `steps`
    for values to be read one after another."""

    def __init__(self, seed, show, kind):
        self.random = random.Random(seed)
        self.show = show
        self.kind = kind
        self.gap_chance = 0
        self.values_of_any_form = Values(seed)
        self.configs = Configs(self)

    def chance(self, probability):
        return self.random.random() < probability

    def choose(self, options):
        return self.random.choice(options)

    def gap(self):
        return self.choose(GAPS) if self.chance(self.gap_chance) else ""

    def request(self):
        self.gap_chance = self.choose([0, 0, 0.1, 0.3])
        self.values_of_any_form.gap_chance = self.gap_chance
        schema = SchemaMaker(self).table(self.choose([1, 2, 2, 3, 3, 4, 5]))
        extensions = self.random.randrange(16)
        roots = [0] if self.kind != "steps" else [
            self.random.randrange(len(schema)) for _ in range(self.choose([1, 2, 2, 3, 4]))
        ]
        text = self.gap() + self.values(schema, extensions, roots) + self.gap()
        if len(text) > 300:
            return None
        if self.kind in ("writing", "layouts"):
            request = {"op": "rewrite", "schema": schema, "text": text, "ext": extensions, "limit": None}
            request |= {"wext": self.random.randrange(16), "wlimit": None}
            return request if self.kind == "writing" else request | self.layout(schema)
        text, extensions = self.announced(text, extensions)
        if self.chance(0.5):
            text = self.damaged(text)
        request = {"op": "read", "schema": schema, "text": text}
        if self.kind == "steps":
            request = {"op": "steps", "schema": schema, "text": text, "steps": self.steps(roots)}
        if extensions:
            request["ext"] = extensions
        if self.chance(0.05):
            request["limit"] = None
        elif self.chance(0.3):
            request["limit"] = self.random.randrange(11)
        if self.kind is None and self.chance(0.1):
            request["op"] = "rewrite"
            request["wext"] = self.random.randrange(16)
            if self.chance(0.3):
                request["wlimit"] = self.random.randrange(7)
        if self.show:
            request["show"] = True
        return request

    def layout(self, schema):
        """A configuration, now and then a small limit, and whether errors are shown."""
        limit = {"wlimit": self.random.randrange(7)} if self.chance(0.1) else {}
        shown = {"show": True} if self.show else {}
        return {"config": self.configs.config(field_names(schema)[:4]), **limit, **shown}

    def values(self, schema, extensions, roots):
        """Values of these shapes, directly behind one another but for a gap or a comma now and then."""
        texts = [Speller(self, schema, extensions).value(root, self.choose([3, 4, 6])) for root in roots]
        between = lambda: self.choose([self.gap(), ","]) if self.chance(0.06) else ""
        return "".join(text + between() for text in texts[:-1]) + texts[-1]

    def steps(self, roots):
        """The values in turn, and the end of the text, where one of these may be left out, or asked for twice."""
        steps = []
        for step in [["read", root] for root in roots] + [["end"]]:
            steps += [step] * self.choose([1] * 18 + [0, 2])
        return steps

    def announced(self, text, extensions):
        """Some of the extensions in an attribute in place of the default ones."""
        if not self.chance(0.1):
            return text, extensions
        names = [name for bit, name in enumerate(EXTENSIONS) if extensions >> bit & 1 and self.chance(0.7)]
        if not names:
            return text, extensions
        for name in names:
            extensions &= ~(1 << EXTENSIONS.index(name))
        return f"#![enable({','.join(names)})]{self.gap()}{text}", extensions

    def damaged(self, text):
        for _ in range(self.choose([1, 1, 1, 2, 3])):
            if not text:
                return self.choose(PIECES)
            place = self.random.randrange(len(text))
            front, behind = text[:place], text[place + 1:]
            text = self.choose([
                front + behind,
                front + text[place] + text[place:],
                front + self.choose(PIECES) + behind,
                front + self.choose(PIECES) + text[place:],
                front,
                front + text[place + self.random.randrange(8):],
            ])
        return text


class Speller:
    """Texts that a schema spells under a set of extensions; now and then one that another set would."""

    def __init__(self, source, schema, extensions):
        self.source, self.schema, self.extensions = source, schema, extensions
        self.left = 60

    def has(self, extension):
        return bool(self.extensions & extension) != self.source.chance(0.02)

    def gap(self):
        return self.source.gap()

    def comma(self, probability):
        if not self.source.chance(probability):
            return ""
        return "," + self.gap() + ("," if self.source.chance(0.06) else "")

    def identifier(self, name):
        return "r#" + name if not name.isidentifier() or self.source.chance(0.06) else name

    def struct_name(self, name):
        return self.identifier(name) if self.has(EXPLICIT_STRUCT_NAMES) or self.source.chance(0.3) else ""

    def items(self, texts):
        if not texts:
            return self.comma(0.05)
        return ",".join(self.gap() + text + self.gap() for text in texts) + self.comma(0.2)

    def in_brackets(self, inside):
        return "(" + self.gap() + inside + self.gap() + ")"

    def several(self, depth):
        return 0 if depth <= 0 or self.left < 0 else self.source.choose([0, 1, 1, 2, 3])

    def kind(self, index):
        shape = self.schema[index]
        return (shape, None) if isinstance(shape, str) else next(iter(shape.items()))

    def value(self, index, depth):
        self.left -= 1
        kind, of = self.kind(index)
        if kind in ("value", "raw"):
            return self.any_value(depth)
        if of is None:
            return self.leaf(kind)
        if kind == "unit_struct":
            return ".." if of == "RangeFull" and self.source.chance(0.6) else self.struct_name(of) or "()"
        if kind == "struct" and of[0].startswith("Range") and self.source.chance(0.8):
            return self.range(of)
        if kind == "option":
            return self.option(of, depth, False)
        if kind == "seq":
            items = [self.value(of, depth - 1) for _ in range(self.several(depth))]
            return "[" + self.gap() + self.items(items) + "]"
        if kind == "map":
            return "{" + self.gap() + self.items([self.pair(of, depth) for _ in range(self.several(depth))]) + "}"
        if kind == "tuple":
            return self.in_brackets(self.tuple(of, depth))
        if kind == "enum":
            return self.enum(of[1], depth)
        if kind == "newtype" and self.has(UNWRAP_NEWTYPES):
            return self.value(of[1], depth - 1)
        name = self.struct_name(of[0])
        gap = self.gap() if name and (kind != "tuple_struct" or self.source.chance(0.1)) else ""
        return name + gap + self.in_brackets(self.within(kind, of, depth))

    def range(self, of):
        names = [field[0] for field in of[1]]
        bound = lambda is_there: self.source.choose(BOUNDS) if is_there != self.source.chance(0.03) else ""
        closed = of[0].endswith("Inclusive") != self.source.chance(0.04)
        gap = self.gap() if self.source.chance(0.05) else ""
        return bound("start" in names) + gap + ("..=" if closed else "..") + bound("end" in names or "last" in names)

    def within(self, kind, of, depth):
        if kind == "newtype":
            return self.content(of[1], depth)
        return self.tuple(of[1], depth) if kind == "tuple_struct" else self.fields(of[1], depth, len(of) > 2)

    def pair(self, of, depth):
        return self.value(of[0], depth - 1) + self.gap() + ":" + self.gap() + self.value(of[1], depth - 1)

    def content(self, index, depth):
        return self.value(index, depth - 1) + self.gap() + self.comma(0.15)

    def tuple(self, indices, depth):
        texts = [self.value(index, depth - 1) for index in indices]
        if texts and self.source.chance(0.03):
            texts.pop()
        if self.source.chance(0.03):
            texts.append(self.source.choose(["1", "()", "None"]))
        return self.items(texts)

    def fields(self, fields, depth, skips_unknown):
        fields = list(fields)
        if self.source.chance(0.4):
            self.source.random.shuffle(fields)
        texts = []
        for field in fields:
            if self.source.chance(0.5 if len(field) > 2 else 0.03):
                continue
            for _ in range(2 if self.source.chance(0.03) else 1):
                name = "zz" if self.source.chance(0.02) else self.identifier(field[0])
                texts.append(name + self.gap() + ":" + self.gap() + self.value(field[1], depth - 1))
        if skips_unknown and self.source.chance(0.6):
            unknown = self.source.choose(["zz", "yy", "r#true"]) + self.gap() + ":" + self.gap() + self.any_value(depth)
            texts.insert(self.source.random.randrange(len(texts) + 1), unknown)
        return self.items(texts)

    def any_value(self, depth):
        return self.source.values_of_any_form.value(max(0, min(depth - 1, 2)))

    def enum(self, variants, depth):
        variant = self.source.choose(sorted(variants, key=len)[:1] if depth <= 0 else variants)
        name = "Zz" if self.source.chance(0.03) else self.identifier(variant[0])
        if len(variant) == 1:
            return name
        (kind, of), = variant[1].items()
        if kind == "newtype":
            inside = self.bare(of, depth - 1) if self.has(UNWRAP_VARIANT_NEWTYPES) else self.content(of, depth)
        else:
            inside = self.tuple(of, depth) if kind == "tuple" else self.fields(of[0], depth, len(of) > 1)
        return name + self.gap() + self.in_brackets(inside)

    def option(self, content, depth, is_bare):
        if depth <= 0 or self.left < 0 or self.source.chance(0.2):
            text = "None"
        elif self.has(IMPLICIT_SOME) and self.source.chance(0.75):
            return self.bare(content, depth - 1) if is_bare else self.value(content, depth - 1)
        else:
            unwrapped = self.has(UNWRAP_VARIANT_NEWTYPES)
            inside = self.bare(content, depth - 1) if unwrapped else self.content(content, depth)
            text = "Some" + self.gap() + self.in_brackets(inside)
        return text + self.comma(0.15) if is_bare else text

    def bare(self, index, depth):
        kind, of = self.kind(index)
        if self.source.chance(0.06):
            return self.value(index, depth) + self.comma(0.15)
        if kind == "unit_struct" and of == "RangeFull" and self.source.chance(0.5):
            return ".." + self.gap() + self.comma(0.2)
        if kind == "struct" and of[0].startswith("Range") and self.source.chance(0.8):
            return self.range(of) + self.gap() + self.comma(0.2)
        if kind in ("unit", "unit_struct"):
            return self.comma(0.2)
        if kind == "tuple":
            return self.tuple(of, depth)
        if kind in ("tuple_struct", "struct", "newtype"):
            return self.within(kind, of, depth)
        if kind == "option":
            return self.option(of, depth, True)
        if kind == "value" and self.source.chance(0.5):
            return self.source.values_of_any_form.inside(1, self.source.choose([0, 1, 2, 3]))
        return self.value(index, depth) + self.gap() + self.comma(0.2)

    def leaf(self, kind):
        texts = TEXTS | ROUGH_TEXTS if self.source.kind == "layouts" else TEXTS
        if kind in texts:
            return self.source.choose(texts[kind])
        if self.source.chance(0.01):
            return "999999"
        if kind == "u8" and self.source.chance(0.1):
            return "b'a'"
        number = self.source.choose(["0", "1", "2", "7", "0x1f", "0b1", "1_0", "+1", "1" + kind])
        return "-" + number.lstrip("+") if kind[0] == "i" and self.source.chance(0.2) else number


def requests(seed, count, show=False, kind=None):
    """As many requests as asked for, no two alike, a line of JSON each."""
    source, seen = Requests(seed, show, kind), set()
    while len(seen) < count:
        request = source.request()
        line = json.dumps(request) if request else None
        if line and line not in seen:
            seen.add(line)
            yield line
