#!/usr/bin/env python3
"""Prints the text of a binary tree, the same each time.

tree.py points|records|entities|lines LEVELS: the leaves are points of two numbers drawn evenly from all of i32; records
of a name, of bytes and of two numbers drawn evenly from all of u64 and of u32; or entities as games keep them. The text
is compact; `lines` are entities laid out over lines, with comments.
"""
import random
import string
import sys

PRINTED = "".join(map(chr, range(0x20, 0x7F)))
# What stands in a name in place of a letter, now and then.
ODD = ["\n", "\t", '"', "'", "\\", " ", "é", "ß", "漢", "🦀"]
SHORT = {"\0": r"\0", "\t": r"\t", "\r": r"\r", "\n": r"\n", "'": r"\'", '"': r"\"", "\\": r"\\"}


def escaped(character):
    return SHORT.get(character, character)


def escaped_byte(byte):
    character = chr(byte)
    if byte != 0 and character in SHORT:
        return SHORT[character]
    return character if character in PRINTED else f"\\x{byte:02x}"


def point(source):
    x, y = (source.randint(-(2**31), 2**31 - 1) for _ in range(2))
    return f"(x:{x},y:{y})"


def record(source):
    """A name of 8 to 24 characters, one in sixteen of them odd, and 16 to 32 bytes, half of them printed characters."""
    name = [source.choice(ODD if source.random() < 1 / 16 else string.ascii_letters) for _ in range(source.randint(8, 24))]
    data = [
        ord(source.choice(PRINTED)) if source.random() < 1 / 2 else source.choice([*range(0x20), *range(0x7F, 0x100)])
        for _ in range(source.randint(16, 32))
    ]
    name = "".join(map(escaped, name))
    data = "".join(map(escaped_byte, data))
    return f'(name:"{name}",data:b"{data}",id:{source.randrange(2**64)},size:{source.randrange(2**32)})'


WORDS = ["boss", "elite", "flying", "hidden", "magic", "quest", "rare", "shop"]
STATS = ["agility", "armor", "health", "luck", "mana", "speed", "strength"]


def kind(source):
    drawn = source.random()
    if drawn < 1 / 3:
        return "Player"
    if drawn < 2 / 3:
        return f"Npc({source.randrange(2**32)})"
    return f"Item(weight:{source.randrange(1000)},fragile:{source.choice(['true', 'false'])})"


def entity_fields(source):
    """A name as records have it, up to 4 tags, a level or none, a kind, and up to 7 numbers by name, in order."""
    name = "".join(map(escaped, (source.choice(ODD if source.random() < 1 / 16 else string.ascii_letters) for _ in range(source.randint(8, 24)))))
    tags = [f'"{word}"' for word in source.sample(WORDS, source.randint(0, 4))]
    level = "None" if source.random() < 1 / 4 else f"Some({source.randint(1, 99)})"
    stats = [f'"{word}":{source.randint(-1000, 1000)}' for word in sorted(source.sample(STATS, source.randint(0, 7)))]
    return f'"{name}"', tags, level, kind(source), stats


def entity(source):
    name, tags, level, of_kind, stats = entity_fields(source)
    return f"(name:{name},tags:[{','.join(tags)}],level:{level},kind:{of_kind},stats:{{{','.join(stats)}}})"


def lined_entity(source, margin):
    name, tags, level, of_kind, stats = entity_fields(source)
    inner = margin + "    "
    lines = [
        "(",
        f"{inner}// {source.choice(WORDS)} {source.choice(WORDS)}",
        f"{inner}name: {name},",
        f"{inner}tags: [{', '.join(tags)}],",
        f"{inner}level: {level}, /* {source.choice(STATS)} */",
        f"{inner}kind: {of_kind.replace(':', ': ').replace(',', ', ')},",
        f"{inner}stats: {{",
        *(f"{inner}    {stat.replace(':', ': ')}," for stat in stats),
        f"{inner}}},",
        f"{margin})",
    ]
    return "\n".join(lines)


def lined_tree(levels, source, margin=""):
    if levels == 0:
        return lined_entity(source, margin)
    inner = margin + "  "
    left, right = (lined_tree(levels - 1, source, inner) for _ in range(2))
    return f"(\n{inner}a: {left},\n{inner}b: {right},\n{margin})"


LEAVES = {"points": point, "records": record, "entities": entity}


def tree(leaf, levels, source):
    if levels == 0:
        return leaf(source)
    return f"(a:{tree(leaf, levels - 1, source)},b:{tree(leaf, levels - 1, source)})"


def main():
    kind_of_leaf, levels = sys.argv[1:]
    sys.stdout.reconfigure(encoding="utf-8")
    source = random.Random(1)
    text = lined_tree(int(levels), source) if kind_of_leaf == "lines" else tree(LEAVES[kind_of_leaf], int(levels), source)
    sys.stdout.write(text)


main()
