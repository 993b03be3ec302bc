"""Random configurations of writing, as members of requests of `ron_test_rows`."""

DEPTHS = [0, 0, 1, 1, 2, 2, 3, 4, 6]
NEW_LINES = ["\n", "\n", "\r\n", "", " ", "\n\n", "\r", "\t\n", "\u2028"]
INDENTORS = ["", " ", "  ", "\t", "\u200e", "\n"]
SEPARATORS = ["", "", "  ", "\t", "\n", "\u0085"]
# What can't stand in a gap; a space of another kind can't either.
WRONG = ["x", "//", ",", "\u00a0", "\u3000", " x "]
SWITCHES = [
    "struct_names", "separate_tuple_members", "enumerate_arrays", "compact_arrays", "compact_structs", "compact_maps",
    "number_suffixes", "compact_ranges",
]
DOCS = ["", "first", "two\nlines", "ends\n", "\n", "a\r\nb", "a\rb", "a\r", "c\n\n\nd", "  \u00e9 */", "\r\n", "x\n\r\n"]


class Configs:
    """Configurations by a source of chances."""

    def __init__(self, source):
        self.source = source

    def config(self, names):
        """A configuration, with doc comments of fields of these names."""
        config = {}
        for name, texts in ("new_line", NEW_LINES), ("indentor", INDENTORS), ("separator", SEPARATORS):
            if self.source.chance(0.25):
                config[name] = self.source.choose(WRONG if self.source.chance(0.02) else texts)
        if self.source.chance(0.35):
            config["depth_limit"] = self.source.choose(DEPTHS)
        share = self.source.choose([0, 0.2, 0.2, 0.5])
        for name in SWITCHES:
            if self.source.chance(share):
                config[name] = True
        if self.source.chance(0.3):
            config["escape_strings"] = False
        if self.source.chance(0.3):
            config["extensions"] = self.source.random.randrange(16)
        if self.source.chance(0.35):
            config["path_meta"] = self.meta(names, 3)
        return config

    def meta(self, names, depth):
        """The doc comment of a field and those of the fields within it."""
        meta = {"doc": self.source.choose(DOCS)} if self.source.chance(0.7) else {}
        if depth and self.source.chance(0.8):
            meta["fields"] = {name: self.meta(names, depth - 1) for name in names if self.source.chance(0.6)}
        return meta
