"""Random schemas of every shape, as the tables that a request holds."""

NAMES = ["A", "B", "Cd", "x", "y", "None", "Some", "true", "a-b", "r", "é", "Some1", "_"]
WIDTHS = ["i8", "u8", "i32", "u16", "i64", "u128"]
LEAVES = ["bool", "int", "int", "char", "str", "bytes", "unit", "unit_struct", "value", "raw", "raw"]
SHAPES = (
    ["option"] * 5 + ["map"] * 3 + ["enum"] * 5 + ["newtype"] * 3 + ["tuple"] * 2 + ["tuple_struct"] * 2
    + ["struct"] * 2 + ["range"] * 3 + ["seq", "unit_struct", "unit", "value", "raw"]
)
RANGES = [
    ("Range", ["start", "end"]), ("RangeInclusive", ["start", "end"]), ("RangeInclusive", ["start", "last"]),
    ("RangeFrom", ["start"]), ("RangeTo", ["end"]), ("RangeToInclusive", ["end"]), ("RangeToInclusive", ["last"]),
]


def field_names(schema):
    """The names of the fields in a schema, of variants too."""
    lists = [shape["struct"][1] for shape in schema if isinstance(shape, dict) and "struct" in shape]
    for shape in schema:
        variants = shape["enum"][1] if isinstance(shape, dict) and "enum" in shape else []
        lists += [content[0]["struct"][0] for _, *content in variants if content and "struct" in content[0]]
    return sorted({field[0] for fields in lists for field in fields})


class SchemaMaker:
    """A table of shapes as it grows. A shape may refer back to one that it stands in, past a shape that takes text."""

    def __init__(self, source):
        self.source = source
        self.shapes = []

    def table(self, depth):
        self.add(depth, ())
        return self.shapes

    def name(self):
        return "" if self.source.chance(0.01) else self.source.choose(NAMES)

    def names(self, count):
        found = []
        while len(found) < count:
            name = self.name()
            if name not in found:
                found.append(name)
        return found

    def add(self, depth, around):
        index = len(self.shapes)
        self.shapes.append(None)
        is_leaf = depth <= 0 or self.source.chance(0.15)
        kind = self.source.choose(LEAVES if is_leaf else SHAPES)
        self.shapes[index] = self.shape(kind, depth - 1, around, around + (index,))
        return index

    def shape(self, kind, depth, around, here):
        choose, chance = self.source.choose, self.source.chance
        several = lambda counts: [self.add(depth, here) for _ in range(choose(counts))]
        if kind == "int":
            return choose(WIDTHS)
        if kind == "unit_struct":
            return {kind: "RangeFull" if chance(0.2) else self.name()}
        if kind == "range":
            return {"struct": self.range()}
        if kind == "option":
            return {kind: choose(around) if around and chance(0.12) else self.add(depth, around)}
        if kind == "newtype":
            return {kind: [self.name(), self.add(depth, around)]}
        if kind == "seq":
            return {kind: choose(here) if chance(0.1) else self.add(depth, here)}
        if kind == "map":
            return {kind: [self.add(depth, here), choose(here) if chance(0.1) else self.add(depth, here)]}
        if kind == "tuple":
            return {kind: several([0, 1, 1, 2, 2, 3])}
        if kind == "tuple_struct":
            return {kind: [self.name(), several([0, 1, 1, 2, 2, 3])]}
        if kind == "struct":
            return {kind: [self.name(), *self.field_list(depth, here)]}
        if kind == "enum":
            return {kind: [self.name(), [self.variant(name, depth, here) for name in self.names(choose([1, 2, 3]))]]}
        return kind

    def range(self):
        """The name and the fields of a range struct; now and then one that is none."""
        name, fields = self.source.choose(RANGES)
        if self.source.chance(0.05):
            fields = self.source.choose([fields[::-1], fields + ["x"], ["start", "last"], ["start"], ["end"]])
        bound = lambda: self.source.choose(WIDTHS) if self.source.chance(0.9) else self.source.choose(["value", "str", "char"])
        return [name, [[field, self.put(bound())] for field in fields]]

    def put(self, shape):
        self.shapes.append(shape)
        return len(self.shapes) - 1

    def field_list(self, depth, here):
        """Fields, and now and then that unknown ones are skipped."""
        return [self.fields(depth, here)] + ([True] if self.source.chance(0.2) else [])

    def fields(self, depth, here):
        fields = []
        for name in self.names(self.source.choose([0, 1, 1, 2, 2, 3])):
            field = [name, self.add(depth, here)]
            fields.append(field + [True] if self.source.chance(0.25) else field)
        return fields

    def variant(self, name, depth, here):
        kind = self.source.choose(["unit", "newtype", "newtype", "newtype", "tuple", "struct"])
        if kind == "unit":
            return [name]
        if kind == "newtype":
            return [name, {kind: self.add(depth, here)}]
        if kind == "tuple":
            return [name, {kind: [self.add(depth, here) for _ in range(self.source.choose([0, 1, 2]))]}]
        return [name, {kind: self.field_list(depth, here)}]
