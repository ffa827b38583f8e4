"""The texts of tools/try-hostile: for each kind, a call that makes one of a size, what the program answers, and whether it is known to cost more
than the bounds of docs/LIMITS.md."""
import json
from dataclasses import dataclass, field, replace
from itertools import combinations, islice

CATALOG = '{"relations":[{"name":"t","columns":[{"name":"k","type":"text"}]},{"name":"u","columns":[{"name":"v","type":"int"}]}]}'
LONG_NAMES = "memory: names are printed at each node"
SCAN = '{"op":"scan","relation":"t","mode":"whole","size":"one"}'
NUMBERS = SCAN.replace('"t"', '"u"')


@dataclass(frozen=True)
class Texts:
    """The texts of a request: the file of a catalog, of a plan, of a table each, further arguments, or a bundle in the place of all."""

    catalog: str = CATALOG
    plan: str = f'{{"root":{SCAN}}}'
    tables: dict = field(default_factory=lambda: {"t": "k\n", "u": "v\n"})
    command: str = "check"
    words: tuple = ()
    bundle: str | None = None

    def size(self):
        if self.bundle is not None:
            return len(self.bundle)
        tables = self.tables.values() if self.command in ("run", "serial") else ()
        return sum(map(len, (self.catalog, self.plan, *self.words, *tables)))


@dataclass(frozen=True)
class Kind:
    """A kind of text, its smaller size, and a pattern of the line that the program answers. A kind that is known to cost too much says what."""

    name: str
    make: object
    size: int
    answer: str
    too_much: str = ""


def listed(items):
    return "[" + ",".join(items) + "]"


def planned(root, head=""):
    return f'{{{head}"root":{root}}}'


def table(text, relation="t"):
    scan = SCAN if relation == "t" else NUMBERS
    return Texts(plan=planned(scan), tables={relation: text}, command="serial")


def bundle(tables):
    """A bundle that evaluates a scan of the numbers over these tables."""
    return Texts(bundle=json.dumps({"command": "serial", "catalog": json.loads(CATALOG), "plan": {"root": json.loads(NUMBERS)}, "tables": tables}))


def declared_ranges(count):
    ranges = listed(f'{{"name":"r{it}","bounds":[{it}]}}' for it in range(count))
    return Texts(plan=planned(SCAN, f'"ranges":{ranges},'))


def bounds(count):
    ranges = listed([f'{{"name":"r","bounds":{listed(map(str, range(count)))}}}'])
    return Texts(plan=planned(SCAN, f'"ranges":{ranges},'))


def sizes(count):
    names = listed(json.dumps(f"s{it}") for it in range(count))
    return Texts(plan=planned(SCAN, f'"sizes":{names},'))


def project(count):
    columns = listed(f'{{"column":"v","as":"c{it}"}}' for it in range(count))
    return Texts(plan=planned(f'{{"op":"project","columns":{columns},"input":{NUMBERS}}}'))


def group(count):
    aggregates = listed(f'{{"fn":"sum","column":"v","as":"c{it}"}}' for it in range(count))
    return Texts(plan=planned(f'{{"op":"group","by":[],"aggregates":{aggregates},"input":{NUMBERS}}}'))


def conditions(count):
    where = listed(f'{{"column":"v","op":"=","value":{it}}}' for it in range(count))
    return Texts(plan=planned(f'{{"op":"select","where":{where},"input":{NUMBERS}}}'))


def short_keys(count):
    """Keys of one column each that a scan claims."""
    keys = listed(['["v"]'] * count)
    return Texts(plan=planned(f'{NUMBERS[:-1]},"claim":{{"part":"one","keys":{keys}}}}}'))


def pairs(count):
    """One pair of a join, again and again."""
    on = listed(['["v","v"]'] * count)
    root = f'{{"op":"join","method":"hash","on":{on},"left":{NUMBERS},"right":{NUMBERS}}}'
    return Texts(plan=planned(root))


def columns(count):
    """One column of a distinct, again and again."""
    names = listed(['"k"'] * count)
    return Texts(plan=planned(f'{{"op":"distinct","columns":{names},"input":{SCAN}}}'))


def relation(name, letter, count):
    columns = [{"name": f"{letter}{it}", "type": "int"} for it in range(count)]
    return {"name": name, "columns": columns, "keys": [[f"{letter}0"]]}


def relations(count):
    return Texts(catalog=json.dumps({"relations": [relation(f"t{it}", "c", 1) for it in range(count)]}))


def claimed_keys(count):
    """A join of 992 pairs, and so many keys claimed above it and on its right input, of which only the last is joined whole."""
    catalog = json.dumps({"relations": [relation("l", "a", 32), relation("r", "b", 32)]})
    parts = list(islice(combinations([f"b{it}" for it in range(30, 0, -1)], 8), count))
    right = [*(["b0", *it, "b31"] for it in parts), ["b0"]]
    above = [["a0", *(it.replace("b", "a") for it in part)] for part in parts]
    scan = {"op": "scan", "mode": "whole", "size": "one"}
    join = {
        "op": "join",
        "method": "hash",
        "on": [[f"a{left}", f"b{it}"] for it in range(31) for left in range(32)],
        "claim": {"part": "one", "keys": above},
        "left": {**scan, "relation": "l", "claim": {"part": "one", "keys": [["a0"]]}},
        "right": {**scan, "relation": "r", "claim": {"part": "one", "keys": right}},
    }
    return Texts(catalog=catalog, plan=json.dumps({"root": join}))


def long_prefix(count):
    """A prefix of so many bytes before 64 columns, under 61 gathers."""
    catalog = json.dumps({"relations": [relation("t", "c", 64)]})
    root = {"op": "scan", "relation": "t", "mode": "whole", "size": "one", "prefix": "p" * count}
    for _ in range(61):
        root = {"op": "exchange", "kind": "gather", "input": root}
    return Texts(catalog=catalog, plan=json.dumps({"root": root}))


def colliding_keys(count):
    """A distinct of so many rows of two numbers that all have the same hash under the hasher's fixed seed: the second number is what the hasher
    holds after the first, which makes 0 of it. The program draws a seed at random, under which they are as good as any others."""
    word, multiplier = (1 << 64) - 1, 0x9E3779B97F4A7C15 ^ 16

    def row(first):
        product = (0x243F6A8885A308D3 ^ first) * multiplier
        second = product & word ^ product >> 64
        return f"{first},{second - (second >> 63 << 64)}\n"

    names = [{"name": it, "type": "int"} for it in ("a", "b")]
    catalog = json.dumps({"relations": [{"name": "t", "columns": names}]})
    plan = planned(f'{{"op":"distinct","columns":["a","b"],"input":{SCAN}}}')
    rows = "".join(map(row, range(count)))
    return Texts(catalog=catalog, plan=plan, tables={"t": "a,b\n" + rows}, command="serial")


def joined_prefix(count):
    """A prefix of so many bytes before 32 columns, under 31 joins."""
    catalog = json.dumps({"relations": [relation("t", "c", 32), relation("u", "v", 1)]})
    scan = {"op": "scan", "mode": "whole", "size": "one"}
    root = {**scan, "relation": "t", "prefix": "p" * count}
    name = "p" * count + "c0"
    for it in range(31):
        right = {**scan, "relation": "u", "prefix": f"j{it}"}
        root = {"op": "join", "method": "hash", "on": [[name, f"j{it}v0"]], "left": root, "right": right}
        name = f"j{it}v0"
    return Texts(catalog=catalog, plan=json.dumps({"root": root}))


def united(nodes):
    """A union of nodes, with half of them on each side."""
    if len(nodes) == 1:
        return nodes[0]
    half = len(nodes) // 2
    return {"op": "union", "left": united(nodes[:half]), "right": united(nodes[half:])}


def scanned_name(count):
    """A name of so many bytes in the catalog, in a relation that 500 scans read."""
    catalog = json.dumps({"relations": [relation("t", "c" * count, 1)]})
    scans = [{"op": "scan", "relation": "t", "mode": "whole", "size": "one"}] * 500
    return Texts(catalog=catalog, plan=json.dumps({"root": united(scans)}))


def annotated_name(count):
    """The same name, which is the relation's key too: `annotate` prints it at each scan."""
    return replace(scanned_name(count), command="annotate")


def refused_name(count):
    """The same name, where each scan claims another key: `check --all` prints the relation's key at each."""
    texts = scanned_name(count)
    return replace(texts, plan=texts.plan.replace('"op": "scan"', '"op": "scan", "claim": {"keys": [[]]}'), command="check", words=("--all",))


def annotated_prefix(count):
    """A prefix of so many bytes before 64 columns, in 16 keys of 32 of them each, under 61 gathers."""
    texts = long_prefix(count)
    catalog = json.loads(texts.catalog)
    catalog["relations"][0]["keys"] = list(islice(combinations([f"c{it}" for it in range(64)], 32), 16))
    return replace(texts, catalog=json.dumps(catalog), command="annotate")


def explained_prefix(count):
    return replace(long_prefix(count), command="explain", words=("--format", "json"))


def deepest(kind="select", mode="rounds"):
    """A run of a plan of 64 nodes, one below the other: as deep as a plan may be."""
    root = json.loads(NUMBERS)
    for _ in range(63):
        if kind == "select":
            root = {"op": "select", "where": [{"column": "v", "op": "=", "value": 7}], "input": root}
        else:
            root = {"op": "exchange", "kind": "gather", "input": root}
    return Texts(plan=json.dumps({"root": root}), tables={"u": "v\n7\n8\n"}, command="run", words=("--mode", mode))


TEXTS = [
    Kind("a catalog of brackets that open", lambda n: Texts(catalog="[" * n), 5_000_000, "C1 BadCatalog"),
    Kind("a plan of brackets that open", lambda n: Texts(plan="[" * n), 5_000_000, "P1 NotJson"),
    Kind("a plan of brackets that open and close", lambda n: Texts(plan="[" * n + "]" * n), 5_000_000, "P1 NotJson"),
    Kind("a bundle of members that open", lambda n: Texts(bundle='{"a":' * n), 1_000_000, "V1 BadBundle"),
    Kind("a member of a plan, repeated", lambda n: Texts(plan='{"a":1' + ',"a":1' * n + "}"), 1_000_000, "P2 BadNode path=document"),
    Kind("a member of a catalog, repeated", lambda n: Texts(catalog='{"a":1' + ',"a":1' * n + "}"), 1_000_000, "C1 BadCatalog"),
    Kind("a member of a bundle, repeated", lambda n: Texts(bundle='{"a":1' + ',"a":1' * n + "}"), 1_000_000, "V1 BadBundle"),
    Kind(
        "members of a bundle, each another one",
        lambda n: Texts(bundle="{" + ",".join(f'"{it}":1' for it in range(n)) + "}"),
        500_000,
        "V1 BadBundle",
    ),
    Kind("a list of numbers in a plan", lambda n: Texts(plan='{"root":[1' + ",1" * n + "]}"), 2_000_000, "P2 BadNode path=root"),
    Kind("a number in a plan, of many digits", lambda n: Texts(plan=planned(NUMBERS, f'"sizes":[{"7" * n}],')), 5_000_000, "P[12] .*"),
    Kind("a number in a table, of many digits", lambda n: table(f"v\n{'7' * n}\n", "u"), 5_000_000, "C6 BadInt row=0 col=0"),
    Kind("leading zeros of a number in a table", lambda n: table(f"v\n{'0' * n}7\n", "u"), 5_000_000, "v 7|C6 BadInt row=0 col=0"),
    Kind("a table of one long field", lambda n: table(f"k\n{'a' * n}\n"), 50_000_000, "k a*"),
    Kind("a table of one long field of quotes", lambda n: table('k\n"' + '""' * n + '"\n'), 10_000_000, 'k "*'),
    Kind("a table of empty lines", lambda n: table("k\n" + "\n" * n), 10_000_000, "k"),
    Kind("a table of quotes that never close", lambda n: table('k\n"' + "a" * n), 20_000_000, "k a*|C5 .*"),
    Kind("a table of one row with many fields", lambda n: table("k\n" + "," * n + "\n"), 10_000_000, "C5 BadWidth row=0"),
    Kind("a header of many fields", lambda n: table("," * n + "\n"), 10_000_000, "C4 HeaderMismatch"),
    Kind("a table of short rows", lambda n: table("v\n" + "7\n" * n, "u"), 2_000_000, "v .*"),
    Kind("a table of short texts", lambda n: table("k\n" + "a\n" * n), 2_000_000, "k a"),
    Kind("a bundle with a table of short rows", lambda n: bundle({"u": "v\n" + "7\n" * n}), 2_000_000, "v 7"),
    Kind("tables of a bundle that are not needed", lambda n: bundle({"u": "v\n7\n", **{f"t{it}": "" for it in range(n)}}), 200_000, "v 7"),
    Kind("a text in a plan that never closes", lambda n: Texts(plan='{"root":"' + "a" * n), 20_000_000, "P1 NotJson"),
    Kind("a text in a plan, written by escapes", lambda n: Texts(plan=planned('"' + r"\u0041" * n + '"')), 2_000_000, "P2 BadNode path=root"),
    Kind("names of sizes", sizes, 200_000, "P10 BadSize name=s16"),
    Kind("bounds of a range", bounds, 500_000, "P9 BadRange name=r"),
    Kind("relations of a catalog", relations, 50_000, "C12 TooLarge"),
    Kind("conditions of a selection", conditions, 50_000, "accepted"),
    Kind("arguments that set sizes", lambda n: Texts(command="run", words=tuple(f"s{it}=3" for it in range(n))), 50_000, "k"),
    Kind("ranges of a plan", declared_ranges, 50_000, "accepted"),
    Kind("outputs of a project", project, 50_000, "P12 TooWide node=0"),
    Kind("outputs of a group", group, 50_000, "P12 TooWide node=0"),
    Kind("keys that a scan claims", short_keys, 500_000, "K8 KeyNotShown node=0"),
    Kind("a pair of a join, repeated", pairs, 500_000, "P6 DuplicateColumn node=0 name=v"),
    Kind("a column of a distinct, repeated", columns, 1_000_000, "P6 DuplicateColumn node=0 name=k"),
    Kind("keys that a join of 992 pairs claims", claimed_keys, 3_000, "accepted", "time: each claimed key is held against each key of the inputs"),
    Kind("rows that collide under the fixed seed", colliding_keys, 20_000, "a,b 0,.*"),
    Kind("a prefix of 64 columns under 61 gathers", long_prefix, 50_000, "accepted"),
    Kind("a prefix of 32 columns under 31 joins", joined_prefix, 50_000, "accepted"),
    Kind("a column's name, in a relation that 500 scans read", scanned_name, 50_000, "accepted"),
    Kind("the same, printed by annotate", annotated_name, 50_000, r'\{"root":.*', LONG_NAMES),
    Kind("the same, printed by check --all", refused_name, 50_000, "K8 KeyNotShown node=8 .*", LONG_NAMES),
    Kind("a prefix in 16 keys of 32 columns under 61 gathers, printed by annotate", annotated_prefix, 1_000, r'\{"root":.*', LONG_NAMES),
    Kind("a prefix of 64 columns under 61 gathers, printed by explain --format json", explained_prefix, 10_000, r'\{"nodes":.*', LONG_NAMES),
]
