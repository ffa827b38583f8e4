"""The rows of a node of PostgreSQL's plan, as `postgresql_plans` turns it: the node of the plan of `volcano`, and which column has the value of which expression."""
from dataclasses import dataclass, field, replace

from postgresql_expressions import AMBIGUOUS, inner_trees

SIZE = "workers"
MOST_KEYS = 16


@dataclass
class Rows:
    """The rows of a node. `names` has the column of an expression, `kinds` the columns with their kinds, and `deferred` conditions of scans on columns of
    another side of a join above. Between the phases of a group, `parts` has the columns that it is by. `equal` has classes of columns that are equal."""

    node: dict
    size: str
    part: str
    names: dict
    kinds: dict
    order: list = field(default_factory=list)
    keys: list = field(default_factory=list)
    deferred: list = field(default_factory=list)
    parts: list | None = None
    equal: list = field(default_factory=list)

    def claimed(self):
        """These rows, with their claim in the node."""
        claim = {} if self.part == "any" else {"part": self.part}
        if self.order:
            claim["order"] = entries(self.order)
        if self.keys and self.parts is None:
            claim["keys"] = self.keys[:MOST_KEYS]
        if claim:
            self.node["claim"] = claim
        return self

    def has(self, tree):
        """Whether an expression can be computed of these rows."""
        if tree in self.names or tree[0] == "value":
            return True
        below = inner_trees(tree)
        return tree[0] not in ("aggregate", "partial", "column", "parameter") and all(map(self.has, below))


def entries(order):
    return [{"column": name, "desc": True} if falls else name for name, falls in order]


def above(rows, node, **changes):
    """The rows of a node above these."""
    return replace(rows, node={**node, "input": rows.node}, **changes).claimed()


def parameters(tree):
    own = [tree[1]] if tree[0] == "parameter" else []
    return own + [it for below in inner_trees(tree) for it in parameters(below)]


def aggregates(tree):
    """The aggregates of an expression."""
    if tree[0] in ("aggregate", "partial"):
        return [tree]
    return [it for below in inner_trees(tree) for it in aggregates(below)]


def unique(name, taken):
    """A name that is not taken."""
    number, found = 2, name
    while found in taken:
        number, found = number + 1, f"{name} ({number})"
    return found


def kept_keys(keys, renamed):
    return [[renamed[it] for it in key] for key in keys if all(it in renamed for it in key)]


def kept_order(rows, renamed):
    """The order as far as its columns are kept, or columns that are equal to them."""
    found = []
    for name, falls in rows.order:
        kept = [it for it in (name, *(it for same in rows.equal if name in same for it in same)) if it in renamed]
        if not kept:
            break
        found.append((renamed[kept[0]], falls))
    return found


def kept_equal(rows, renamed):
    return [same for it in rows.equal if len(same := [renamed[name] for name in it if name in renamed]) > 1]


def merged_classes(classes, pairs):
    """Classes of equal columns, with these pairs besides."""
    found = [list(it) for it in classes]
    for pair in pairs:
        touched = [it for it in found if set(it) & set(pair)]
        found = [it for it in found if it not in touched] + [list(dict.fromkeys([*(name for it in touched for name in it), *pair]))]
    return found


def projected(rows, items):
    """A project of these items: the name, the operand, its kind, and the expressions that it stands for."""
    columns, kinds, names, renamed = [], {}, {}, {}
    for name, operand, kind, trees in items:
        columns.append(name if operand == name else {"column": operand, "as": name} if isinstance(operand, str) else {**operand, "as": name})
        kinds[name] = kind
        names.update({it: name for it in trees})
        if isinstance(operand, str):
            renamed.setdefault(operand, name)
    names = {**{tree: renamed[it] for tree, it in rows.names.items() if it in renamed}, **names}
    names.update({tree: AMBIGUOUS for tree, it in rows.names.items() if it is AMBIGUOUS and tree not in names})
    if columns == list(rows.kinds):
        return replace(rows, names=names)
    return above(rows, {"op": "project", "columns": columns}, names=names, kinds=kinds, keys=kept_keys(rows.keys, renamed), order=kept_order(rows, renamed),
                 equal=kept_equal(rows, renamed))


def all_columns(rows):
    return [(name, name, kind, ()) for name, kind in rows.kinds.items()]


def constant_column(rows, taken):
    """These rows with a column that is 1 in each of them, and its name."""
    name = unique("1", {*rows.kinds, *taken})
    return projected(rows, [*all_columns(rows), (name, {"value": 1}, "int4", ())]), name


def exchanged(rows, kind, **changes):
    node = {"op": "exchange", "kind": kind}
    if kind != "gather":
        node["size"] = SIZE
    if "merge" in changes:
        node["merge"] = entries(changes.pop("merge"))
    return above(rows, node, **changes)
