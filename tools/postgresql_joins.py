"""Joins of PostgreSQL's plans: the pairs of columns that have to be equal, and the conditions that are none."""
from dataclasses import replace

from postgresql_expressions import AMBIGUOUS, COMPARISONS, Unsaid, conjuncts, inner_trees, read_columns, shown
from postgresql_rows import MOST_KEYS, constant_column, merged_classes, parameters, projected, unique


class Join:
    """A join that is being written: its pairs, and the conditions that are none."""

    def __init__(self, converter, plan, left, right, kind, method):
        self.converter, self.plan, self.kind, self.method = converter, plan, kind, method
        again = {it: unique(it, left.kinds) for it in right.kinds}
        if any(it != name for it, name in again.items()):
            right = projected(right, [(again[it], it, right.kinds[it], ()) for it in right.kinds])
        self.left, self.right = left, right
        self.pairs, self.others = [], []

    def conditions(self, *members):
        return [it for member in members if member in self.plan for it in conjuncts(self.converter.reader.expression(self.plan[member]))]

    def rows(self):
        keyed = self.conditions("Hash Cond", "Merge Cond")
        rest = self.conditions("Join Filter") + self.right.deferred + (self.left.deferred if self.kind == "inner" else [])
        for it in keyed:
            if not self.add_pair(it):
                self.others.append(it)
        if self.others and self.method == "merge":
            raise Unsaid(f"a merge by {shown(self.others[0])}")
        for it in rest:
            if self.method == "merge" or not self.add_pair(it):
                self.others.append(it)
        if not self.pairs:
            self.left, one = constant_column(self.left, self.right.kinds)
            self.right, other = constant_column(self.right, self.left.kinds)
            self.pairs.append([one, other])
        return self.inner() if self.kind == "inner" else self.matched()

    def add_pair(self, tree):
        """Takes an equality of the two sides as a pair of columns, and says whether it is one."""
        if tree[:2] != ("call", "eq"):
            return False
        first, second = tree[2]
        for it in tree[2]:
            self.add_parameters(it)
        if not (self.left.has(first) and self.right.has(second)):
            first, second = second, first
        if not (self.left.has(first) and self.right.has(second)) or not read_anything(first) or not read_anything(second):
            return False
        self.left, (one,) = self.converter.with_columns(self.left, [first])
        self.right, (other,) = self.converter.with_columns(self.right, [second])
        if other in self.left.kinds:
            self.right = projected(self.right, [(unique(it, self.left.kinds) if it == other else it, it, kind, ()) for it, kind in self.right.kinds.items()])
            other = self.right.names[second]
        self.converter.writer(self.both()).operand(("call", "eq", (first, second)))
        if [one, other] not in self.pairs:
            self.pairs.append([one, other])
        return True

    def add_parameters(self, tree):
        """Joins the scalar subqueries that one side of an equality reads to that side."""
        columns = {("column", it) for it in read_columns(tree)}
        if parameters(tree) and columns and all(map(self.left.has, columns)):
            self.left = self.converter.with_parameters(self.left, [tree])
        elif parameters(tree) and columns and all(map(self.right.has, columns)):
            self.right = self.converter.with_parameters(self.right, [tree])

    def both(self):
        """The rows of both sides, for the names of their columns."""
        names = {**self.right.names, **self.left.names}
        for tree in self.right.names.keys() & self.left.names.keys():
            if tree[0] != "parameter":
                names[tree] = AMBIGUOUS
        return replace(self.left, names=names, kinds={**self.right.kinds, **self.left.kinds})

    def node(self):
        kind = {} if self.kind == "inner" else {"kind": self.kind}
        return {"op": "join", "method": self.method, **kind, "on": self.pairs, "left": self.left.node, "right": self.right.node}

    def part(self):
        """Where rows lie: with the side that each worker has a part of."""
        return self.right.part if self.left.part == "all" and self.right.part != "all" else self.left.part

    def order(self):
        return [] if self.plan["Node Type"] == "Hash Join" else self.left.order

    def inner(self):
        kinds = {**self.left.kinds, **self.right.kinds}
        equal = merged_classes(self.left.equal + self.right.equal, self.pairs)
        unique_right = self.plan.get("Inner Unique", False)
        made = replace(self.both(), node=self.node(), part=self.part(), kinds=kinds, order=self.order(), deferred=[], equal=equal)
        made = replace(made, keys=self.keys(unique_right and not self.others)).claimed()
        return replace(self.converter.selected(made, self.others), keys=self.keys(unique_right)).claimed()

    def keys(self, unique_right):
        """The keys of an inner join: those of a side of whose rows each meets one at most, else one of each side together. That no row meets two of the right
        side is PostgreSQL's belief; it may follow of all conditions, those of the select above too."""
        ours, theirs = [it[0] for it in self.pairs], [it[1] for it in self.pairs]
        found = []
        if unique_right or any(set(it) <= set(theirs) for it in self.right.keys):
            found += self.left.keys
        if any(set(it) <= set(ours) for it in self.left.keys):
            found += self.right.keys
        both = [[*one, *other] for one in self.left.keys[:2] for other in self.right.keys[:2]]
        return (found or both)[:MOST_KEYS]

    def matched(self):
        """A semi or an anti join."""
        where = [test for it in self.others if (test := self.match_condition(it))]
        node = {**self.node(), **({"where": where} if where else {})}
        return replace(self.left, node=node, order=self.order()).claimed()


    def match_condition(self, tree):
        """A condition of a semi or an anti join. It compares columns: what a side computes becomes a column of that side, and what the right side alone
        decides is decided there. Nothing is left of a condition that always holds."""
        if not self.both().has(tree):
            raise Unsaid(f"a subquery that depends on rows further out, by {shown(tree)}")
        if self.right.has(tree) and not self.left.has(tree):
            self.right = self.converter.selected(self.right, [tree])
            return None
        for it in tree[2] if tree[0] == "call" and tree[1] in COMPARISONS else ():
            if self.left.has(it) and read_anything(it):
                self.left = self.converter.with_columns(self.left, [it])[0]
            elif self.right.has(it) and read_anything(it):
                self.right = self.converter.with_columns(self.right, [it])[0]
        test = self.converter.writer(self.both()).condition(tree)
        if test and "fn" in test:
            raise Unsaid(f"a condition of the {self.kind} join that is computed of both sides, {shown(tree)}")
        return test


def read_anything(tree):
    return tree[0] in ("aggregate", "parameter") or bool(read_columns(tree)) or any(map(read_anything, inner_trees(tree)))
