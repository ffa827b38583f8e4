"""Turns a plan that PostgreSQL printed (`explain (format json, verbose)`) into a plan of `volcano`, with what PostgreSQL believes of each node as claims.

Each kind of node has a function, see NODES. What comes of a node is `Rows`: the node of the plan, and which column has the value of which expression.
An expression is computed where it is first needed. docs/FOR-OPTIMIZERS.md says what each kind of node becomes.
"""
import re
from dataclasses import replace

from postgresql_expressions import AMBIGUOUS, NUMBERS, TEXTS, Reader, Unsaid, Writer, conjuncts, held_type, inner_trees, may_be_null, read_columns, shown
from postgresql_joins import Join
from postgresql_rows import (SIZE, Rows, above, aggregates, all_columns, constant_column, entries, exchanged, kept_equal, kept_order, merged_classes,
                             parameters, projected, unique)

SCANS = ("Seq Scan", "Index Scan", "Index Only Scan", "Bitmap Heap Scan")
# Nodes that print no columns of their own, so that those of the scans below are read in full.
BARE = ("Append", "Merge Append")
SUBPLAN_NAME = re.compile(r"InitPlan \d+ \(returns (\$\d+(?:,\$\d+)*)\)")


class Refused(Exception):
    """A node below cannot be said, and has been noted."""


def own_inputs(plan):
    """The inputs of a node, without the plans of subqueries that stand beside them."""
    return [it for it in plan.get("Plans", ()) if it.get("Parent Relationship") not in ("InitPlan", "SubPlan")]


class Converter:
    """Turns one plan. `notes` has what a reader should know, `refusals` each node that cannot be said, with the reason."""

    def __init__(self, server, plan, names_of_query):
        self.server, self.plan, self.query = server, plan, names_of_query
        self.notes, self.refusals, self.numbers = [], [], {}
        self.initial, self.common, scans = {}, {}, []
        for number, node in enumerate(self.walk(plan)):
            self.numbers[id(node)] = number
            self.note_subplan(node)
            if "Relation Name" in node:
                scans.append(node["Alias"])
        self.reader = Reader(server, scans[0] if len(scans) == 1 else None)
        self.needed = set()
        self.find_needed(plan, bare=True)

    def walk(self, plan):
        yield plan
        for it in plan.get("Plans", ()):
            yield from self.walk(it)

    def note_subplan(self, node):
        """Notes the plans of scalar subqueries and of common table expressions, which stand apart from where they are read."""
        name = node.get("Subplan Name", "")
        if found := SUBPLAN_NAME.fullmatch(name):
            returned = found[1].split(",")
            if len(returned) == 1:
                self.initial[int(returned[0][1:])] = node
        elif name.startswith("CTE "):
            self.common[name.removeprefix("CTE ")] = node

    def texts(self, plan):
        """The expressions that a node prints, but for its columns."""
        for it in ("Filter", "Index Cond", "Recheck Cond", "Hash Cond", "Merge Cond", "Join Filter", "One-Time Filter"):
            if it in plan:
                yield plan[it]
        yield from plan.get("Group Key", ())

    def find_needed(self, plan, bare):
        """Notes the columns of scans that nodes read; of a scan below a node with columns of its own, its columns alone are not read."""
        try:
            found = [self.reader.expression(it) for it in self.texts(plan)] + [self.reader.sort_key(it)[0] for it in plan.get("Sort Key", ())]
            if bare or plan["Node Type"] not in SCANS:
                found += [self.reader.expression(it) for it in plan.get("Output", ())]
            for tree in found:
                self.needed |= read_columns(tree)
        except Unsaid:
            pass  # The node itself says so when its turn comes.
        for it in plan.get("Plans", ()):
            self.find_needed(it, bare=plan["Node Type"] in BARE or "Subplan Name" in it)

    def convert(self, plan, shared):
        """The rows of a node; `shared` below a Gather, where several workers run it."""
        try:
            if plan["Node Type"] in NODES:
                self.known_members(plan)
                return NODES[plan["Node Type"]](self, plan, shared)
            raise Unsaid(LACKING.get(plan["Node Type"], "a node of this kind"))
        except Unsaid as reason:
            self.refuse(plan, shared, str(reason))
            raise Refused from reason

    def refuse(self, plan, shared, reason):
        line = (self.numbers[id(plan)], title(plan), reason)
        if line not in self.refusals:
            self.refusals.append(line)
        if plan["Node Type"] not in NODES:
            try:
                self.inputs(plan, shared)
            except Refused:
                pass  # Noted at the nodes below.

    def known_members(self, plan):
        """Takes no node with a member that is not known here: it may change what the node means."""
        for it in plan.keys() - MEMBERS:
            raise Unsaid(f"the member {it} of a node")
        if "Filter" in plan and plan["Node Type"] not in FILTERED:
            raise Unsaid(f"a filter, {plan['Filter']}")

    def inputs(self, plan, shared):
        """The rows of all inputs. Each is turned, also where another one cannot be said, so that all such nodes are noted."""
        found, refused = [], None
        for it in own_inputs(plan):
            try:
                found.append(self.convert(it, shared))
            except Refused as error:
                refused = error
        if refused:
            raise refused
        return found

    def input(self, plan, shared):
        return self.inputs(plan, shared)[0]

    def whole_input(self, plan, shared):
        """The input of a node that looks at many rows at once: a condition on another side of a join cannot wait above it."""
        rows = self.input(plan, shared)
        if rows.deferred:
            raise Unsaid(f"rows that depend on another side of a join, by {shown(rows.deferred[0])}")
        return rows

    # Expressions.

    def writer(self, rows):
        return Writer(rows.names, rows.kinds, self.server)

    def with_columns(self, rows, trees):
        """The rows with a column for each expression, and the names of these columns."""
        rows = self.with_parameters(rows, trees)
        items, known = [], dict(rows.names)
        for tree in trees:
            if tree in known and known[tree] is not AMBIGUOUS:
                continue
            operand, kind = self.writer(rows).operand(tree)
            if isinstance(operand, str):
                known[tree] = operand
                continue
            held_type(kind)
            name = unique(shown(tree), {*rows.kinds, *(it[0] for it in items)})
            items.append((name, operand, kind, (tree,)))
            known[tree] = name
        if items:
            if rows.parts is not None:
                raise Unsaid("an expression between the phases of a group")
            rows = projected(rows, [*all_columns(rows), *items])
        names = [known[it] for it in trees]
        return replace(rows, names={**rows.names, **dict(zip(trees, names))}), names

    def with_parameters(self, rows, trees):
        """The rows with a column for each scalar subquery that the expressions read: its one row is joined to each of them."""
        for number in dict.fromkeys(it for tree in trees for it in parameters(tree)):
            if ("parameter", number) not in rows.names:
                rows = self.with_parameter(rows, number)
        return rows

    def with_parameter(self, rows, number):
        if rows.parts is not None:
            raise Unsaid("a scalar subquery between the phases of a group")
        found, one = constant_column(self.parameter_rows(number, rows.kinds), rows.kinds)
        if rows.size == SIZE:
            found = exchanged(found, "broadcast", size=SIZE, part="all", order=[])
        left, other = constant_column(rows, found.kinds)
        node = {"op": "join", "method": "hash", "on": [[other, one]], "left": left.node, "right": found.node}
        names = {**left.names, ("parameter", number): found.names[("parameter", number)]}
        return replace(left, node=node, names=names, kinds={**left.kinds, **found.kinds}).claimed()

    def parameter_rows(self, number, taken=()):
        """The one row of a scalar subquery, which has one column."""
        plan = self.initial.get(number)
        if plan is None:
            raise Unsaid(f"the value ${number}, which is not that of one subquery")
        rows, (column,) = self.with_columns(self.convert(plan, False), [self.outputs(plan)[0]])
        if [] not in rows.keys:
            raise Unsaid(f"the value ${number} of a subquery that may have several rows")
        self.notes.append(f"${number}: a scalar subquery is joined; where it has no row no row comes, and PostgreSQL has NULL")
        return projected(rows, [(unique(f"${number}", taken), column, rows.kinds[column], [("parameter", number)])])

    def selected(self, rows, trees):
        """The rows for which the conditions hold. One that reads another side of a join waits for that join."""
        tests = [it for tree in trees for it in conjuncts(tree)]
        rows = self.with_parameters(rows, tests)
        where, deferred = [], list(rows.deferred)
        for it in tests:
            if lacking := next((why for name in sorted(read_columns(it)) if (why := self.server.lacking(name))), None):
                raise Unsaid(lacking)
            if not rows.has(it):
                deferred.append(it)
            elif test := self.writer(rows).condition(it):
                where.append(test)
        rows = replace(rows, deferred=deferred)
        pairs = [(it["column"], it["column2"]) for it in where if it.get("op") == "=" and "column2" in it]
        return above(rows, {"op": "select", "where": where}, equal=merged_classes(rows.equal, pairs)) if where else rows

    def filtered(self, plan, rows, *members):
        return self.selected(rows, [self.reader.expression(plan[it]) for it in members if it in plan])

    def outputs(self, plan):
        while plan["Node Type"] in BARE:
            plan = own_inputs(plan)[0]
        if "Output" not in plan:
            raise Unsaid("a node without columns")
        return [self.reader.expression(it) for it in plan["Output"]]

    # Scans.

    def scan(self, plan, shared):
        alias, relation = plan["Alias"], self.server.relation(plan["Schema"], plan["Relation Name"])
        self.server.aliases[alias] = relation
        mode = "shared" if shared and plan["Parallel Aware"] else "whole"
        size, part = (SIZE, "any" if mode == "shared" else "all") if shared else ("one", "one")
        node = {"op": "scan", "relation": relation.name, "mode": mode, "size": size, "prefix": f"{alias}."}
        kinds = {f"{alias}.{it}": kind for it, kind in relation.kinds.items()}
        relation.entry()
        keys = [[f"{alias}.{it}" for it in key] for key in relation.keys]
        rows = Rows(node, size, part, {("column", it): it for it in kinds}, kinds, keys=keys)
        order = self.index_order(plan, relation)
        declared = [(f"{alias}.{it}", False) for it in relation.order]
        is_declared = order == declared[: len(order)]
        rows = self.filtered(plan, replace(rows, order=order if is_declared else []).claimed(), "Index Cond", "Recheck Cond", "Filter")
        if order and not is_declared and not rows.deferred:
            rows = above(rows, {"op": "sort", "columns": entries(order)}, order=order)
        return self.pruned(rows)

    def index_order(self, plan, relation):
        """The order of a scan of a sorted index, as far as its columns are held and compare by bytes."""
        columns = relation.indexes.get(plan.get("Index Name", ""), ())
        if "Index Name" not in plan:
            return []
        backward = plan.get("Scan Direction") == "Backward"
        found = []
        for name, falls in columns:
            if relation.kinds.get(name, "collated") == "collated":
                break
            found.append((f"{plan['Alias']}.{name}", falls != backward))
        return found

    def pruned(self, rows):
        """The columns that some node reads, or the first one where none is read."""
        kept = [it for it in all_columns(rows) if it[0] in self.needed] or all_columns(rows)[:1]
        return projected(rows, kept)

    def renamed(self, plan, shared, inner, names):
        """The rows of a subquery or a common table expression, under the names that the nodes above use."""
        alias, rows = plan["Alias"], self.convert(inner, shared)
        trees = self.outputs(inner)
        wanted = [(f"{alias}.{name}", tree) for name, tree in zip(names, trees) if f"{alias}.{name}" in self.needed]
        wanted = wanted or [(f"{alias}.{names[0]}", trees[0])]
        rows, columns = self.with_columns(rows, [tree for _, tree in wanted])
        rows = projected(rows, [(name, column, rows.kinds[column], [("column", name)]) for (name, _), column in zip(wanted, columns)])
        rows = replace(rows, names={("column", name): name for name, _ in wanted})
        return self.filtered(plan, rows, "Filter")

    def common_scan(self, plan, shared):
        inner = self.common.get(plan["CTE Name"])
        if inner is None or shared:
            raise Unsaid(f"the common table expression {plan['CTE Name']}")
        return self.renamed(plan, False, inner, self.query.common(plan["CTE Name"]))

    def subquery(self, plan, shared):
        return self.renamed(plan, shared, own_inputs(plan)[0], self.query.subquery(plan["Alias"]))

    # Nodes with one input.

    def passed(self, plan, shared):
        return self.input(plan, shared)

    def hashed(self, plan, shared):
        """The table of a hash join. All workers read one that they make together: a broadcast of what each of them has."""
        rows = self.whole_input(plan, shared) if plan["Parallel Aware"] else self.input(plan, shared)
        return exchanged(rows, "broadcast", part="all", order=[]) if plan["Parallel Aware"] and shared else rows

    def gathered(self, plan, shared):
        if plan.get("Single Copy"):
            return self.input(plan, False)
        rows = self.whole_input(plan, True)
        if plan["Node Type"] == "Gather":
            return exchanged(rows, "gather", size="one", part="one", order=[])
        if not rows.order:
            raise Unsaid("a Gather Merge whose input has no known order")
        return exchanged(rows, "gather", merge=rows.order, size="one", part="one")

    def sorted(self, plan, shared):
        return self.in_order(self.input(plan, shared), plan["Sort Key"])

    def in_order(self, rows, texts):
        keys = [self.reader.sort_key(it) for it in texts]
        rows, columns = self.with_columns(rows, [tree for tree, _ in keys])
        order = {}
        for (tree, falls), column in zip(keys, columns):
            if rows.kinds[column] == "collated" and tree[0] != "collated":
                raise Unsaid("an order of texts by another collation than C")
            order.setdefault(column, falls)
        phase = {"phase": "partial"} if rows.parts is not None else {}
        return above(rows, {"op": "sort", **phase, "columns": entries(order.items())}, order=list(order.items()))

    def limited(self, plan, shared):
        rows = self.whole_input(plan, shared)
        limits = [it for it in self.walk(self.plan) if it["Node Type"] == "Limit"]
        count = self.query.limit(len(limits), all(it.get("Parent Relationship") == "InitPlan" for it in limits))
        return above(rows, {"op": "limit", "rows": count}, keys=[[]] if count < 2 else rows.keys)

    def result(self, plan, shared):
        """A projection, or a row of scalar subqueries alone."""
        inputs = self.inputs(plan, shared)
        if inputs:
            return self.filtered(plan, inputs[0], "One-Time Filter", "Filter")
        trees = self.outputs(plan)
        read = [it for tree in trees for it in parameters(tree)]
        if not read or shared:
            raise Unsaid("a row that comes of no table")
        return self.filtered(plan, self.with_parameters(self.parameter_rows(read[0]), trees), "One-Time Filter")

    def distinct(self, plan, shared):
        rows = self.whole_input(plan, shared)
        if self.query.has_distinct_on:
            raise Unsaid("DISTINCT ON")
        rows, columns = self.with_columns(rows, self.outputs(plan))
        columns = list(dict.fromkeys(columns))
        if rows.parts is not None:
            return self.final_distinct(rows, columns)
        if shared and rows.part == "any":
            return self.partial_group(rows, columns, [], rows.order)
        return self.narrowed(above(rows, {"op": "distinct", "columns": columns}, keys=[columns]), columns, [])

    # Groups.

    def grouped(self, plan, shared):
        rows = self.whole_input(plan, shared)
        mode = plan.get("Partial Mode", "Simple")
        if mode == "Finalize":
            return self.finalized(plan, rows)
        keys = [self.reader.expression(it) for it in plan.get("Group Key", ())]
        trees = self.outputs(plan) + [self.reader.expression(plan[it]) for it in ("Filter",) if it in plan]
        if any(aggregates(it) == [it] and it in rows.names and trees.count(it) > 1 for it in keys):
            raise Unsaid("a group by a column that is printed as one of its aggregates")
        rows, by = self.with_columns(rows, keys)
        if rows.parts is not None:
            return self.filtered(plan, self.final_distinct(rows, by), "Filter")
        found = list(dict.fromkeys(it for tree in trees for it in aggregates(tree) if it not in keys))
        extra = [it for tree in trees for it in self.bare(rows, tree, keys)]
        rows, more = self.with_columns(rows, list(dict.fromkeys(extra)))
        rows, arguments = self.with_columns(rows, [it[2][0] for it in found if it[2] and it[1] != "count"])
        sums = self.sums(rows, found, iter(arguments))
        order = rows.order if plan.get("Strategy", "Sorted") == "Sorted" else []
        columns = list(dict.fromkeys([*by, *more]))
        if mode == "Partial" or shared and rows.part == "any" and not found:
            return self.partial_group(rows, columns, sums, order)
        node = {"op": "group", "by": columns, "aggregates": [it[0] for it in sums]}
        self.note_plain(columns)
        rows = self.narrowed(above(rows, node, keys=[list(dict.fromkeys(by))]), columns, sums, order)
        return self.filtered(plan, rows, "Filter")

    def bare(self, rows, tree, keys):
        """The columns of the input that an expression reads outside of aggregates: PostgreSQL leaves out of a group what its keys determine."""
        if tree in keys or tree[0] in ("aggregate", "partial", "parameter", "value"):
            return []
        if tree in rows.names:
            return [tree]
        if tree[0] == "column":
            raise Unsaid(self.server.lacking(tree[1]) or f"the column {tree[1]}, which the input does not have")
        return [it for below in inner_trees(tree) for it in self.bare(rows, below, keys)]

    def sums(self, rows, found, arguments):
        """The aggregates as a group has them, each with its kind and its expression."""
        made = []
        for tree in found:
            if len(tree[2]) > 1:
                raise Unsaid(f"the aggregate {shown(tree)}")
            name = unique(shown(tree), {*rows.kinds, *(it[0]["as"] for it in made)})
            if tree[1] == "count":
                if tree[2] and may_be_null(tree[2][0]):
                    raise Unsaid(f"a count of what may be null, {shown(tree)}")
                if tree[2]:
                    self.writer(rows).operand(tree[2][0])
                made.append(({"fn": "count", "as": name}, "int8", tree))
                continue
            column = next(arguments)
            made.append(({"fn": tree[1], "column": column, "as": name}, self.sum_kind(tree[1], rows.kinds[column]), tree))
        return made

    def sum_kind(self, name, kind):
        if name == "sum":
            if kind not in NUMBERS:
                raise Unsaid(f"a sum of {kind}")
            return "int8" if kind in ("int2", "int4") else "numeric"
        if kind == "collated":
            raise Unsaid(f"{name} of texts by another collation than C")
        return kind

    def narrowed(self, rows, columns, sums, order=None):
        """The rows of a group or a distinct: these columns, and the aggregates."""
        names = {tree: it for tree, it in rows.names.items() if it in columns}
        names.update({tree: it["as"] for it, _, tree in sums})
        kinds = {**{it: rows.kinds[it] for it in columns}, **{it["as"]: kind for it, kind, _ in sums}}
        kept = {it: it for it in columns}
        rows = replace(rows, order=kept_order(rows if order is None else replace(rows, order=order), kept), equal=kept_equal(rows, kept))
        rows.node.pop("claim", None)
        return replace(rows, names=names, kinds=kinds).claimed()

    def note_plain(self, columns):
        if not columns:
            self.notes.append("a group without columns has no row where its input has none, and PostgreSQL has one")

    def partial_group(self, rows, columns, sums, order):
        node = {"op": "group", "phase": "partial", "by": columns, "aggregates": [it[0] for it in sums]}
        return self.narrowed(above(replace(rows, order=[], keys=[], parts=columns), node), columns, sums, order)

    def finalized(self, plan, rows):
        if rows.parts is None:
            raise Unsaid("a final group without its partial one")
        keys = [self.reader.expression(it) for it in plan.get("Group Key", ())]
        rows, by = self.with_columns(rows, keys)
        order = rows.order if plan.get("Strategy", "Sorted") == "Sorted" else []
        rows = self.final_group(replace(rows, order=order), by)
        return self.filtered(plan, rows, "Filter")

    def final_distinct(self, rows, columns):
        """What is left of rows that each worker has made different: PostgreSQL has no name of its own for these two phases."""
        if set(columns) != set(rows.parts) or any(tree[0] == "partial" for tree in rows.names):
            raise Unsaid("different rows of a partial group")
        return self.final_group(rows, columns)

    def final_group(self, rows, by):
        """A group that puts together the parts of the one below, which is by the same columns, or by what these determine besides."""
        if not set(by) <= set(rows.parts):
            raise Unsaid("a final group by other columns than its partial one")
        self.note_plain(rows.parts)
        names = dict(rows.names)
        names.update({("aggregate", *tree[1:]): it for tree, it in rows.names.items() if tree[0] == "partial"})
        return above(rows, {"op": "group", "phase": "final"}, parts=None, names=names, keys=[list(dict.fromkeys(by))])

    # Nodes with several inputs.

    def appended(self, plan, shared):
        found = [self.arm(plan, it, shared) for it in own_inputs(plan)]
        first = found[0]
        for it in found[1:]:
            if [held_type(kind) for kind in it.kinds.values()] != [held_type(kind) for kind in first.kinds.values()]:
                raise Unsaid("an Append of rows of different types")
            node = {"op": "union", "left": first.node, "right": it.node}
            kinds = {name: kind if kind == other or kind in TEXTS else max(kind, other, key=NUMBERS.index)
                     for (name, kind), other in zip(first.kinds.items(), it.kinds.values())}
            first = replace(first, node=node, kinds=kinds, order=[], keys=[], equal=[]).claimed()
        if "Sort Key" not in plan:
            return first
        return self.in_order(first, plan["Sort Key"])

    def arm(self, plan, inner, shared):
        """One input of an Append, with just its columns. One worker alone runs an input that is not parallel, below a Parallel Append."""
        alone = shared and plan["Parallel Aware"] and not any(it["Parallel Aware"] for it in self.walk(inner))
        rows = self.convert(inner, shared and not alone)
        rows, columns = self.with_columns(rows, self.outputs(inner))
        if rows.deferred or len(set(columns)) < len(columns):
            raise Unsaid("an Append of rows that depend on others, or that have a column twice")
        rows = projected(rows, [(it, it, rows.kinds[it], ()) for it in columns])
        return exchanged(rows, "round", size=SIZE, part="any") if alone else rows

    def joined(self, plan, shared):
        kind = plan["Join Type"]
        left, right = self.inputs(plan, shared)
        if kind not in ("Inner", "Semi", "Anti"):
            raise Unsaid(f"an outer join ({kind}), which has NULL")
        method = "merge" if plan["Node Type"] == "Merge Join" and kind == "Inner" else "hash"
        return Join(self, plan, left, right, kind.lower(), method).rows()


MEMBERS = {"Node Type", "Strategy", "Partial Mode", "Parallel Aware", "Async Capable", "Parent Relationship", "Subplan Name", "Scan Direction", "Index Name", "Relation Name",
           "Schema", "Alias", "CTE Name", "Join Type", "Inner Unique", "Hash Cond", "Merge Cond", "Join Filter", "Filter", "Index Cond", "Recheck Cond", "One-Time Filter",
           "Sort Key", "Presorted Key", "Group Key", "Workers Planned", "Single Copy", "Params Evaluated", "Output", "Plans", "Cache Key", "Cache Mode", "Subplans Removed"}
FILTERED = (*SCANS, "CTE Scan", "Subquery Scan", "Result", "Aggregate", "Group")
# What a node is for that no plan of `volcano` has.
LACKING = {"WindowAgg": "a window", "SetOp": "EXCEPT or INTERSECT", "Recursive Union": "a recursive query", "WorkTable Scan": "a recursive query",
           "ProjectSet": "a function that returns rows", "Function Scan": "a function that returns rows", "Values Scan": "rows that the query writes out",
           "Sample Scan": "a sample of a table", "LockRows": "a lock", "Foreign Scan": "a foreign table", "Tid Scan": "rows by their place"}


def title(plan):
    """A node as people know it from the text of a plan."""
    name = plan["Node Type"]
    if "Join Type" in plan and plan["Join Type"] != "Inner":
        name = f"{name.removesuffix(' Join')} {plan['Join Type']} Join"
    name = {"Finalize": "Finalize ", "Partial": "Partial "}.get(plan.get("Partial Mode"), "") + name
    return ("Parallel " if plan.get("Parallel Aware") else "") + name + (f" on {plan['Alias']}" if "Alias" in plan else "")


NODES = {
    **{it: Converter.scan for it in SCANS}, "CTE Scan": Converter.common_scan, "Subquery Scan": Converter.subquery, "Materialize": Converter.passed,
    "Memoize": Converter.passed, "Hash": Converter.hashed, "Gather": Converter.gathered, "Gather Merge": Converter.gathered, "Sort": Converter.sorted,
    "Incremental Sort": Converter.sorted, "Limit": Converter.limited, "Result": Converter.result, "Unique": Converter.distinct, "Aggregate": Converter.grouped,
    "Group": Converter.grouped, "Append": Converter.appended, "Merge Append": Converter.appended, "Hash Join": Converter.joined, "Merge Join": Converter.joined,
    "Nested Loop": Converter.joined,
}


def plan_of(converter, names):
    """The plan, whose columns have the names of the query's; nodes that cannot be said are in the converter's `refusals`."""
    rows = converter.convert(converter.plan, False)
    try:
        if rows.deferred:
            raise Unsaid(f"a condition on what no node has, {shown(rows.deferred[0])}")
        trees = converter.outputs(converter.plan)[: len(names)]
        rows, columns = converter.with_columns(rows, trees)
        taken, items = [], []
        for name, column in zip(names, columns):
            taken.append(unique(name, taken))
            items.append((taken[-1], column, rows.kinds[column], ()))
        rows = projected(rows, items)
    except Unsaid as reason:
        converter.refusals.append((0, title(converter.plan), str(reason)))
        raise Refused from reason
    ordered = {it for it, _ in rows.order}
    total = any(set(it) <= ordered for it in rows.keys) or set(rows.kinds) <= ordered
    sizes = [SIZE] if uses_size(rows.node) else []
    return {"sizes": sizes, "derive": True, "total": total, "root": rows.node}


def uses_size(node):
    return node.get("size") == SIZE or any(uses_size(node[it]) for it in ("input", "left", "right") if it in node)
