"""Reads the expressions that PostgreSQL prints in its plans, and writes them as operands and conditions of a plan of `volcano`.

The grammar is PostgreSQL's own (python3-pglast of Debian). An expression becomes a tree of tuples, so that two nodes of a plan that print the same
expression mean the same column:

    ("column", "l.l_tax")   ("value", 7, "int4")   ("parameter", 0)   ("cast", "int8", tree)   ("call", "add", (tree, ..))
    ("aggregate", "sum", (tree, ..))   ("partial", "sum", (tree, ..))   ("case", ((tree, tree), ..), tree)   ("whole", text, ("l.l_tax", ..))

`Unsaid` is raised, with words for people, where a plan of `volcano` cannot say what stands there. Nothing is guessed.
"""
import re

from pglast import ast, enums
from pglast.parser import ParseError, parse_sql
from pglast.stream import RawStream
from pglast.visitors import Visitor

OPERATORS = {"+": "add", "-": "sub", "*": "mul", "/": "div", "%": "mod", "=": "eq", "<>": "ne", "<": "lt", "<=": "le", ">": "gt", ">=": "ge", "||": "concat", "~~": "like"}
FUNCTIONS = {"mod": "mod", "length": "length", "char_length": "length", "character_length": "length", "lower": "lower", "upper": "upper", "substring": "substring",
             "substr": "substring", "starts_with": "starts_with"}
RESERVED = {*OPERATORS.values(), *FUNCTIONS.values(), "neg", "and", "or", "not", "contains", "if"}
COMPARISONS = {"eq": "=", "ne": "<>", "lt": "<", "le": "<=", "gt": ">", "ge": ">="}
SIGNS = {name: sign for sign, name in OPERATORS.items()}
MIRRORED = {"=": "=", "<>": "<>", "<": ">", "<=": ">=", ">": "<", ">=": "<="}
AGGREGATES = ("sum", "min", "max", "count")
# The kinds of numbers, each within the next. A numeric is held where it is a whole number: a sum of bigint is one.
NUMBERS = ("int2", "int4", "int8", "numeric")
# Texts that compare by their bytes, and texts with another collation.
TEXTS = ("text", "collated")
PARTIAL = re.compile(r"\bPARTIAL (?=\w+\()")
QUOTED = re.compile(r"('(?:[^']|'')*')")
SUBPLAN = re.compile(r"\b(hashed )?SubPlan \d+")


class Unsaid(Exception):
    """A plan of `volcano` cannot say this."""


def held_type(kind):
    """The type in a plan of `volcano`."""
    if kind in NUMBERS:
        return "int"
    if kind in TEXTS:
        return "text"
    raise Unsaid(f"a column of the type {kind}")


def whole_kind(kind):
    """The kind of an answer of PostgreSQL's, which may have a fraction if it is a numeric."""
    if kind == "numeric":
        raise Unsaid("a numeric that may have a fraction")
    return kind


class Reader:
    """Reads expressions of one plan. A column without a relation is one of the only relation."""

    def __init__(self, server, only=None):
        self.server, self.only = server, only

    def parsed(self, text, clause="SELECT "):
        pieces = QUOTED.split(text)
        if found := SUBPLAN.search("".join(pieces[::2])):
            raise Unsaid("a table of a subquery whose operand is not printed (hashed SubPlan)" if found[1] else "a subquery that is evaluated for each row (SubPlan)")
        pieces[::2] = [PARTIAL.sub("partial__", it) for it in pieces[::2]]
        try:
            return parse_sql(clause + "".join(pieces))[0].stmt
        except ParseError as error:
            raise Unsaid(f"the expression {text}, which is not read") from error

    def expression(self, text):
        return self.tree(self.parsed(text).targetList[0].val)

    def sort_key(self, text):
        """The tree, and whether it falls."""
        key = self.parsed(text, "SELECT 1 ORDER BY ").sortClause[0]
        falls = key.sortby_dir == enums.SortByDir.SORTBY_DESC
        if key.sortby_dir == enums.SortByDir.SORTBY_USING:
            raise Unsaid(f"the order {text}")
        return self.tree(key.node), falls

    def tree(self, node):
        for kind, read in READERS.items():
            if isinstance(node, kind):
                found = read(self, node)
                if found is not None:
                    return found
        return self.whole(node)

    def whole(self, node):
        """An expression that is not known: its text over the columns that it reads."""
        found = Columns(self.only)
        found(node)
        if found.closed or found.functions & (self.server.volatile | self.server.aggregates):
            raise Unsaid(f"the expression {RawStream()(node)}")
        return ("whole", RawStream()(node), tuple(dict.fromkeys(found.names)))

    def name(self, fields):
        if len(fields) == 1 and self.only:
            return f"{self.only}.{fields[0]}"
        return ".".join(fields)

    def column(self, node):
        if not all(isinstance(it, ast.String) for it in node.fields):
            raise Unsaid(f"a whole row, {RawStream()(node)}")
        return ("column", self.name([it.sval for it in node.fields]))

    def constant(self, node):
        value = node.val
        if node.isnull:
            raise Unsaid("the value NULL")
        if isinstance(value, ast.Integer):
            return ("value", value.ival, "int4")
        if isinstance(value, ast.Float):
            return number_tree(value.fval, "int8" if value.fval.isdigit() else "numeric")
        if isinstance(value, ast.String):
            return ("value", value.sval, "text")
        if isinstance(value, ast.Boolean):
            return ("value", int(value.boolval), "bool")
        return None

    def operator(self, node):
        name = node.name[-1].sval
        if node.kind in (enums.A_Expr_Kind.AEXPR_OP_ANY, enums.A_Expr_Kind.AEXPR_OP_ALL):
            return self.listed(node, name)
        if name == "-" and node.lexpr is None:
            inner = self.tree(node.rexpr)
            return ("value", -inner[1], inner[2]) if inner[0] == "value" else ("call", "neg", (inner,))
        if len(node.name) > 1 or node.lexpr is None or node.kind not in (enums.A_Expr_Kind.AEXPR_OP, enums.A_Expr_Kind.AEXPR_LIKE):
            return None
        both = (self.tree(node.lexpr), self.tree(node.rexpr))
        if name == "!~~":
            return ("call", "not", (("call", "like", both),))
        if name not in OPERATORS:
            return None
        return ("call", OPERATORS[name], both)

    def listed(self, node, name):
        """`x = ANY ('{a,b}')` and `x <> ALL ('{a,b}')`: comparisons with each of the values."""
        any_of = node.kind == enums.A_Expr_Kind.AEXPR_OP_ANY
        texts, kind = array_of(node.rexpr)
        if texts is None or name not in ("=", "<>", "~~", "!~~"):
            return None
        left = self.tree(node.lexpr)
        values = [number_tree(it, kind) if kind in NUMBERS else ("value", it, "text") for it in texts]
        inner = {"=": "eq", "<>": "ne"}.get(name, "like")
        tests = [("call", inner, (left, it)) for it in values]
        if name == "!~~":
            tests = [("call", "not", (it,)) for it in tests]
        return joined("or" if any_of else "and", tests)

    def truth(self, node):
        tests = [self.tree(it) for it in node.args]
        if node.boolop == enums.BoolExprType.NOT_EXPR:
            return ("call", "not", tuple(tests))
        return joined("and" if node.boolop == enums.BoolExprType.AND_EXPR else "or", tests)

    def null_test(self, node):
        """No column is null, so the test has one answer. The operand is read, so that it is one that is held."""
        return ("not null", self.tree(node.arg), node.nulltesttype == enums.NullTestType.IS_NOT_NULL)

    def cast(self, node):
        name, inner = type_name(node.typeName), self.tree(node.arg)
        if inner[0] == "value" and inner[2] == "text" and name in NUMBERS:
            return number_tree(inner[1], name)
        if node.typeName.arrayBounds or name not in (*NUMBERS, "text"):
            return None
        return ("value", inner[1], name) if inner[0] == "value" and name in NUMBERS else ("cast", name, inner)

    def function(self, node):
        name = node.funcname[-1].sval
        partial = name.startswith("partial__")
        plain = name.removeprefix("partial__")
        args = tuple(self.tree(it) for it in node.args or ())
        if node.over:
            raise Unsaid("a window")
        if plain in self.server.aggregates:
            if node.agg_distinct or node.agg_filter or node.agg_order or node.agg_within_group or plain not in AGGREGATES:
                raise Unsaid(f"the aggregate {RawStream()(node).replace('partial__', '')}")
            return ("partial" if partial else "aggregate", plain, args)
        if len(node.funcname) > 1 and node.funcname[0].sval != "pg_catalog":
            return ("call", ".".join(it.sval for it in node.funcname), args)
        if name == "left" and len(args) == 2 and args[1][0] == "value" and args[1][1] >= 0:
            return ("call", "substring", (args[0], ("value", 1, "int4"), args[1]))
        known = FUNCTIONS.get(name)
        # A function of PostgreSQL that has the name of another one of `volcano` is not taken for it.
        return ("call", known or (f"{name}()" if name in RESERVED else name), args)

    def case(self, node):
        if node.defresult is None:
            return None
        tests = [self.tree(it.expr) for it in node.args]
        if node.arg is not None:
            operand = self.tree(node.arg)
            tests = [("call", "eq", (operand, it)) for it in tests]
        return ("case", tuple(zip(tests, (self.tree(it.result) for it in node.args))), self.tree(node.defresult))

    def collated(self, node):
        if node.collname[-1].sval not in ("C", "POSIX"):
            raise Unsaid(f"the collation {node.collname[-1].sval}")
        return ("collated", self.tree(node.arg))


READERS = {
    ast.ColumnRef: Reader.column, ast.A_Const: Reader.constant, ast.A_Expr: Reader.operator, ast.BoolExpr: Reader.truth, ast.NullTest: Reader.null_test,
    ast.TypeCast: Reader.cast, ast.FuncCall: Reader.function, ast.CaseExpr: Reader.case, ast.CollateClause: Reader.collated,
    ast.ParamRef: lambda self, node: ("parameter", node.number),
}


class Columns(Visitor):
    """The columns that an expression reads, and whether it is more than an expression over columns."""

    def __init__(self, only):
        self.names, self.closed, self.only, self.functions = [], False, only, set()

    def visit_FuncCall(self, ancestors, node):
        self.functions.add(node.funcname[-1].sval)

    def visit_ColumnRef(self, ancestors, node):
        if not all(isinstance(it, ast.String) for it in node.fields):
            self.closed = True
            return
        if len(node.fields) == 1 and self.only:
            node.fields = (ast.String(self.only), *node.fields)
        self.names.append(".".join(it.sval for it in node.fields))

    def visit_ParamRef(self, ancestors, node):
        self.closed = True

    def visit_SubLink(self, ancestors, node):
        self.closed = True


def joined(name, tests):
    """Two or more conditions as one."""
    found = tests[0]
    for it in tests[1:]:
        found = ("call", name, (found, it))
    return found


def number_tree(text, kind):
    if not re.fullmatch(r"-?\d+", str(text)):
        raise Unsaid(f"the number {text}, which is not a whole one")
    return ("value", int(text), kind)


def type_name(node):
    name = node.names[-1].sval
    return {"bpchar": "character", "varchar": "character varying"}.get(name, name)


def array_of(node):
    """The texts of `'{a,"b c"}'::text[]` and their type, or no texts."""
    if not isinstance(node, ast.TypeCast) or not isinstance(node.arg, ast.A_Const) or not isinstance(node.arg.val, ast.String):
        return None, None
    kind, text = type_name(node.typeName), node.arg.val.sval
    if kind not in (*NUMBERS, "text") or not (text.startswith("{") and text.endswith("}")):
        return None, None
    items = re.findall(r'"((?:[^"\\]|\\.)*)"|([^",{}]+)', text[1:-1])
    return [re.sub(r"\\(.)", r"\1", quoted) if not plain else plain for quoted, plain in items], kind


def conjuncts(tree):
    """The conditions that must all hold."""
    if tree[:2] == ("call", "and"):
        return [it for part in tree[2] for it in conjuncts(part)]
    return [tree]


def inner_trees(tree):
    """The trees right below this one."""
    if tree[0] in ("call", "aggregate", "partial"):
        return list(tree[2])
    if tree[0] == "cast":
        return [tree[2]]
    if tree[0] in ("collated", "not null"):
        return [tree[1]]
    if tree[0] == "case":
        return [*(it for pair in tree[1] for it in pair), tree[2]]
    return [("column", it) for it in tree[2]] if tree[0] == "whole" else []


def read_columns(tree):
    """The names of all columns that a tree reads."""
    if tree[0] == "column":
        return {tree[1]}
    return {name for it in inner_trees(tree) for name in read_columns(it)}


def may_be_null(tree):
    """Whether a value may be null over columns that are not: what functions answer that are not known here."""
    return tree[0] == "whole" or tree[0] == "call" and tree[1] not in RESERVED or any(map(may_be_null, inner_trees(tree)))


def shown(tree):
    """A name for a column that is computed."""
    if tree[0] == "column":
        return tree[1]
    if tree[0] == "value":
        return repr(tree[1])
    if tree[0] == "aggregate" or tree[0] == "partial":
        return f"{tree[1]}({', '.join(map(shown, tree[2])) or '*'})"
    if tree[0] == "call":
        return f"{tree[1]}({', '.join(map(shown, tree[2]))})"
    if tree[0] in ("cast", "collated", "not null"):
        return shown(inner_trees(tree)[0])
    if tree[0] == "case":
        return f"case({', '.join(map(shown, inner_trees(tree)))})"
    return f"${tree[1]}" if tree[0] == "parameter" else tree[1]


def statement(tree):
    """A tree as an expression of SQL, to ask for its type. Only its types matter: operators stand as functions of the same type."""
    parts = [statement(it) for it in inner_trees(tree)]
    if tree[0] == "column":
        return ".".join('"' + it + '"' for it in tree[1].split("."))
    if tree[0] == "value":
        return str(tree[1]) if tree[2] in NUMBERS else "'" + str(tree[1]).replace("'", "''") + f"'::{tree[2]}"
    if tree[0] == "cast":
        return f"({parts[0]})::{tree[1]}"
    if tree[0] == "collated":
        return parts[0]
    if tree[0] == "whole":
        return f"({tree[1]})"
    if tree[0] == "call" and tree[1] in SIGNS:
        return f"({parts[0]} {SIGNS[tree[1]]} {parts[1]})"
    if tree[0] == "call" and tree[1] in FUNCTIONS.values() or tree[0] == "call" and tree[1] not in RESERVED:
        return f"{tree[1].removesuffix('()')}({', '.join(parts)})"
    raise Unsaid(f"the type of {shown(tree)}")


def wider(first, second):
    return max(first, second, key=NUMBERS.index)


class Writer:
    """Writes trees as operands over columns: `names` has the column of each tree that the input has, `kinds` the kind of each column."""

    def __init__(self, names, kinds, server):
        self.names, self.kinds, self.server = names, kinds, server

    def operand(self, tree):
        """The operand, and its kind."""
        column = self.names.get(tree)
        if column is not None:
            return self.known(tree, column)
        write = getattr(self, f"write_{tree[0].replace(' ', '_')}", None)
        if write is None:
            raise Unsaid(f"{shown(tree)}, which the input does not have")
        return write(tree)

    def known(self, tree, column):
        if column is AMBIGUOUS:
            raise Unsaid(f"{shown(tree)}, which two columns of the input are printed as")
        return column, self.kinds[column]

    def write_value(self, tree):
        if tree[2] in NUMBERS and not -(2**63) <= tree[1] < 2**63:
            raise Unsaid(f"the number {tree[1]}, outside 64 bits")
        return {"value": tree[1]}, tree[2]

    def write_column(self, tree):
        raise Unsaid(self.server.lacking(tree[1]) or f"the column {tree[1]}, which the input does not have")

    def write_collated(self, tree):
        operand, kind = self.operand(tree[1])
        return operand, "text" if kind in TEXTS else kind

    def write_not_null(self, tree):
        if may_be_null(tree[1]):
            raise Unsaid(f"a test for null of {shown(tree)}")
        self.operand(tree[1])
        return {"value": int(tree[2])}, "bool"

    def write_cast(self, tree):
        operand, kind = self.operand(tree[2])
        if kind in NUMBERS and tree[1] in NUMBERS:
            return operand, tree[1]
        if kind in TEXTS and tree[1] == "text":
            return operand, kind
        return {"fn": f"::{tree[1]}", "of": [operand], "type": held_type(whole_kind(tree[1]))}, tree[1]

    def write_case(self, tree):
        operand, kind = self.operand(tree[2])
        for test, result in reversed(tree[1]):
            value, more = self.operand(result)
            kind = self.common(kind, more)
            operand = {"fn": "if", "of": [self.test(test), value, operand], "type": held_type(kind)}
        return operand, kind

    def common(self, first, second):
        if first in NUMBERS and second in NUMBERS:
            return wider(first, second)
        if first in TEXTS and second in TEXTS:
            return "collated" if "collated" in (first, second) else "text"
        raise Unsaid(f"values of the types {first} and {second} as one")

    def test(self, tree):
        """An operand that is a condition."""
        operand, kind = self.operand(tree)
        if kind != "bool":
            raise Unsaid(f"{shown(tree)} as a condition")
        return operand

    def write_whole(self, tree):
        kind = self.server.kind_of(tree[1], tree[2])
        columns = [self.operand(("column", it))[0] for it in tree[2]]
        return {"fn": tree[1], "of": columns, "type": "int" if kind == "bool" else held_type(whole_kind(kind))}, kind

    def write_call(self, tree):
        name = tree[1]
        if name in ("and", "or", "not"):
            return {"fn": name, "of": [self.test(it) for it in tree[2]], "type": "int"}, "bool"
        given = [self.operand(it) for it in tree[2]]
        operands, kinds = [it[0] for it in given], [it[1] for it in given]
        kind = self.answer(name, kinds)
        if kind is None:
            kind = whole_kind(self.server.function_kind(tree))
        return {"fn": name, "of": operands, "type": "int" if kind == "bool" else held_type(kind)}, kind

    def answer(self, name, kinds):
        """The kind of the answer of a function that `volcano` has, or nothing where it has none for these operands."""
        numbers, texts = all(it in NUMBERS for it in kinds), all(it in TEXTS for it in kinds)
        if name in ("add", "sub", "mul", "div", "mod", "neg") and numbers:
            kind = max(kinds, key=NUMBERS.index)
            if name in ("div", "mod") and kind == "numeric":
                raise Unsaid("a division of numeric, whose answer is not a whole number")
            return kind
        if name in COMPARISONS and (numbers or texts):
            if texts and "collated" in kinds and name not in ("eq", "ne"):
                raise Unsaid("a comparison of texts by another collation than C")
            return "bool"
        if name in ("like", "starts_with") and texts and len(kinds) == 2:
            return "bool"
        if name == "length" and texts:
            return "int4"
        if name in ("lower", "upper", "concat") and texts:
            if "collated" in kinds and name != "concat":
                raise Unsaid(f"{name} by another collation than C")
            return "text"
        return "text" if name == "substring" and len(kinds) == 3 and kinds[0] in TEXTS and kinds[1] in NUMBERS and kinds[2] in NUMBERS else None

    def condition(self, tree):
        """A condition of a select, or nothing where it always holds."""
        if tree[0] == "not null" and self.write_not_null(tree)[0]["value"]:
            return None
        if tree[0] == "call" and tree[1] in COMPARISONS and (plain := self.comparison(tree)):
            return plain
        operand = self.test(tree)
        if "value" in operand:
            return {"fn": "ne", "of": [operand, {"value": 0}]}
        return {"fn": operand["fn"], "of": operand["of"]}

    def comparison(self, tree):
        """A comparison of a column with a value or a column."""
        self.operand(tree)
        (left, _), (right, _) = (self.operand(it) for it in tree[2])
        sign = COMPARISONS[tree[1]]
        if not isinstance(left, str):
            left, right, sign = right, left, MIRRORED[sign]
        if not isinstance(left, str):
            return None
        if isinstance(right, str):
            return {"column": left, "op": sign, "column2": right}
        return {"column": left, "op": sign, "value": right["value"]} if "value" in right else None


AMBIGUOUS = object()
