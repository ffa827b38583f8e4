"""What PostgreSQL's plans leave out and the text of a query says: the names of the columns of a subquery, and the number of a LIMIT."""
import re

from pglast import ast, enums
from pglast.parser import ParseError, parse_sql
from pglast.visitors import Visitor

from postgresql_expressions import Unsaid


class Parts(Visitor):
    """The statements of a query, its subqueries by their aliases, and its common table expressions."""

    def __init__(self):
        self.selects, self.subqueries, self.commons = [], [], []

    def visit_SelectStmt(self, ancestors, node):
        self.selects.append(node)

    def visit_RangeSubselect(self, ancestors, node):
        if node.alias:
            self.subqueries.append((node.alias.aliasname, node.subquery, node.alias.colnames))

    def visit_CommonTableExpr(self, ancestors, node):
        self.commons.append((node.ctename, node.ctequery, node.aliascolnames))


def column_name(target):
    """The name that PostgreSQL gives a column, or None where it is not a name of the text."""
    if target.name:
        return target.name
    if isinstance(target.val, ast.ColumnRef) and isinstance(target.val.fields[-1], ast.String):
        return target.val.fields[-1].sval
    return target.val.funcname[-1].sval if isinstance(target.val, ast.FuncCall) else None


class Query:
    """A query, as its text."""

    def __init__(self, text):
        try:
            statements = parse_sql(text)
        except ParseError as error:
            raise Unsaid(f"a query that is not read: {error}") from error
        if len(statements) != 1 or not isinstance(statements[0].stmt, ast.SelectStmt):
            raise Unsaid("a statement that is not one query")
        self.text = text.strip().rstrip(";")
        self.parts = Parts()
        self.parts(statements[0].stmt)
        self.has_distinct_on = any(it.distinctClause and it.distinctClause[0] is not None for it in self.parts.selects)

    def names_of(self, what, alias, found):
        if len(found) != 1:
            raise Unsaid(f"the {what} {alias}, which is not one alone of the query's text")
        _, select, renamed = found[0]
        while select.larg:
            select = select.larg
        names = [column_name(it) for it in select.targetList or ()]
        if any(isinstance(it.val, ast.ColumnRef) and isinstance(it.val.fields[-1], ast.A_Star) for it in select.targetList or ()):
            raise Unsaid(f"the {what} {alias}, whose columns are written as *")
        given = [it.sval for it in renamed or ()]
        return given + names[len(given) :]

    def common(self, name):
        return self.names_of("common table expression", name, [it for it in self.parts.commons if it[0] == name])

    def subquery(self, alias):
        if arm := re.fullmatch(r"\*SELECT\* (\d+)", alias):
            arms = [it for select in self.parts.selects if select.op != enums.SetOperation.SETOP_NONE for it in (select.larg, select.rarg)]
            plain = [it for it in arms if it.op == enums.SetOperation.SETOP_NONE]
            if len(plain) == 2 and len(arms) == 2:
                return self.names_of("subquery", alias, [(alias, plain[int(arm[1]) - 1], None)])
        return self.names_of("subquery", alias, [it for it in self.parts.subqueries if it[0] == alias])

    def limit(self, count_of_nodes, are_initial):
        """The number of rows of a limit: that of the text, if there and in the plan is one alone, or 1 for the least or the greatest value by an index."""
        limits = [it for it in self.parts.selects if it.limitCount or it.limitOffset]
        if not limits and are_initial:
            return 1
        if len(limits) != 1 or count_of_nodes != 1 or limits[0].limitOffset or limits[0].limitOption == enums.LimitOption.LIMIT_OPTION_WITH_TIES:
            raise Unsaid("a limit with an offset or with ties, or one of several")
        count = limits[0].limitCount
        if not isinstance(count, ast.A_Const) or not isinstance(count.val, ast.Integer):
            raise Unsaid("a limit that is not a number")
        return count.val.ival
