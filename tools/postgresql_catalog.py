"""What a PostgreSQL server says of its tables, as a catalog of `volcano`, and their rows as CSV.

A column is held if it is NOT NULL and of the type smallint, integer, bigint or text. Other columns are left out, and a plan that reads one is refused by
its name. Keys are primary and unique keys whose columns are all held. The order of a relation is its primary key: its rows are exported in that order.
"""
import os

from postgresql_expressions import Unsaid, read_columns, statement

HELD = {"int2": "int", "int4": "int", "int8": "int", "text": "text"}
COLUMNS = """select a.attname, t.typname, a.attnotnull, c.collname in ('C', 'POSIX') or (c.collname = 'default' and d.datlocprovider = 'c'
    and d.datcollate in ('C', 'POSIX')), coalesce(c.collisdeterministic, true) from pg_attribute a join pg_type t on t.oid = a.atttypid left join pg_collation c on c.oid = a.attcollation
    join pg_database d on d.datname = current_database() where a.attrelid = %s::regclass and a.attnum > 0 and not a.attisdropped order by a.attnum"""
KEYS = """select i.indexrelid::regclass::text, i.indisprimary, i.indisunique and i.indimmediate and i.indisvalid and i.indpred is null and i.indexprs is null,
    m.amname = 'btree', i.indnkeyatts, array(select case when k.number = 0 then null else (select attname::text from pg_attribute where attrelid = i.indrelid and attnum = k.number) end
    from unnest(i.indkey::int[]) with ordinality k (number, at) order by at), i.indoption::int[],
    not exists (select * from unnest(i.indcollation::oid[], i.indclass::oid[], i.indkey::int[]) k (ordering, class, number) where k.class is not null and
    not (select o.opcdefault from pg_opclass o where o.oid = k.class) or k.ordering <> 0 and k.ordering <> (select a.attcollation from pg_attribute a
    where a.attrelid = i.indrelid and a.attnum = k.number)) from pg_index i join pg_class x on x.oid = i.indexrelid
    join pg_am m on m.oid = x.relam where i.indrelid = %s::regclass order by not i.indisprimary, 1"""
MOST_KEYS = 16


class Relation:
    """A table: its columns with their kinds, its keys, its indexes, and why a column is not held."""

    def __init__(self, cursor, schema, name):
        self.schema, self.name = schema, name
        self.kinds, self.lacking = {}, {}
        cursor.execute(COLUMNS, (self.quoted(),))
        for column, kind, not_null, by_bytes, deterministic in cursor.fetchall():
            if not deterministic:
                self.lacking[column] = f"the column {name}.{column}, whose collation takes different texts for equal"
            elif kind not in HELD:
                self.lacking[column] = f"the column {name}.{column} of the type {kind}"
            elif not not_null:
                self.lacking[column] = f"the column {name}.{column}, which may be null"
            else:
                self.kinds[column] = kind if kind != "text" or by_bytes else "collated"
        cursor.execute(KEYS, (self.quoted(),))
        self.indexes, self.keys, self.order = {}, [], []
        for index, primary, unique, sorted_index, count, columns, options, usual in cursor.fetchall():
            self.add_index(index, primary, unique, sorted_index and usual, columns[:count], options)

    def add_index(self, index, primary, unique, sorted_index, columns, options):
        known = all(it in self.kinds for it in columns)
        if sorted_index:
            self.indexes[index.split(".")[-1].strip('"')] = [(it, bool(how & 1)) for it, how in zip(columns, options)]
        if unique and known and len(self.keys) < MOST_KEYS:
            self.keys.append(columns)
        by_bytes = all(self.kinds.get(it) != "collated" for it in columns)
        if primary and known and by_bytes and not any(it & 1 for it in options):
            self.order = columns

    def quoted(self):
        return ".".join('"' + it.replace('"', '""') + '"' for it in (self.schema, self.name))

    def entry(self):
        """Its entry of the catalog."""
        if not self.kinds:
            raise Unsaid(f"the table {self.name}, no column of which is held")
        entry = {"name": self.name, "columns": [{"name": it, "type": HELD.get(kind, "text")} for it, kind in self.kinds.items()]}
        if self.keys:
            entry["keys"] = self.keys
        if self.order:
            entry["order"] = self.order
        return entry


class Server:
    """A connection, with what was read of its tables."""

    def __init__(self, connection):
        self.connection = connection
        self.cursor = connection.cursor()
        self.relations, self.aliases = {}, {}
        self.cursor.execute("select proname, bool_or(prokind = 'a'), bool_or(provolatile = 'v') from pg_proc group by proname")
        found = self.cursor.fetchall()
        self.aggregates = {name for name, aggregate, _ in found if aggregate}
        self.volatile = {name for name, _, volatile in found if volatile}

    def relation(self, schema, name):
        if name in self.relations and self.relations[name].schema != schema:
            raise Unsaid(f"two tables with the name {name}")
        if name not in self.relations:
            self.relations[name] = Relation(self.cursor, schema, name)
        return self.relations[name]

    def lacking(self, name):
        """Why a column of a scan is not held, if it is one of a scan."""
        alias, _, column = name.rpartition(".")
        return self.aliases[alias].lacking.get(column) if alias in self.aliases else None

    def asked(self, query):
        """The names and the types of the columns of a query."""
        self.cursor.execute(f"select * from ({query}) as asked limit 0")
        return [it.name for it in self.cursor.description], [it.type_code for it in self.cursor.description]

    def kind_of(self, text, columns):
        """The type of an expression over columns of scans, asked of the server."""
        aliases = dict.fromkeys(it.rpartition(".")[0] for it in columns)
        if not all(it in self.aliases for it in aliases):
            raise Unsaid(f"the expression {text}, over what is not a column of a table")
        tables = ", ".join(f'{self.aliases[it].quoted()} as "{it}"' for it in aliases)
        self.cursor.execute(f"select {text}" + (f" from {tables}" if tables else "") + " limit 0")
        self.cursor.execute("select typname from pg_type where oid = %s", (self.cursor.description[0].type_code,))
        return self.cursor.fetchone()[0]

    def function_kind(self, tree):
        """The type of a function that `volcano` does not have."""
        if tree[1].removesuffix("()").rpartition(".")[2] in self.volatile:
            raise Unsaid(f"the function {tree[1]}, which may answer otherwise each time")
        return self.kind_of(statement(tree), sorted(read_columns(tree)))

    def catalog(self):
        return {"relations": [it.entry() for it in self.relations.values()]}

    def export(self, folder):
        """Writes the rows of each table, in the order that the catalog has, as CSV."""
        os.makedirs(folder, exist_ok=True)
        for relation in self.relations.values():
            columns = ", ".join(f'"{it}"' for it in relation.kinds)
            order = ", ".join(f'"{it}"' for it in relation.order)
            query = f"select {columns} from only {relation.quoted()}" + (f" order by {order}" if order else "")
            with open(os.path.join(folder, relation.name + ".csv"), "w", encoding="utf-8") as file:
                self.cursor.copy_expert(f"copy ({query}) to stdout with (format csv, header)", file)
