"""Eight small tables with the columns of TPC-H, by rules of this project's own (`tools/try-postgresql` loads them).

The names of tables and columns, and the texts that queries look for, are those of the benchmark. The rows are not: each value is a draw by the name of its
column and the number of its row, so that every run has the same rows. Money is a number of hundredths, a discount or a tax a number of percents, a
quantity a number of pieces, and a date a text such as 1996-03-01. No column is ever null.
"""
import hashlib
from datetime import date, timedelta

SUPPLIERS, CUSTOMERS, PARTS, ORDERS = 40, 150, 200, 1500
REGIONS = ("AFRICA", "AMERICA", "ASIA", "EUROPE", "MIDDLE EAST")
NATIONS = (("ALGERIA", 0), ("ARGENTINA", 1), ("BRAZIL", 1), ("CANADA", 1), ("EGYPT", 4), ("ETHIOPIA", 0), ("FRANCE", 3), ("GERMANY", 3), ("INDIA", 2),
           ("INDONESIA", 2), ("IRAN", 4), ("IRAQ", 4), ("JAPAN", 2), ("JORDAN", 4), ("KENYA", 0), ("MOROCCO", 0), ("MOZAMBIQUE", 0), ("PERU", 1), ("CHINA", 2),
           ("ROMANIA", 3), ("SAUDI ARABIA", 4), ("VIETNAM", 2), ("RUSSIA", 3), ("UNITED KINGDOM", 3), ("UNITED STATES", 1))
COLOURS = ("almond", "azure", "blue", "forest", "green", "ivory", "lime", "pink", "red", "snow")
KINDS = (("STANDARD", "SMALL", "MEDIUM", "LARGE", "ECONOMY", "PROMO"), ("ANODIZED", "BURNISHED", "PLATED", "POLISHED", "BRUSHED"),
         ("TIN", "NICKEL", "BRASS", "STEEL", "COPPER"))
CONTAINERS = (("SM", "LG", "MED", "JUMBO", "WRAP"), ("CASE", "BOX", "BAG", "JAR", "PKG", "PACK", "CAN", "DRUM"))
SEGMENTS = ("AUTOMOBILE", "BUILDING", "FURNITURE", "HOUSEHOLD", "MACHINERY")
PRIORITIES = ("1-URGENT", "2-HIGH", "3-MEDIUM", "4-NOT SPECIFIED", "5-LOW")
SHIP_MODES = ("AIR", "REG AIR", "RAIL", "SHIP", "TRUCK", "MAIL", "FOB")
INSTRUCTIONS = ("DELIVER IN PERSON", "COLLECT COD", "NONE", "TAKE BACK RETURN")
REMARKS = ("quick deposits", "special packages requests", "furious accounts", "Customer wrote Complaints", "regular ideas", "silent foxes")
FIRST_DAY, LAST_DAY = date(1992, 1, 1), date(1998, 8, 2)
# The last day that counts as past: what was shipped later is still open.
TODAY = "1995-06-17"

# Each table: its columns with their types, its primary key, and columns that are unique beside it.
TABLES = {
    "region": ("r_regionkey integer, r_name text, r_comment text", ("r_regionkey",), ("r_name",)),
    "nation": ("n_nationkey integer, n_name text, n_regionkey integer, n_comment text", ("n_nationkey",), ("n_name",)),
    "supplier": ("s_suppkey integer, s_name text, s_address text, s_nationkey integer, s_phone text, s_acctbal bigint, s_comment text", ("s_suppkey",), ("s_name",)),
    "customer": ("c_custkey integer, c_name text, c_address text, c_nationkey integer, c_phone text, c_acctbal bigint, c_mktsegment text, c_comment text",
                 ("c_custkey",), ("c_name",)),
    "part": ("p_partkey integer, p_name text, p_mfgr text, p_brand text, p_type text, p_size integer, p_container text, p_retailprice bigint, p_comment text",
             ("p_partkey",), ()),
    "partsupp": ("ps_partkey integer, ps_suppkey integer, ps_availqty integer, ps_supplycost bigint, ps_comment text", ("ps_partkey", "ps_suppkey"), ()),
    "orders": ("o_orderkey integer, o_custkey integer, o_orderstatus text, o_totalprice bigint, o_orderdate text, o_orderpriority text, o_clerk text, "
               "o_shippriority integer, o_comment text", ("o_orderkey",), ()),
    "lineitem": ("l_orderkey integer, l_partkey integer, l_suppkey integer, l_linenumber integer, l_quantity bigint, l_extendedprice bigint, l_discount bigint, "
                 "l_tax bigint, l_returnflag text, l_linestatus text, l_shipdate text, l_commitdate text, l_receiptdate text, l_shipinstruct text, l_shipmode text, "
                 "l_comment text", ("l_orderkey", "l_linenumber"), ()),
}


def draw(column, row, least, most):
    """A number from `least` to `most`: the first eight bytes of the SHA-256 of the column's name and the row's number, modulo the span."""
    digest = hashlib.sha256(f"{column} {row}".encode()).digest()
    return least + int.from_bytes(digest[:8], "big") % (most - least + 1)


def chosen(column, row, texts):
    return texts[draw(column, row, 0, len(texts) - 1)]


def phone(column, row, nation):
    return f"{nation + 10}-{draw(column, row, 100, 999)}-{draw(column + ' end', row, 1000, 9999)}"


def region_rows():
    return [(i, name, chosen("r_comment", i, REMARKS)) for i, name in enumerate(REGIONS)]


def nation_rows():
    return [(i, name, region, chosen("n_comment", i, REMARKS)) for i, (name, region) in enumerate(NATIONS)]


def supplier_rows():
    """Supplier i is of nation i modulo 25, so that each nation has one."""
    rows = []
    for i in range(1, SUPPLIERS + 1):
        nation = i % len(NATIONS)
        rows.append((i, f"Supplier#{i:09}", f"street {draw('s_address', i, 1, 99)}", nation, phone("s_phone", i, nation), draw("s_acctbal", i, -99999, 999999),
                     chosen("s_comment", i, REMARKS)))
    return rows


def customer_rows():
    rows = []
    for i in range(1, CUSTOMERS + 1):
        nation = draw("c_nationkey", i, 0, len(NATIONS) - 1)
        rows.append((i, f"Customer#{i:09}", f"street {draw('c_address', i, 1, 99)}", nation, phone("c_phone", i, nation), draw("c_acctbal", i, -99999, 999999),
                     chosen("c_mktsegment", i, SEGMENTS), chosen("c_comment", i, REMARKS)))
    return rows


def price_of(part):
    return 90000 + part % 200 * 100 + part * 10


def part_rows():
    rows = []
    for i in range(1, PARTS + 1):
        maker = draw("p_mfgr", i, 1, 5)
        name = " ".join(chosen(f"p_name {it}", i, COLOURS) for it in range(3))
        kind = " ".join(chosen(f"p_type {at}", i, texts) for at, texts in enumerate(KINDS))
        box = " ".join(chosen(f"p_container {at}", i, texts) for at, texts in enumerate(CONTAINERS))
        rows.append((i, name, f"Manufacturer#{maker}", f"Brand#{maker}{draw('p_brand', i, 1, 5)}", kind, draw("p_size", i, 1, 50), box, price_of(i),
                     chosen("p_comment", i, REMARKS)))
    return rows


def supplier_of(part, which):
    """Each part has four suppliers, ten numbers apart."""
    return (part + which * (SUPPLIERS // 4)) % SUPPLIERS + 1


def partsupp_rows():
    rows = []
    for i in range(1, PARTS + 1):
        for which in range(4):
            row = i * 4 + which
            rows.append((i, supplier_of(i, which), draw("ps_availqty", row, 1, 9999), draw("ps_supplycost", row, 100, 100000), chosen("ps_comment", row, REMARKS)))
    return rows


def later(day, days):
    return day + timedelta(days)


def items_of(order, day):
    """The one to seven items of an order, each with its dates after the order's."""
    rows = []
    for line in range(1, draw("l_linenumber", order, 1, 7) + 1):
        row = order * 8 + line
        part, quantity = draw("l_partkey", row, 1, PARTS), draw("l_quantity", row, 1, 50)
        shipped = later(day, draw("l_shipdate", row, 1, 121))
        received = later(shipped, draw("l_receiptdate", row, 1, 30))
        returned = chosen("l_returnflag", row, ("R", "A")) if str(received) <= TODAY else "N"
        rows.append((order, part, supplier_of(part, draw("l_suppkey", row, 0, 3)), line, quantity, quantity * price_of(part), draw("l_discount", row, 0, 10),
                     draw("l_tax", row, 0, 8), returned, "O" if str(shipped) > TODAY else "F", str(shipped), str(later(day, draw("l_commitdate", row, 30, 90))),
                     str(received), chosen("l_shipinstruct", row, INSTRUCTIONS), chosen("l_shipmode", row, SHIP_MODES), chosen("l_comment", row, REMARKS)))
    return rows


def order_rows():
    """The orders, and their items. Two of three customers order at all: those whose number is not a multiple of 3."""
    orders, items = [], []
    for i in range(1, ORDERS + 1):
        customer = draw("o_custkey", i, 0, CUSTOMERS // 3 - 1) * 3 + draw("o_custkey rest", i, 1, 2)
        day = later(FIRST_DAY, draw("o_orderdate", i, 0, (LAST_DAY - FIRST_DAY).days))
        mine = items_of(i, day)
        states = {it[9] for it in mine}
        total = sum(it[5] * (100 - it[6]) * (100 + it[7]) // 10000 for it in mine)
        orders.append((i, customer, states.pop() if len(states) == 1 else "P", total, str(day), chosen("o_orderpriority", i, PRIORITIES),
                       f"Clerk#{draw('o_clerk', i, 1, 9):09}", 0, chosen("o_comment", i, REMARKS)))
        items += mine
    return orders, items


def rows():
    """The rows of each table, by its name."""
    orders, items = order_rows()
    return {"region": region_rows(), "nation": nation_rows(), "supplier": supplier_rows(), "customer": customer_rows(), "part": part_rows(),
            "partsupp": partsupp_rows(), "orders": orders, "lineitem": items}
