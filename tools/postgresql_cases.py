"""The queries of `tools/try-postgresql` beside those of `tpch_queries`: over the Wisconsin relations, and over TPC-H's tables.

Each has a name, parameters of the session that lead PostgreSQL to another plan, and its text.
"""
MERGE = ("enable_hashjoin=off", "enable_nestloop=off")
HASH = ("enable_mergejoin=off", "enable_nestloop=off")
LOOP = ("enable_hashjoin=off", "enable_mergejoin=off")
WHOLE_TABLE = (*HASH, "enable_parallel_hash=off")
SORTED_GROUPS = ("enable_hashagg=off",)
NO_INDEX = ("enable_indexscan=off", "enable_indexonlyscan=off", "enable_bitmapscan=off")
SERIAL = ("max_parallel_workers_per_gather=0",)

WISCONSIN = {
    "wisconsin 1": ((), "select * from tenk1 where unique2 between 0 and 9"),
    "wisconsin 2": (NO_INDEX, "select * from tenk1 where unique2 between 100 and 199 order by unique2"),
    "wisconsin 3": (HASH, "select tenk1.unique2 as one, tenk2.unique2 as other from tenk1 join tenk2 on tenk1.unique2 = tenk2.unique2 where tenk2.unique2 < 100"),
    "wisconsin 4": (WHOLE_TABLE, "select tenk1.unique1, bprime.unique2 from tenk1 join bprime on tenk1.unique2 = bprime.unique2"),
    "wisconsin 5": (HASH, "select o.unique1, a.unique1 as a1, b.unique1 as b1 from onek o join tenk1 a on o.unique2 = a.unique2 join tenk2 b on a.unique2 = b.unique2 "
                          "where a.unique2 < 50"),
    "wisconsin 6": (MERGE, "select a.unique1, b.unique2 from tenk1 a join tenk2 b on a.unique1 = b.unique1 order by a.unique1"),
    "wisconsin 7": ((), "select distinct two, four, ten, twenty, onepercent, string4 from tenk1"),
    "wisconsin 8": (SORTED_GROUPS, "select distinct onepercent, string4 from tenk1 order by onepercent, string4"),
    "wisconsin 9": ((), "select min(unique2) as least from tenk1 where unique3 >= 10"),
    "wisconsin 10": ((), "select onepercent, min(unique3) as m from tenk1 group by onepercent order by onepercent"),
    "wisconsin 11": (SORTED_GROUPS, "select onepercent, sum(unique3) as s from tenk1 group by onepercent order by onepercent"),
    "wisconsin 12": (LOOP, "select o.unique1, t.stringu1 from onek o join tenk1 t on t.unique2 = o.unique2 where o.ten < 3"),
    "wisconsin 13": (MERGE, "select t.onepercent, count(*) as c, max(o.unique2) as m from tenk1 t join onek o on t.onepercent = o.unique2 group by t.onepercent order by t.onepercent"),
    "least by an index": ((), "select min(unique2) as least from tenk1"),
    "greatest by an index": ((), "select max(unique1) as greatest from tenk2 where unique1 < 700"),
    "first ten": ((), "select unique2, stringu1 from tenk1 order by unique2 limit 10"),
    "last ten": ((), "select unique1, stringu2 from tenk1 order by unique1 desc limit 10"),
    "first in no order": ((), "select unique2 from tenk1 where two = 1 limit 5"),
    "first of equals": ((), "select ten, unique1 from tenk1 order by ten limit 5"),
    "falling and rising": (NO_INDEX, "select ten, twenty, unique1 from tenk1 where onepercent < 20 order by ten desc, twenty, unique1 desc"),
    "union all": ((), "select unique1, string4 from tenk1 where ten = 1 union all select unique2, stringu1 from onek where two = 0"),
    "union": ((), "select onepercent from tenk1 union select unique1 from bprime"),
    "union of three": (SORTED_GROUPS, "select ten as n from tenk1 union select four from tenk2 union select two from onek order by n"),
    "union over groups": ((), "select ten as n, count(*) as c from tenk1 group by ten union all select twenty, count(*) from tenk2 group by twenty"),
    "semi join": (HASH, "select unique1, ten from tenk1 t where exists (select * from onek o where o.unique1 = t.unique2 and o.four = 1)"),
    "semi join with a condition": (HASH, "select unique1 from tenk1 t where exists (select * from onek o where o.onepercent = t.onepercent and o.unique1 < t.unique2 - 800)"),
    "semi join by in": (WHOLE_TABLE, "select unique1, unique2 from tenk1 where onepercent in (select unique1 from bprime where ten = 5)"),
    "anti join": (HASH, "select unique1 from tenk1 t where not exists (select * from onek o where o.unique2 = t.unique2)"),
    "anti join (whole)": (WHOLE_TABLE, "select unique1 from tenk1 t where not exists (select * from onek o where o.unique2 = t.unique2 and o.ten <> t.ten)"),
    "anti join (merged)": (MERGE, "select unique1 from tenk1 t where not exists (select * from onek o where o.unique1 = t.unique1) order by unique1"),
    "functions": ((), "select unique1 % 7 as rest, -unique2 as negative, length(stringu1) as letters, lower(substring(stringu1, 1, 7)) as small, "
                      "string4 || '!' as loud from tenk1 where stringu1 like '%B%' or unique1 in (1, 5, 9)"),
    "cases": ((), "select unique1, case when ten < 3 then 'few' when ten < 7 then 'some' else 'many' end as amount from tenk1 where not (two = 1 and four = 3)"),
    "group by a function": ((), "select unique1 % 13 as rest, count(*) as c, sum(unique2 * 2) as s from tenk1 group by unique1 % 13 order by rest"),
    "having": ((), "select ten, twenty, count(*) as c from tenk1 group by ten, twenty having count(*) > 10 and max(unique1) > 5 order by ten, twenty"),
    "group of groups": ((), "select c, count(*) as n from (select onepercent, count(unique1) as c from tenk1 group by onepercent) as inner_groups group by c order by c"),
    "scalar subquery": ((), "select unique1, unique2 from tenk1 where unique1 > (select max(unique1) - 20 from tenk2) order by unique1"),
    "two scalar subqueries": ((), "select unique1 from tenk1 where unique1 < (select count(*) from bprime) and unique2 > (select min(unique1) + 3 from onek)"),
    "unequal join": ((), "select b.unique1 as one, o.unique1 as other from bprime b join onek o on b.unique1 < o.unique1 - 95"),
    "cross join": ((), "select b.unique2 as one, o.four from bprime b, (select distinct four from onek) as o where b.ten = 3"),
    "join of groups": (HASH, "select a.ten, a.c, b.s from (select ten, count(*) as c from tenk1 group by ten) as a join "
                             "(select twenty, sum(unique1) as s from tenk2 group by twenty) as b on a.ten = b.twenty order by a.ten"),
    "self join": (HASH, "select a.unique1, b.unique1 as next from tenk1 a join tenk1 b on b.unique1 = a.unique1 + 1 where a.ten = 0"),
    "materialized": ((), "with big as materialized (select ten, unique1 from tenk1 where unique1 > 900) select b.ten, o.unique2 from big b join onek o on o.unique1 = b.ten"),
    "serial": (SERIAL, "select t.ten, count(*) as c from tenk1 t join onek o on t.unique1 = o.unique1 group by t.ten order by t.ten"),
    "appended in order": ((), "select unique2 from tenk1 union all select unique2 from onek order by unique2 limit 20"),
    "memoized": (LOOP, "select t.unique1, n.n_name from tenk1 t, nation n where n.n_nationkey = t.twenty and t.ten = 3"),
    "subquery with a limit": ((), "select few.ten, few.c from (select ten, count(*) as c from tenk1 group by ten order by ten limit 8) as few where few.c > 50"),
    "not in values": ((), "select unique1, four from tenk1 where twenty not in (1, 2, 3, 5, 7) and stringu1 < 'AAAAABA'"),
    "greatest text": ((), "select four, max(stringu1) as last, min(string4) as first from tenk1 group by four order by four"),
    "exists within exists": (HASH, "select unique1 from tenk1 t where exists (select * from onek o where o.unique2 = t.unique1 and exists (select * from bprime b where b.unique1 = o.unique1 "
                                   "and b.two = 0))"),
    "count": ((), "select count(*) as c, sum(unique1) / 2 as half from tenk1 where four <> 2"),
    "twice": ((), "select unique1, unique1 as again, 7 as seven, 'x' as letter from onek where ten = 2"),
    "held columns of others": ((), "select id, label from odd where id > 2"),
    "computed key": (HASH, "select a.unique1, b.unique1 as half from tenk1 a join onek b on a.unique1 / 2 = b.unique1 order by a.unique1"),
    "function of PostgreSQL": ((), "select unique1, abs(unique1 - 500) as distance from tenk1 where ten = 4"),
    "unknown condition": ((), "select unique1 from tenk1 where stringu1 ~ '^AAAAA[B-D]'"),
    "average": ((), "select ten, avg(unique1) as a from tenk1 group by ten"),
    "distinct values": ((), "select ten, count(distinct string4) as c from tenk1 group by ten"),
    "outer join": (HASH, "select t.unique1, o.unique2 from tenk1 t left join onek o on t.unique1 = o.unique1"),
    "window": ((), "select unique1, rank() over (order by ten) as r from tenk1"),
    "difference": ((), "select unique1 from tenk1 except select unique1 from onek"),
    "truths": ((), "select unique1, ten < 5 as small from tenk1"),
    "random": ((), "select unique1 from tenk1 where random() < 0.5"),
    "printed alike": ((), "select c, count(*) as n from (select twenty, count(*) as c from tenk1 group by twenty) as inner_groups group by c order by n desc, c desc"),
    "rows of each row": ((), "select t.unique1, x.c from bprime t, lateral (select count(*) as c from onek o where o.unique1 < t.ten) as x"),
    "may be null": ((), "select ten, count(nullif(two, 0)) as c from tenk1 group by ten"),
    "null": ((), "select id from odd where amount > 3"),
    "a date": ((), "select id, day from odd"),
    "another text": ((), "select id, short from odd"),
    "a fraction": ((), "select l_returnflag, sum(l_quantity) / count(*) as average from lineitem group by l_returnflag"),
    "intersection": ((), "select unique1 from tenk1 intersect select unique1 from onek"),
    "grouping sets": ((), "select two, four, count(*) as c from tenk1 group by grouping sets ((two), (four))"),
    "recursive": ((), "with recursive n as (select 1 as i union all select i + 1 from n where i < 5) select i from n"),
    "a series": ((), "select i from generate_series(1, 5) as i"),
    "no table": ((), "select 1 as one"),
    "a sample": ((), "select unique1 from tenk1 tablesample system (50)"),
    "offset": ((), "select unique1 from tenk1 order by unique1 limit 5 offset 5"),
}
MORE = {
    "items by order": (MERGE, "select o_orderkey, o_orderdate, l_linenumber, l_quantity from orders, lineitem where l_orderkey = o_orderkey and o_orderdate < '1992-03-01' "
                              "order by o_orderkey, l_linenumber"),
    "customers by nation": (HASH, "select n_name, count(*) as customers, sum(c_acctbal) as balance from customer, nation where c_nationkey = n_nationkey group by n_name order by n_name"),
    "customers by nation (whole)": (WHOLE_TABLE, "select n_name, r_name, count(*) as customers from customer, nation, region where c_nationkey = n_nationkey "
                                                "and n_regionkey = r_regionkey group by n_name, r_name order by n_name"),
    "parts in order": (MERGE, "select p_partkey, ps_suppkey, ps_supplycost from part, partsupp where p_partkey = ps_partkey and p_size > 40 order by p_partkey, ps_suppkey"),
    "suppliers without parts": (HASH, "select s_suppkey, s_name from supplier where not exists (select * from partsupp where ps_suppkey = s_suppkey and ps_availqty > 9900)"),
    "dear orders": ((), "select o_orderkey, o_totalprice from orders order by o_totalprice desc, o_orderkey limit 7"),
    "by a determined column": ((), "select c_custkey, c_name, c_address, count(*) as orders from customer, orders where c_custkey = o_custkey "
                                   "group by c_custkey order by c_custkey"),
    "distinct modes": (SORTED_GROUPS, "select distinct l_shipmode, l_returnflag from lineitem where l_quantity > 30"),
    "late items": (LOOP, "select l_orderkey, l_linenumber, s_name from lineitem, supplier where l_suppkey = s_suppkey and l_receiptdate > l_commitdate and l_shipdate >= '1998-01-01'"),
    "in two queries": (HASH, "select p_partkey from part where p_partkey in (select ps_partkey from partsupp where ps_availqty < 500) and p_partkey not in (select 0 from region)"),
}

# Queries that are not converted, not accepted or not run: why, the words that the tool or the program says, and their names.
NOT_CONVERTED = (
    ("the language has no NULL, and so no outer join", "an outer join", ("tpch 13", "outer join")),
    ("a column or a value that may be null", "may be null", ("null", "may be null")),
    ("two columns that PostgreSQL prints alike", "is printed as", ("printed alike",)),
    ("a group or a limit for each row of another side of a join", "depend on another side", ("rows of each row",)),
    ("a subquery that is evaluated for each row", "(SubPlan)", ("tpch 2", "tpch 17", "tpch 20")),
    ("`NOT IN`: PostgreSQL 15 does not print what it looks for", "(hashed SubPlan)", ("tpch 16", "in two queries")),
    ("no `avg`, and no count of distinct values", "the aggregate", ("tpch 22", "average", "distinct values")),
    ("a number that is no whole one", "not a whole number", ("a fraction",)),
    ("another type: truth values, dates, short texts", "of the type", ("truths", "a date", "another text")),
    ("windows", "a window", ("window",)),
    ("EXCEPT and INTERSECT", "EXCEPT or INTERSECT", ("difference", "intersection")),
    ("grouping sets", "Grouping Sets", ("grouping sets",)),
    ("OFFSET", "an offset", ("offset",)),
    ("recursion", "a recursive query", ("recursive",)),
    ("rows that come of no table", "", ("a series", "no table")),
    ("a function that may answer otherwise each time, or a sample of a table", "", ("random", "a sample")),
)
NOT_ACCEPTED = (
    ("the first rows are open: the order leaves rows that are equal, and PostgreSQL may return others at another run", "K11", (
        "tpch 3", "tpch 10", "tpch 18", "first in no order", "first of equals")),
)
NOT_RUN = (("a function that the program does not have: accepted by its name", "X15", ("function of PostgreSQL", "unknown condition")),)
