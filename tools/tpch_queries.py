"""The 22 queries of TPC-H over the tables of `tpch_tables`, in PostgreSQL's dialect, and other forms of some of them.

Money is in hundredths and a discount in percents, so a price after its discount is `l_extendedprice * (100 - l_discount)`. An average is a sum divided by a
count, toward zero. Dates are texts, and a year is the first four characters of one. A query whose name ends with "by key" sorts on a key besides, where the
benchmark's own order is open; one that ends with "joined" has a join in place of a subquery that reads the row outside of it.
"""
REVENUE = "sum(l_extendedprice * (100 - l_discount))"
TPCH = {
    "tpch 1": f"""select l_returnflag, l_linestatus, sum(l_quantity) as sum_qty, sum(l_extendedprice) as sum_base_price, {REVENUE} as sum_disc_price,
        sum(l_extendedprice * (100 - l_discount) * (100 + l_tax)) as sum_charge, sum(l_quantity)::bigint / count(*) as avg_qty,
        sum(l_extendedprice)::bigint / count(*) as avg_price, count(*) as count_order
        from lineitem where l_shipdate <= '1998-09-02' group by l_returnflag, l_linestatus order by l_returnflag, l_linestatus""",
    "tpch 2": """select s_acctbal, s_name, n_name, p_partkey, p_mfgr from part, supplier, partsupp, nation, region
        where p_partkey = ps_partkey and s_suppkey = ps_suppkey and p_size < 15 and p_type like '%BRASS' and s_nationkey = n_nationkey and n_regionkey = r_regionkey
        and r_name = 'EUROPE' and ps_supplycost = (select min(ps_supplycost) from partsupp, supplier, nation, region where p_partkey = ps_partkey
        and s_suppkey = ps_suppkey and s_nationkey = n_nationkey and n_regionkey = r_regionkey and r_name = 'EUROPE')
        order by s_acctbal desc, n_name, s_name, p_partkey limit 100""",
    "tpch 2 joined": """select s_acctbal, s_name, n_name, p_partkey, p_mfgr from part, supplier, partsupp, nation, region,
        (select ps_partkey as least_part, min(ps_supplycost) as least_cost from partsupp, supplier, nation, region
        where s_suppkey = ps_suppkey and s_nationkey = n_nationkey and n_regionkey = r_regionkey and r_name = 'EUROPE' group by ps_partkey) as least
        where p_partkey = ps_partkey and s_suppkey = ps_suppkey and p_size < 15 and p_type like '%BRASS' and s_nationkey = n_nationkey and n_regionkey = r_regionkey
        and r_name = 'EUROPE' and ps_supplycost = least_cost and p_partkey = least_part order by s_acctbal desc, n_name, s_name, p_partkey limit 100""",
    "tpch 3": f"""select l_orderkey, {REVENUE} as revenue, o_orderdate, o_shippriority from customer, orders, lineitem
        where c_mktsegment = 'BUILDING' and c_custkey = o_custkey and l_orderkey = o_orderkey and o_orderdate < '1995-03-15' and l_shipdate > '1995-03-15'
        group by l_orderkey, o_orderdate, o_shippriority order by revenue desc, o_orderdate limit 10""",
    "tpch 3 by key": f"""select l_orderkey, {REVENUE} as revenue, o_orderdate, o_shippriority from customer, orders, lineitem
        where c_mktsegment = 'BUILDING' and c_custkey = o_custkey and l_orderkey = o_orderkey and o_orderdate < '1995-03-15' and l_shipdate > '1995-03-15'
        group by l_orderkey, o_orderdate, o_shippriority order by revenue desc, o_orderdate, l_orderkey limit 10""",
    "tpch 4": """select o_orderpriority, count(*) as order_count from orders where o_orderdate >= '1993-07-01' and o_orderdate < '1993-10-01'
        and exists (select * from lineitem where l_orderkey = o_orderkey and l_commitdate < l_receiptdate) group by o_orderpriority order by o_orderpriority""",
    "tpch 5": f"""select n_name, {REVENUE} as revenue from customer, orders, lineitem, supplier, nation, region
        where c_custkey = o_custkey and l_orderkey = o_orderkey and l_suppkey = s_suppkey and c_nationkey = s_nationkey and s_nationkey = n_nationkey
        and n_regionkey = r_regionkey and r_name = 'ASIA' and o_orderdate >= '1994-01-01' and o_orderdate < '1995-01-01' group by n_name order by revenue desc""",
    "tpch 6": """select sum(l_extendedprice * l_discount) as revenue from lineitem
        where l_shipdate >= '1994-01-01' and l_shipdate < '1995-01-01' and l_discount between 5 and 7 and l_quantity < 24""",
    "tpch 7": """select supp_nation, cust_nation, l_year, sum(volume) as revenue from
        (select n1.n_name as supp_nation, n2.n_name as cust_nation, substring(l_shipdate, 1, 4) as l_year, l_extendedprice * (100 - l_discount) as volume
        from supplier, lineitem, orders, customer, nation n1, nation n2 where s_suppkey = l_suppkey and o_orderkey = l_orderkey and c_custkey = o_custkey
        and s_nationkey = n1.n_nationkey and c_nationkey = n2.n_nationkey and ((n1.n_name = 'FRANCE' and n2.n_name = 'GERMANY')
        or (n1.n_name = 'GERMANY' and n2.n_name = 'FRANCE')) and l_shipdate between '1995-01-01' and '1996-12-31') as shipping
        group by supp_nation, cust_nation, l_year order by supp_nation, cust_nation, l_year""",
    "tpch 8": """select o_year, (100 * sum(case when nation = 'BRAZIL' then volume else 0 end)::bigint) / sum(volume)::bigint as mkt_share from
        (select substring(o_orderdate, 1, 4) as o_year, l_extendedprice * (100 - l_discount) as volume, n2.n_name as nation
        from part, supplier, lineitem, orders, customer, nation n1, nation n2, region where p_partkey = l_partkey and s_suppkey = l_suppkey and l_orderkey = o_orderkey
        and o_custkey = c_custkey and c_nationkey = n1.n_nationkey and n1.n_regionkey = r_regionkey and r_name = 'AMERICA' and s_nationkey = n2.n_nationkey
        and o_orderdate between '1995-01-01' and '1996-12-31' and p_type like 'ECONOMY%') as all_nations group by o_year order by o_year""",
    "tpch 9": """select nation, o_year, sum(amount) as sum_profit from
        (select n_name as nation, substring(o_orderdate, 1, 4) as o_year, l_extendedprice * (100 - l_discount) - ps_supplycost * l_quantity * 100 as amount
        from part, supplier, lineitem, partsupp, orders, nation where s_suppkey = l_suppkey and ps_suppkey = l_suppkey and ps_partkey = l_partkey
        and p_partkey = l_partkey and o_orderkey = l_orderkey and s_nationkey = n_nationkey and p_name like '%green%') as profit
        group by nation, o_year order by nation, o_year desc""",
    "tpch 10": f"""select c_custkey, c_name, {REVENUE} as revenue, c_acctbal, n_name, c_address, c_phone, c_comment from customer, orders, lineitem, nation
        where c_custkey = o_custkey and l_orderkey = o_orderkey and o_orderdate >= '1993-10-01' and o_orderdate < '1994-01-01' and l_returnflag = 'R'
        and c_nationkey = n_nationkey group by c_custkey, c_name, c_acctbal, c_phone, n_name, c_address, c_comment order by revenue desc limit 20""",
    "tpch 10 by key": f"""select c_custkey, c_name, {REVENUE} as revenue, c_acctbal, n_name, c_address, c_phone, c_comment from customer, orders, lineitem, nation
        where c_custkey = o_custkey and l_orderkey = o_orderkey and o_orderdate >= '1993-10-01' and o_orderdate < '1994-01-01' and l_returnflag = 'R'
        and c_nationkey = n_nationkey group by c_custkey, c_name, c_acctbal, c_phone, n_name, c_address, c_comment order by revenue desc, c_custkey limit 20""",
    "tpch 11": """select ps_partkey, sum(ps_supplycost * ps_availqty) as value from partsupp, supplier, nation where ps_suppkey = s_suppkey and s_nationkey = n_nationkey
        and n_name = 'GERMANY' group by ps_partkey having sum(ps_supplycost * ps_availqty) * 100 > (select sum(ps_supplycost * ps_availqty)
        from partsupp, supplier, nation where ps_suppkey = s_suppkey and s_nationkey = n_nationkey and n_name = 'GERMANY') order by value desc""",
    "tpch 12": """select l_shipmode, sum(case when o_orderpriority = '1-URGENT' or o_orderpriority = '2-HIGH' then 1 else 0 end) as high_line_count,
        sum(case when o_orderpriority <> '1-URGENT' and o_orderpriority <> '2-HIGH' then 1 else 0 end) as low_line_count from orders, lineitem
        where o_orderkey = l_orderkey and l_shipmode in ('MAIL', 'SHIP') and l_commitdate < l_receiptdate and l_shipdate < l_commitdate
        and l_receiptdate >= '1994-01-01' and l_receiptdate < '1995-01-01' group by l_shipmode order by l_shipmode""",
    "tpch 13": """select c_count, count(*) as custdist from (select c_custkey, count(o_orderkey) as c_count from customer left outer join orders
        on c_custkey = o_custkey and o_comment not like '%special%requests%' group by c_custkey) as c_orders group by c_count order by custdist desc, c_count desc""",
    "tpch 13 joined": """select c_count, count(*) as custdist from (select o_custkey, count(o_orderkey) as c_count from customer, orders where c_custkey = o_custkey
        and o_comment not like '%special%requests%' group by o_custkey) as c_orders group by c_count order by custdist desc, c_count desc""",
    "tpch 14": f"""select (100 * sum(case when p_type like 'PROMO%' then l_extendedprice * (100 - l_discount) else 0 end)::bigint) / {REVENUE}::bigint as promo_revenue
        from lineitem, part where l_partkey = p_partkey and l_shipdate >= '1995-09-01' and l_shipdate < '1995-10-01'""",
    "tpch 15": f"""with revenue as (select l_suppkey as supplier_no, {REVENUE} as total_revenue from lineitem where l_shipdate >= '1996-01-01' and l_shipdate < '1996-04-01'
        group by l_suppkey) select s_suppkey, s_name, s_address, s_phone, total_revenue from supplier, revenue where s_suppkey = supplier_no
        and total_revenue = (select max(total_revenue) from revenue) order by s_suppkey""",
    "tpch 16": """select p_brand, p_type, p_size, count(distinct ps_suppkey) as supplier_cnt from partsupp, part where p_partkey = ps_partkey and p_brand <> 'Brand#45'
        and p_type not like 'MEDIUM POLISHED%' and p_size in (49, 14, 23, 45, 19, 3, 36, 9) and ps_suppkey not in
        (select s_suppkey from supplier where s_comment like '%Customer%Complaints%') group by p_brand, p_type, p_size order by supplier_cnt desc, p_brand, p_type, p_size""",
    "tpch 16 joined": """select p_brand, p_type, p_size, count(*) as supplier_cnt from (select distinct p_brand, p_type, p_size, ps_suppkey from partsupp, part
        where p_partkey = ps_partkey and p_brand <> 'Brand#45' and p_type not like 'MEDIUM POLISHED%' and p_size in (49, 14, 23, 45, 19, 3, 36, 9) and not exists
        (select * from supplier where s_suppkey = ps_suppkey and s_comment like '%Customer%Complaints%')) as offered
        group by p_brand, p_type, p_size order by supplier_cnt desc, p_brand, p_type, p_size""",
    "tpch 17": """select sum(l_extendedprice)::bigint / 7 as avg_yearly from lineitem, part where p_partkey = l_partkey and p_container like 'MED%'
        and l_quantity < (select sum(l_quantity)::bigint / count(*) / 2 from lineitem where l_partkey = p_partkey)""",
    "tpch 17 joined": """select sum(l_extendedprice)::bigint / 7 as avg_yearly from lineitem, part, (select l_partkey as agg_part, sum(l_quantity)::bigint / count(*) / 2
        as half from lineitem group by l_partkey) as average where p_partkey = l_partkey and p_container like 'MED%' and agg_part = l_partkey and l_quantity < half""",
    "tpch 18": """select c_name, c_custkey, o_orderkey, o_orderdate, o_totalprice, sum(l_quantity) as quantity from customer, orders, lineitem
        where o_orderkey in (select l_orderkey from lineitem group by l_orderkey having sum(l_quantity) > 200) and c_custkey = o_custkey and o_orderkey = l_orderkey
        group by c_name, c_custkey, o_orderkey, o_orderdate, o_totalprice order by o_totalprice desc, o_orderdate limit 100""",
    "tpch 18 by key": """select c_name, c_custkey, o_orderkey, o_orderdate, o_totalprice, sum(l_quantity) as quantity from customer, orders, lineitem
        where o_orderkey in (select l_orderkey from lineitem group by l_orderkey having sum(l_quantity) > 200) and c_custkey = o_custkey and o_orderkey = l_orderkey
        group by c_name, c_custkey, o_orderkey, o_orderdate, o_totalprice order by o_totalprice desc, o_orderdate, o_orderkey limit 100""",
    "tpch 19": f"""select {REVENUE} as revenue from lineitem, part where p_partkey = l_partkey and l_shipmode in ('AIR', 'REG AIR')
        and l_shipinstruct = 'DELIVER IN PERSON' and ((p_brand like 'Brand#1%' and p_container in ('SM CASE', 'SM BOX', 'SM PACK', 'SM PKG') and l_quantity between 1 and 30
        and p_size between 1 and 25) or (p_brand like 'Brand#2%' and p_container in ('MED BAG', 'MED BOX', 'MED PKG', 'MED PACK') and l_quantity between 10 and 40
        and p_size between 1 and 30) or (p_brand like 'Brand#3%' and p_container in ('LG CASE', 'LG BOX', 'LG PACK', 'LG PKG') and l_quantity between 20 and 50
        and p_size between 1 and 45))""",
    "tpch 20": """select s_name, s_address from supplier, nation where s_suppkey in (select ps_suppkey from partsupp where ps_partkey in
        (select p_partkey from part where p_name like 'forest%') and ps_availqty > (select sum(l_quantity)::bigint / 2 from lineitem where l_partkey = ps_partkey
        and l_suppkey = ps_suppkey and l_shipdate >= '1994-01-01' and l_shipdate < '1995-01-01')) and s_nationkey = n_nationkey and n_name = 'CANADA' order by s_name""",
    "tpch 20 joined": """select s_name, s_address from supplier, nation where s_suppkey in (select ps_suppkey from partsupp, (select l_partkey, l_suppkey,
        sum(l_quantity)::bigint / 2 as half from lineitem where l_shipdate >= '1994-01-01' and l_shipdate < '1995-01-01' group by l_partkey, l_suppkey) as sold
        where ps_partkey in (select p_partkey from part where p_name like 'forest%') and l_partkey = ps_partkey and l_suppkey = ps_suppkey and ps_availqty > half)
        and s_nationkey = n_nationkey and n_name < 'PERU' order by s_name""",
    "tpch 21": """select s_name, count(*) as numwait from supplier, lineitem l1, orders, nation where s_suppkey = l1.l_suppkey and o_orderkey = l1.l_orderkey
        and o_orderstatus = 'F' and l1.l_receiptdate > l1.l_commitdate and exists (select * from lineitem l2 where l2.l_orderkey = l1.l_orderkey
        and l2.l_suppkey <> l1.l_suppkey) and not exists (select * from lineitem l3 where l3.l_orderkey = l1.l_orderkey and l3.l_suppkey <> l1.l_suppkey
        and l3.l_receiptdate > l3.l_commitdate) and s_nationkey = n_nationkey and n_name = 'SAUDI ARABIA' group by s_name order by numwait desc, s_name limit 100""",
    "tpch 22": """select cntrycode, count(*) as numcust, sum(c_acctbal) as totacctbal from (select substring(c_phone, 1, 2) as cntrycode, c_acctbal from customer
        where substring(c_phone, 1, 2) in ('13', '31', '23', '29', '30', '18', '17') and c_acctbal > (select avg(c_acctbal) from customer where c_acctbal > 0
        and substring(c_phone, 1, 2) in ('13', '31', '23', '29', '30', '18', '17')) and not exists (select * from orders where o_custkey = c_custkey)) as custsale
        group by cntrycode order by cntrycode""",
    "tpch 22 by sums": """select cntrycode, count(*) as numcust, sum(c_acctbal) as totacctbal from (select substring(c_phone, 1, 2) as cntrycode, c_acctbal from customer
        where substring(c_phone, 1, 2) in ('13', '31', '23', '29', '30', '18', '17') and c_acctbal > (select sum(c_acctbal)::bigint / count(*) from customer
        where c_acctbal > 0 and substring(c_phone, 1, 2) in ('13', '31', '23', '29', '30', '18', '17')) and not exists
        (select * from orders where o_custkey = c_custkey)) as custsale group by cntrycode order by cntrycode""",
}
