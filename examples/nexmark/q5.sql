with places(i) as (values (0), (1), (2), (3), (4)),
    counts as (select began / 2000 * 2000 + i * 2000 as t, c1 as auction, count(*) as n from bid, places group by 1, 2)
select t, t + 2000, auction, n from counts c where n = (select max(n) from counts d where d.t = c.t)
