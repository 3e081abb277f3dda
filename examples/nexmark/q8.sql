with sellers as (select began / 10000 as window, c2 as seller, count(*) as n from auction group by 1, 2)
select window * 10000, window * 10000 + 10000, c1, c2, n from person join sellers on window = began / 10000 and seller = c1
