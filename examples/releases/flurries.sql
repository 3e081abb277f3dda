-- A flurry goes on until two weeks after the last release that is less than two weeks after the one before it.
with marked as (select began, began - lag(began, 1, -1e9) over (order by began) >= 1209600 as first from releases),
    numbered as (select began, sum(first) over (order by began rows unbounded preceding) as flurry from marked),
    lives as (select a.began, (select max(b.began) + 1209600 from numbered b where b.flurry = a.flurry) as ended from numbered a),
    instants as (select began as t from lives union select ended from lives),
    stretches as (select t, lead(t) over (order by t) as u from instants)
select t, u, (select count(*) from lives where began <= t and t < ended) as n from stretches where u is not null and n > 0
