-- A burst goes from a start up to 30 seconds after the last start that is less than 30 seconds after the one before it.
with marked as (select began, began - lag(began, 1, -1000) over (order by began) >= 30 as first from packages),
    numbered as (select began, sum(first) over (order by began rows unbounded preceding) as burst from marked),
    lives as (select a.began, (select max(b.began) + 30 from numbered b where b.burst = a.burst) as ended, a.burst from numbered a),
    instants as (select began as t from lives union select ended from lives),
    stretches as (select t, lead(t) over (order by t) as u from instants)
select t, u, (select count(*) from lives where began <= t and t < ended) as n from stretches where u is not null and n > 0
