-- A crowd comes to be at an instant from which on there are three or more within 30 days, and before which there were fewer.
with lives as (select began, began + 2592000 as ended from releases),
    instants as (select began as t from lives union select ended from lives),
    crowded as (select t, lead(t) over (order by t) as u, (select count(*) >= 3 from lives where began <= t and t < ended) as is_crowd from instants),
    crowds as (select t, t + 31536000 as u from (select t, is_crowd, lag(is_crowd, 1, false) over (order by t) as was_crowd from crowded)
        where is_crowd and not was_crowd),
    moves as (select t from crowds union select u from crowds),
    stretches as (select t, lead(t) over (order by t) as u from moves)
select s.t, s.u, (select count(*) from crowds c where c.t <= s.t and s.t < c.u) as n from stretches s where s.u is not null and n > 0
