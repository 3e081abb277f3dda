with lives as (select began, began + 2592000 as ended from releases),
    instants as (select began as t from lives union select ended from lives),
    stretches as (select t, lead(t) over (order by t) as u from instants)
select t, u, (select count(*) from lives where began <= t and t < ended) as n from stretches where u is not null and n >= 3
