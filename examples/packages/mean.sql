with instants as (select began as t from installs union select ended from installs),
    stretches as (select t, lead(t) over (order by t) as u from instants)
select t, u, (select sum(c2) / count(*) from installs where began <= t and t < ended) as kb from stretches where u is not null and kb is not null
