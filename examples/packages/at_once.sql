with instants as (select began as t from installs union select ended from installs),
    stretches as (select t, lead(t) over (order by t) as u from instants)
select t, u, (select count(*) from installs where began <= t and t < ended) as n from stretches where u is not null and n > 0
