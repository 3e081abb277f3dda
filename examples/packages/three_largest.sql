-- Stretches in which nothing changes, and of each the packages that fewer than three larger ones stand beside.
with instants as (select began as t from installs union select ended from installs),
    stretches as (select t, lead(t) over (order by t) as u from instants),
    alive as (select t, u, c1, c2 from stretches join installs on began <= t and t < ended where u is not null)
select t, u, c1, c2 from alive a where (select count(*) from alive b where b.t = a.t and b.c2 > a.c2) < 3
