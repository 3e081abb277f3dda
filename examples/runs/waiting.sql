-- The stretches between the instants at which a package begins or ends, within a run, in which no package is worked on.
with instants as (select began as t from packages union select ended from packages union select began from runs union select ended from runs),
    stretches as (select t, lead(t) over (order by t) as u from instants)
select t, u, r.c1, r.c2 from stretches join runs r on r.began <= t and u <= r.ended
where not exists (select * from packages p where p.began < u and t < p.ended)
