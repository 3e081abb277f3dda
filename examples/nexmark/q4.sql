-- An auction with a bid counts for a minute from the instant at which it closes.
with finals as (select a.ended as t, a.ended + 60000 as u, a.c3 as category, max(b.c3) as final from auction a join bid b on a.c1 = b.c1
        group by a.c1, a.ended, a.c3),
    instants as (select category, t from finals union select category, u from finals),
    stretches as (select category, t, lead(t) over (partition by category order by t) as u from instants)
select s.t, s.u, s.category, sum(final) / count(*) from stretches s join finals f on s.category = f.category and f.t <= s.t and s.t < f.u
    where s.u is not null group by s.category, s.t, s.u
