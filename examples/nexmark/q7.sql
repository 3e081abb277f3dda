with ranked as (select began / 10000 * 10000 as t, c1, c2, c3, max(c3) over (partition by began / 10000) as highest from bid)
select t, t + 10000, c1, c2, c3 from ranked where c3 = highest
