select max(a.began, p.began), min(a.ended, p.ended), a.c1, p.c1, p.c2, p.c3, p.c4 from auction a join person p on a.c2 = p.c1
    and a.began < p.ended and p.began < a.ended where a.c3 = 10 and p.c4 in ('OR', 'ID', 'CA')
