select max(a.began, b.began), min(a.ended, b.ended), a.c1, b.c1 from installs a join installs b
    on a.began < b.ended and b.began < a.ended where a.c2 > 100000 and b.c2 > 400000
