select max(p.began, r.began), min(p.ended, r.ended), p.c1, r.c1 from packages p join runs r on p.began < r.ended and r.began < p.ended
