select (select min(d.began) from set_up d where d.c1 = u.c1 and d.began > u.began) as found, u.began + 10, u.c1 from unpacked u
    where found < u.began + 10
