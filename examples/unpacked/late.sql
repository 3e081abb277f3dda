select began + 10, began + 11, c1 from unpacked u
    where not exists (select * from set_up d where d.c1 = u.c1 and u.began < d.began and d.began < u.began + 10)
