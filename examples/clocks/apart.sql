select max(a.began, b.began), min(a.ended, b.ended), (a.c2 - b.c2) / 60 as hours from clock a join clock b on a.began < b.ended and b.began < a.ended
where a.c1 = 'Berlin' and b.c1 = 'New_York' and hours <> 6
