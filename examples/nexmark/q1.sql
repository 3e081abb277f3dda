select began, ended, c1, c2, c3 * 908 as "dec(3)" from bid
