select began / 60 * 60, began / 60 * 60 + 60, c1 from installs where c2 > 50000
