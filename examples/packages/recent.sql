select began, began + 15, c1 from installs where c2 > 50000
