select began, began + 604800, c1 from releases
