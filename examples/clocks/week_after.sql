select began, began + 604800, c1, c2 from clock where c1 <> 'Kolkata'
