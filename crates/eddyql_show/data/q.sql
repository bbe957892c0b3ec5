SELECT name, amt FROM cust c, ord o WHERE c.id = o.cid;
SELECT name FROM cust c WHERE NOT (c.id = 2 OR c.name IS NULL) AND divides(c.id, 3)
