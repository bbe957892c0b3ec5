SELECT name, amt FROM cust c, ord o WHERE c.id = o.cid
