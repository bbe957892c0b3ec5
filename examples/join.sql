-- Each order beside the part that it asks for.
SELECT * FROM orders, parts WHERE orders.part = parts.id
