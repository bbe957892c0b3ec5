-- The twenty countries with most zones, and how many of these have a comment.
SELECT c.name, COUNT(*) AS zones, COUNT(z.comments) AS commented
FROM zone z JOIN country c ON c.code = z.country
GROUP BY c.name
ORDER BY zones DESC, c.name
LIMIT 20;
