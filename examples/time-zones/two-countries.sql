-- The zones of two countries, and what each covers.
SELECT c.name, z.tz, z.comments
FROM country c JOIN zone z ON z.country = c.code
WHERE c.name IN ('Russia', 'Kazakhstan')
ORDER BY c.name, z.tz;
