-- Where the offset changed from one era to the next, from 2005 to 2020.
SELECT a.tz, a.until_year, a."offset" AS before_change, b."offset" AS after_change
FROM era a, era b
WHERE a.tz = b.tz AND b.seq = a.seq + 1 AND a.until_year BETWEEN 2005 AND 2020 AND a."offset" <> b."offset"
ORDER BY a.until_year DESC, a.tz;
