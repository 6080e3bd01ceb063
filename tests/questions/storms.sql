SELECT year, COUNT(DISTINCT storm) AS storms, MAX(wind) AS strongest FROM storms GROUP BY year ORDER BY year

SELECT category, COUNT(*), AVG(wind), MIN(pressure) FROM storms GROUP BY category

SELECT month, SUM(gale_miles), COUNT(gale_miles), AVG(hurricane_miles) FROM storms GROUP BY month HAVING COUNT(gale_miles) > 0

SELECT storm, year, MAX(wind) AS w FROM storms GROUP BY storm ORDER BY w DESC, storm LIMIT 10

SELECT COUNT(*), SUM(wind), AVG(wind), MIN(wind), MAX(wind) FROM storms WHERE year = 2005 AND month = 8

SELECT COUNT(*) FROM storms WHERE wind * 2 > pressure - 700

SELECT year, month, day, hour, wind FROM storms WHERE wind >= 150 ORDER BY wind DESC, year, month, day, hour

SELECT year, AVG(w) FROM (SELECT year, storm, MAX(wind) w FROM storms GROUP BY year, storm) GROUP BY year

SELECT gale_miles IS NULL AS unknown, COUNT(*) FROM storms GROUP BY unknown

SELECT year / 5 * 5 AS period, COUNT(*), AVG(pressure) FROM storms GROUP BY period

SELECT storm, wind, wind - LAG(wind) OVER (PARTITION BY storm ORDER BY year, month, day, hour) AS rise
FROM storms WHERE year = 2017 ORDER BY rise DESC NULLS LAST, storm, wind LIMIT 15

SELECT storm, SUM(wind) OVER (PARTITION BY storm ORDER BY month, day, hour ROWS BETWEEN 1 PRECEDING AND CURRENT ROW) FROM storms
WHERE year = 2001 AND storm < 12

WITH ranked AS (SELECT wind, ROW_NUMBER() OVER (ORDER BY wind) AS place, COUNT(*) OVER () AS n FROM storms)
SELECT AVG(wind) FROM ranked WHERE place IN ((n + 1) / 2, (n + 2) / 2)

SELECT year, COUNT(*) FILTER (WHERE wind >= 64) AS hurricanes, COUNT(*) FILTER (WHERE wind < 64) AS others FROM storms GROUP BY year

SELECT year, SUM(CASE WHEN category >= 3 THEN 1 ELSE 0 END) AS major FROM storms GROUP BY year ORDER BY major DESC, year LIMIT 5

SELECT a.year, a.n, b.n FROM (SELECT year, COUNT(*) n FROM storms WHERE month < 9 GROUP BY year) a
JOIN (SELECT year, COUNT(*) n FROM storms WHERE month >= 9 GROUP BY year) b ON a.year = b.year ORDER BY a.year

SELECT COUNT(*) FROM storms HAVING COUNT(*) > 5

SELECT MAX(wind) FROM storms HAVING MAX(wind) > 1000

SELECT COUNT(*), MAX(wind), SUM(wind), AVG(wind) FROM storms WHERE year > 2100

SELECT year, MAX(wind) FROM storms WHERE year > 2100 GROUP BY year

SELECT storm FROM storms LIMIT 0

SELECT storm, year FROM storms WHERE wind > 140 LIMIT 3 OFFSET 2

SELECT DISTINCT category FROM storms ORDER BY category DESC

SELECT year, month, COUNT(*) AS n FROM storms GROUP BY year, month ORDER BY n DESC, year, month LIMIT 7

SELECT month, wind, COUNT(*) FROM storms WHERE category = 5 GROUP BY month, wind

SELECT year + 0.5, wind / 7.0, -wind, wind % 10 FROM storms WHERE storm = 100 ORDER BY hour, wind

SELECT MAX(wind, pressure / 10), MIN(wind, 30) FROM storms WHERE storm = 7

SELECT storm, wind FROM storms s WHERE wind = (SELECT MAX(wind) FROM storms t WHERE t.storm = s.storm) AND year = 2010 ORDER BY storm, hour

SELECT year FROM storms GROUP BY year HAVING AVG(wind) > (SELECT AVG(wind) FROM storms) ORDER BY year

SELECT COUNT(*) FROM storms WHERE gale_miles > hurricane_miles * 3 OR gale_miles IS NULL AND wind > 100

SELECT SUM(DISTINCT wind), COUNT(DISTINCT wind), AVG(DISTINCT pressure) FROM storms

SELECT group_concat(DISTINCT category) FROM (SELECT category FROM storms ORDER BY category)

SELECT wind, NTILE(4) OVER (ORDER BY wind, pressure, storm, day, hour) FROM storms WHERE year = 2020 AND month = 9 AND day = 1

WITH RECURSIVE y(n) AS (SELECT 2000 UNION ALL SELECT n + 1 FROM y WHERE n < 2022)
SELECT n, COUNT(storm) FROM y LEFT JOIN storms ON year = n AND month = 12 GROUP BY n
