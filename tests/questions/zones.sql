SELECT zone, latitude FROM zones ORDER BY latitude DESC LIMIT 5

SELECT substr(zone, 1, instr(zone, '/') - 1) AS region, COUNT(*) AS n, AVG(latitude) AS middle
FROM zones WHERE zone LIKE '%/%' GROUP BY region ORDER BY n DESC, region

SELECT z.zone, c.name FROM zones z JOIN countries c ON c.code = z.codes ORDER BY z.zone LIMIT 20

SELECT c.name, COUNT(z.zone) AS zones FROM countries c LEFT JOIN zones z ON z.codes = c.code
GROUP BY c.code HAVING zones > 3 ORDER BY zones DESC, c.name

SELECT name FROM countries WHERE code NOT IN (SELECT codes FROM zones) ORDER BY name

SELECT c.name FROM countries c LEFT JOIN zones z ON z.codes = c.code WHERE z.zone IS NULL ORDER BY c.name DESC

SELECT a.zone, b.zone FROM zones a JOIN zones b ON a.latitude = b.latitude AND a.zone < b.zone ORDER BY 1, 2

SELECT zone, comments FROM zones WHERE comments LIKE '%É%' OR comments LIKE '%é%' OR zone LIKE '%ü%'

SELECT name FROM countries WHERE name GLOB '[^A-Za-z]*'

SELECT name, length(name), upper(name), hex(substr(name, 1, 1)) FROM countries WHERE name LIKE 'Å%' OR name LIKE '%ç%'

SELECT COUNT(*), COUNT(comments), COUNT(DISTINCT comments) FROM zones

SELECT comments, COUNT(*) FROM zones GROUP BY comments HAVING COUNT(*) > 1

SELECT zone, latitude, longitude FROM zones WHERE latitude BETWEEN 0 AND 10 AND longitude > 100 ORDER BY longitude

SELECT ROUND(latitude / 10) * 10 AS band, COUNT(*), MIN(zone), MAX(zone) FROM zones GROUP BY band ORDER BY band

SELECT zone FROM zones WHERE latitude = (SELECT MAX(latitude) FROM zones)

SELECT zone, (SELECT name FROM countries WHERE code = substr(codes, 1, 2)) AS country FROM zones WHERE codes LIKE '%,%' LIMIT 12

WITH pairs AS (SELECT codes, COUNT(*) n FROM zones GROUP BY codes), most AS (SELECT MAX(n) m FROM pairs)
SELECT codes, n FROM pairs, most WHERE n > m / 2 ORDER BY n DESC, codes

SELECT zone, RANK() OVER (ORDER BY latitude DESC) AS place FROM zones ORDER BY place LIMIT 10

SELECT codes, zone, ROW_NUMBER() OVER (PARTITION BY codes ORDER BY longitude) AS nr FROM zones WHERE codes IN ('US', 'CA', 'BR') ORDER BY codes, nr

SELECT zone FROM zones INTERSECT SELECT zone FROM zones WHERE latitude < 0 ORDER BY zone LIMIT 7

SELECT codes FROM zones UNION SELECT code FROM countries ORDER BY 1 LIMIT 9

SELECT code FROM countries EXCEPT SELECT substr(codes, 1, 2) FROM zones ORDER BY code

SELECT SUM(latitude), AVG(longitude), SUM(latitude * longitude) FROM zones

SELECT SUM(latitude) / COUNT(*), AVG(latitude) FROM zones WHERE longitude < 0

SELECT CASE WHEN latitude > 23.5 THEN 'north' WHEN latitude < -23.5 THEN 'south' ELSE 'tropics' END part, COUNT(*) n
FROM zones GROUP BY part ORDER BY n

SELECT DISTINCT substr(codes, 1, 1) AS letter FROM zones ORDER BY letter LIMIT 5 OFFSET 3

SELECT COALESCE(comments, 'none') c FROM zones WHERE longitude > 140 ORDER BY zone

SELECT zone FROM zones WHERE comments IS NULL AND latitude < 0 AND zone NOT LIKE 'A%'

