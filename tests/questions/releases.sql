SELECT distribution, COUNT(*), MIN(release), MAX(end_of_life) FROM releases GROUP BY distribution

-- sqlite: SELECT codename, release FROM releases WHERE release >= '2020-01-01' ORDER BY release
SELECT codename, release FROM releases WHERE release >= '2020-1-1' ORDER BY release

SELECT codename FROM releases WHERE release IS NULL

SELECT codename, julianday(end_of_life) - julianday(release) AS days FROM releases ORDER BY days DESC, codename LIMIT 5

SELECT substr(release, 1, 4) AS year, COUNT(*) FROM releases GROUP BY year ORDER BY year

SELECT strftime('%m', release) AS month, COUNT(*) AS n FROM releases WHERE distribution = 'ubuntu' GROUP BY 1 ORDER BY n DESC, month

SELECT a.codename, b.codename FROM releases a JOIN releases b ON a.created = b.release AND a.distribution = b.distribution ORDER BY a.created, a.codename

SELECT lts, COUNT(*) FROM releases GROUP BY lts

SELECT codename FROM releases WHERE lts AND distribution = 'ubuntu'

SELECT codename FROM releases WHERE lts IS NOT TRUE AND release < '2000-01-01'

-- sqlite: SELECT codename, end_of_life FROM releases WHERE end_of_life > '2026-01-01' ORDER BY end_of_life, codename
SELECT codename, "end of life" FROM releases WHERE "end of life" > '2026-1-1' ORDER BY "end of life", codename

-- sqlite: SELECT MAX(end_of_life), COUNT(end_of_life) FROM releases WHERE end_of_life BETWEEN '2010-01-01' AND '2012-12-31'
SELECT MAX("end of life"), COUNT(r."end of life") FROM releases r WHERE "end of life" BETWEEN '2010-1-1' AND DATE '2012-12-31'

SELECT version, codename FROM releases WHERE version LIKE '1_.04'

SELECT MAX(release, created) FROM releases WHERE version IS NOT NULL ORDER BY codename

SELECT distribution, codename, release, LEAD(release) OVER (PARTITION BY distribution ORDER BY release) AS next FROM releases
WHERE release IS NOT NULL ORDER BY distribution, release

SELECT date(release, '+9 months') FROM releases WHERE distribution = 'debian' ORDER BY release

-- sqlite: SELECT codename FROM releases WHERE created IN ('1993-08-16', '2004-03-05') ORDER BY codename
SELECT codename FROM releases WHERE created IN ('1993-8-16', '2004-03-05') ORDER BY codename

SELECT series || '-' || COALESCE(version, '?') FROM releases WHERE created > '2022-01-01'

SELECT distribution, SUM(lts), AVG(lts) FROM releases GROUP BY distribution

SELECT COUNT(*) FROM releases WHERE release > created AND end_of_life > release

SELECT codename, CASE WHEN end_of_life < '2024-01-01' THEN 'old' WHEN end_of_life IS NULL THEN NULL ELSE 'new' END FROM releases ORDER BY series

SELECT x.distribution, x.n FROM (SELECT distribution, COUNT(*) n FROM releases WHERE NOT lts GROUP BY distribution) x

SELECT distribution, MIN(codename) FROM releases GROUP BY distribution HAVING MIN(release) < '2000-01-01'
