SELECT place, COUNT(*) FROM visits GROUP BY place

SELECT place, SUM(fee), AVG(fee), MIN(fee), MAX(fee) FROM visits GROUP BY place

SELECT member, COUNT(*), SUM(guests), AVG(guests) FROM visits GROUP BY member

SELECT SUM(score), AVG(score), MIN(score), MAX(score) FROM visits

SELECT place, SUM(score) FROM visits WHERE score < 100 GROUP BY place ORDER BY place

SELECT id, place FROM visits WHERE place LIKE '%"%' OR place LIKE '%,%' ORDER BY id

SELECT id FROM visits WHERE place = 'two
lines' ORDER BY id DESC LIMIT 6

SELECT COUNT(*) FROM visits WHERE place LIKE 'STRASSE' OR place LIKE 'STRAßE' OR place LIKE 'å%'

SELECT place, COUNT(*) FROM visits WHERE place LIKE 'zoo' GROUP BY place

SELECT place FROM visits WHERE place LIKE '100\%' ESCAPE '\' OR place LIKE 'a\_b' ESCAPE '\' GROUP BY place

SELECT COUNT(*) FROM visits WHERE place GLOB '*[一-鿿]*'

SELECT place, COUNT(*) FROM visits WHERE place < 'a' GROUP BY place

-- sqlite: SELECT day, fee FROM visits WHERE day BETWEEN '2023-03-01' AND '2023-03-05' ORDER BY day, fee, id
SELECT day, fee FROM visits WHERE day BETWEEN '1.3.2023' AND '2023-3-5' ORDER BY day, fee, id

SELECT MIN(day), MAX(day), MIN(arrived), MAX(arrived), MIN(open_at), MAX(open_at) FROM visits

SELECT open_at, COUNT(*) FROM visits GROUP BY open_at

-- sqlite: SELECT id FROM visits WHERE open_at < '07:15:00' ORDER BY id
SELECT id FROM visits WHERE open_at < '7:15' ORDER BY id

-- sqlite: SELECT id, arrived FROM visits WHERE arrived >= '2024-05-01 00:00:00' ORDER BY arrived
SELECT id, arrived FROM visits WHERE arrived >= '2024-5-1' ORDER BY arrived

SELECT substr(arrived, 12, 2) AS hour, COUNT(*), SUM(fee) FROM visits GROUP BY hour

SELECT id FROM visits WHERE fee = 12.5 OR fee > 199.5 OR fee <> fee ORDER BY id

SELECT id, fee, rate FROM visits WHERE fee < rate

SELECT COUNT(*) FROM visits WHERE rate = 1.50 OR rate IN (0.5, 0.25, 2)

SELECT fee * rate, fee + guests, fee / 3 FROM visits WHERE id < 20

SELECT member, SUM(fee) / COUNT(*), SUM(fee) / COUNT(fee) FROM visits GROUP BY member

SELECT code, COUNT(*) AS n FROM visits GROUP BY code ORDER BY n DESC, code LIMIT 5

SELECT code FROM visits WHERE code > '030' GROUP BY code ORDER BY code

SELECT guests, COUNT(*) FROM visits GROUP BY guests ORDER BY guests DESC

SELECT place, member, COUNT(*) FROM visits GROUP BY place, member

SELECT id FROM visits WHERE NOT member AND guests IS NULL

SELECT id FROM visits WHERE member ORDER BY score, id LIMIT 5

SELECT id, score FROM visits ORDER BY score DESC NULLS LAST, id LIMIT 10

SELECT id AS nr, guests AS people FROM visits ORDER BY people, nr DESC LIMIT 8

SELECT id FROM visits ORDER BY fee LIMIT 4

SELECT COUNT(*) FROM visits WHERE score > 1e9

SELECT id, guests FROM visits WHERE guests IN (8, NULL, -2) ORDER BY guests, id

SELECT COUNT(*), COUNT(place), COUNT(DISTINCT place), COUNT(DISTINCT day) FROM visits

SELECT place, COUNT(*) FROM visits WHERE place IS NOT NULL GROUP BY place HAVING SUM(fee) > 4000 AND COUNT(*) > 40 ORDER BY place

SELECT place, AVG(fee) AS a FROM visits GROUP BY place ORDER BY a

SELECT a.id, b.id FROM visits a JOIN visits b ON a.day = b.day AND a.place = b.place AND a.id < b.id ORDER BY a.id, b.id

SELECT v.place, r.codename FROM visits v JOIN releases r ON r.release = v.day ORDER BY v.id, r.codename

SELECT place, day, fee, SUM(fee) OVER (PARTITION BY place ORDER BY id) FROM visits WHERE place = 'Zoo' AND id < 200

SELECT place, fee FROM (SELECT place, fee, ROW_NUMBER() OVER (PARTITION BY place ORDER BY fee DESC, id) nr FROM visits WHERE fee IS NOT NULL)
WHERE nr = 1 ORDER BY place

SELECT strftime('%Y-%m', day) AS month, COUNT(*), SUM(fee), AVG(score) FROM visits GROUP BY month

SELECT SUM(fee) FILTER (WHERE member), AVG(rate) FILTER (WHERE NOT member), SUM(DISTINCT guests) FROM visits

SELECT typeof(fee), typeof(score), typeof(guests), typeof(day), typeof(member), typeof(place) FROM visits WHERE id IN (1, 2, 3)

SELECT 'n: ' || fee, CAST(fee AS TEXT), CAST(score AS TEXT), fee || '' FROM visits WHERE id < 30

SELECT IFNULL(place, '-'), NULLIF(guests, 0), ABS(fee), ROUND(rate, 1) FROM visits WHERE id BETWEEN 40 AND 60

SELECT x.member, MAX(x.total) FROM (SELECT member, place, SUM(guests) AS total FROM visits GROUP BY member, place) AS x GROUP BY x.member

SELECT COUNT(*) FROM visits WHERE fee / 100.0 > 0.01 AND guests > '1' + 0

SELECT place FROM visits WHERE EXISTS (SELECT 1 FROM countries WHERE name = place)

SELECT id FROM visits v WHERE fee > (SELECT AVG(fee) * 1.9 FROM visits w WHERE w.place IS v.place) ORDER BY id

SELECT json_group_array(id) FROM visits WHERE place = '日本'

SELECT total(guests), total(fee) FROM visits WHERE id < 0

SELECT place COLLATE NOCASE AS p, COUNT(*) FROM visits GROUP BY p

SELECT 'a' AS a, NULL AS n, 1 AS one, 2.5 AS real FROM visits WHERE id = 1

SELECT MAX(fee) - MIN(fee), MAX(guests) * 2, COUNT(*) + 1, -SUM(guests) FROM visits

SELECT place, MAX(fee) FROM visits WHERE fee IS NOT NULL GROUP BY place ORDER BY MAX(fee) DESC LIMIT 3

SELECT place, COUNT(*) FROM visits GROUP BY place, place

SELECT a.id, b.fee FROM visits a JOIN visits b USING (id) WHERE a.fee > 190 ORDER BY id

SELECT COUNT(*) FROM visits NATURAL JOIN (SELECT place, day FROM visits WHERE id < 50)

SELECT id, day FROM visits a WHERE day = (SELECT MIN(day) FROM visits b WHERE b.place = a.place) ORDER BY id

SELECT MIN(fee), id FROM visits WHERE place = 'Zoo'

SELECT place, member, SUM(fee) FROM visits WHERE place LIKE 'z%' GROUP BY place, member UNION ALL SELECT 'all', NULL, SUM(fee) FROM visits WHERE place LIKE 'z%'

SELECT (SELECT COUNT(*) FROM visits WHERE member), (SELECT COUNT(*) FROM visits WHERE NOT member), (SELECT COUNT(*) FROM visits WHERE member IS NULL)

SELECT CASE member WHEN TRUE THEN 'yes' WHEN FALSE THEN 'no' ELSE 'unknown' END AS m, COUNT(*) FROM visits GROUP BY m

SELECT day, COUNT(*) AS n, SUM(COUNT(*)) OVER (ORDER BY day) AS so_far FROM visits GROUP BY day ORDER BY day LIMIT 10

SELECT place FROM visits GROUP BY place ORDER BY COUNT(*) DESC, MAX(id) LIMIT 4

SELECT DISTINCT place, member FROM visits WHERE guests > 6 ORDER BY place DESC, member

SELECT id FROM visits WHERE (place, member) = ('Zoo', TRUE) OR (id, guests) IN ((1, 2), (3, 4)) ORDER BY id
