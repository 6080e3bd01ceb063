SELECT COUNT(*), COUNT(guests), SUM(guests), MIN(guests), MAX(guests), AVG(guests) FROM visits

SELECT COUNT(*), SUM(fee), MIN(day), MAX(place), AVG(score) FROM visits WHERE id > 1000

SELECT COUNT(*), SUM(rate) FROM visits WHERE guests IS NULL AND member IS NOT NULL

SELECT COUNT(DISTINCT place), COUNT(DISTINCT member), COUNT(DISTINCT score), COUNT(DISTINCT id), COUNT(DISTINCT day) FROM visits

SELECT COUNT(DISTINCT guests) + 1, COUNT(DISTINCT code) * 2 FROM visits WHERE fee > 100

SELECT SUM(fee) / COUNT(*) AS mean, ROUND(AVG(fee), 2) FROM visits WHERE member

SELECT SUM(fee) FROM visits HAVING COUNT(*) > 700

SELECT SUM(fee) FROM visits HAVING COUNT(*) = 700

SELECT COUNT(*) FROM visits WHERE id > 5 LIMIT 0

SELECT COUNT(*) FROM visits LIMIT 5 OFFSET 1

SELECT MAX(score) - MIN(score), 100 * COUNT(score) / COUNT(*) FROM visits

SELECT place, COUNT(*) FROM visits WHERE id > 1000 GROUP BY place

SELECT place, member, COUNT(*), COUNT(DISTINCT guests), SUM(fee), AVG(rate), MIN(arrived), MAX(score) FROM visits GROUP BY place, member

SELECT guests, place, COUNT(*) FROM visits WHERE guests BETWEEN 2 AND 4 GROUP BY guests, place ORDER BY place DESC, guests

SELECT id, COUNT(*), SUM(guests), MIN(day), COUNT(fee) FROM visits GROUP BY id

SELECT id, place, SUM(score), AVG(score) FROM visits GROUP BY id, place ORDER BY SUM(score) DESC LIMIT 20

SELECT score, COUNT(*) FROM visits GROUP BY score ORDER BY COUNT(*) DESC, score LIMIT 8

SELECT fee, COUNT(*), SUM(guests) FROM visits GROUP BY fee HAVING COUNT(*) > 1

SELECT day, COUNT(*), SUM(fee), MIN(guests), MAX(guests) FROM visits GROUP BY day HAVING SUM(fee) > 300 AND COUNT(*) < 4 ORDER BY 3 DESC

SELECT arrived, MIN(place), MAX(place) FROM visits WHERE arrived < '2023-02-01' GROUP BY arrived

SELECT open_at, member, COUNT(*) FROM visits GROUP BY open_at, member HAVING member IS NOT NULL ORDER BY 3 DESC, 1 LIMIT 5 OFFSET 2

SELECT place AS p, COUNT(*) AS n FROM visits GROUP BY p HAVING n > 40 ORDER BY n, p

SELECT place, COUNT(*) n FROM visits GROUP BY place ORDER BY n DESC LIMIT 3

SELECT place FROM visits GROUP BY place ORDER BY AVG(fee) DESC NULLS LAST

SELECT place FROM visits GROUP BY place, member HAVING MAX(guests) < 8 ORDER BY MIN(id)

SELECT member, CASE WHEN COUNT(*) > 300 THEN 'many' WHEN COUNT(*) > 100 THEN 'some' ELSE 'few' END AS size FROM visits GROUP BY member

SELECT upper(place) || '!', length(place), COUNT(*) FROM visits GROUP BY place

SELECT coalesce(place, '-') AS place_2, COUNT(*) FROM visits GROUP BY place ORDER BY place_2

SELECT CAST(AVG(fee) AS INTEGER), typeof(SUM(fee)), typeof(SUM(guests)), typeof(MIN(day)) FROM visits GROUP BY member

SELECT guests + 1, guests * 0.5, COUNT(*) FROM visits GROUP BY guests

SELECT strftime('%Y-%m', day), COUNT(*) FROM visits GROUP BY day HAVING day IN ('2023-05-01', '2023-05-02', '2023-06-10')

SELECT rate, COUNT(*) FROM visits WHERE rate IS NOT NULL GROUP BY rate ORDER BY COUNT(*) DESC, rate LIMIT 4

SELECT DISTINCT place FROM visits

SELECT DISTINCT member, place FROM visits WHERE guests > 3

SELECT DISTINCT place FROM visits ORDER BY place DESC LIMIT 4

SELECT DISTINCT guests AS g FROM visits WHERE guests <> 3 ORDER BY g

SELECT DISTINCT member, guests FROM visits ORDER BY member

SELECT DISTINCT upper(place) FROM visits

SELECT DISTINCT * FROM visits WHERE id < 20 ORDER BY id DESC

SELECT DISTINCT COUNT(*) FROM visits GROUP BY place

SELECT place, COUNT(*) FROM visits WHERE day LIKE '2023-05%' GROUP BY place

SELECT COUNT(*) FROM visits WHERE arrived LIKE '%:00' OR open_at LIKE '07%'

SELECT COUNT(*) FROM visits WHERE place NOT LIKE '%o%'

SELECT place, COUNT(*) FROM visits WHERE place IN ('Zoo', 'zoo', 'nowhere', NULL) GROUP BY place

SELECT COUNT(*) FROM visits WHERE place NOT IN ('Zoo', 'x')

SELECT COUNT(*) FROM visits WHERE place NOT IN ('Zoo', NULL)

SELECT COUNT(*) FROM visits WHERE (fee > 50) IS NULL AND (guests = 3 OR NOT member)

SELECT COUNT(*) FROM visits WHERE NOT (fee > 50 OR guests < 3) AND member IS NOT TRUE

SELECT COUNT(*) FROM visits WHERE guests

SELECT COUNT(*) FROM visits WHERE NOT guests OR member = FALSE

SELECT COUNT(*) FROM visits WHERE guests = 2.5 OR guests > 5.5 OR guests <= -1.5

SELECT COUNT(*) FROM visits WHERE fee >= 12.345 AND fee < 1e2 AND score <> 2.5

SELECT COUNT(*) FROM visits WHERE score BETWEEN -3.75 AND 0.1

SELECT COUNT(*) FROM visits WHERE guests >= fee

SELECT COUNT(*) FROM visits WHERE rate > guests AND guests < score

SELECT COUNT(*) FROM visits WHERE id = id AND guests = guests

SELECT COUNT(*) FROM visits WHERE 3 < guests AND 5 BETWEEN guests AND id

SELECT v.place, COUNT(v.id) AS n FROM visits AS v WHERE v.guests > 1 GROUP BY v.place ORDER BY v.place

SELECT * FROM visits WHERE place GLOB '*o*' AND fee IS NULL

SELECT v.*, guests AS again FROM visits v WHERE id BETWEEN 5 AND 9

SELECT id, guests FROM visits ORDER BY guests DESC, id LIMIT 10 OFFSET 5

SELECT id, guests FROM visits ORDER BY guests NULLS LAST, day DESC NULLS FIRST, id DESC LIMIT 30

SELECT id AS number, score FROM visits WHERE member ORDER BY score, number LIMIT 12

SELECT place, id FROM visits ORDER BY 1 DESC, 2 LIMIT 7

SELECT id FROM visits WHERE guests > 6 LIMIT 4, 3

SELECT id FROM visits LIMIT -1 OFFSET 690

-- sqlite: SELECT place, COUNT(*) FROM visits WHERE day >= '2024-01-01' GROUP BY place HAVING COUNT(*) > 10
SELECT place, COUNT(*) FROM visits WHERE day >= '1.1.2024' GROUP BY place HAVING COUNT(*) > 10

SELECT "zone", COUNT(*) FROM zones GROUP BY zone HAVING COUNT(*) > 1

SELECT codes, MIN(latitude), MAX(latitude), AVG(longitude), SUM(latitude) FROM zones GROUP BY codes HAVING COUNT(*) > 2

SELECT zone FROM zones WHERE latitude < longitude AND latitude BETWEEN 10 AND 11.5

SELECT zone, latitude FROM zones WHERE zone LIKE 'america/%' ORDER BY latitude DESC LIMIT 6

SELECT distribution, lts, COUNT(*), MIN(release), MAX(end_of_life) FROM releases GROUP BY distribution, lts

SELECT distribution, COUNT(DISTINCT codename), COUNT(end_of_life) FROM releases WHERE lts OR lts IS NULL GROUP BY distribution

SELECT codename FROM releases WHERE series GLOB '[a-f]*' ORDER BY codename LIMIT 9

SELECT place, TOTAL(guests) FROM visits GROUP BY place ORDER BY AVG(guests)

SELECT place, group_concat(DISTINCT member) FROM visits WHERE guests IN (2, 3) GROUP BY place ORDER BY SUM(guests) DESC, place

SELECT strftime('%Y-%m', day) AS month, COUNT(*), SUM(fee), AVG(fee), MIN(arrived), SUM(score) FROM visits GROUP BY month

SELECT substr(arrived, 12, 2), member, COUNT(*) AS n FROM visits WHERE guests > 2 GROUP BY substr(arrived, 12, 2), member ORDER BY n DESC, 1, 2 LIMIT 9

SELECT guests % 3, COUNT(guests), AVG(rate) FROM visits GROUP BY guests % 3 HAVING COUNT(*) > 5

SELECT upper(place) || '?', MAX(guests) FROM visits GROUP BY upper(place)

SELECT length(place) AS l, round(fee / 50) AS f, COUNT(*) FROM visits GROUP BY l, f ORDER BY 3 DESC, 1, 2

SELECT CASE WHEN guests > 4 THEN 'many' WHEN guests IS NULL THEN NULL ELSE 'few' END AS size, COUNT(*), SUM(guests) FROM visits GROUP BY size

SELECT fee > 100, COUNT(*) FROM visits GROUP BY fee > 100

SELECT coalesce(place, '-') AS p, COUNT(DISTINCT guests) FROM visits GROUP BY p

SELECT COUNT(1), place FROM visits WHERE guests > 1 GROUP BY place HAVING COUNT(1) > 20 ORDER BY COUNT('x') DESC, place
