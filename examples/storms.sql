-- How many reports are of hurricanes of the highest category?
SELECT COUNT(*) FROM storms WHERE category = 5
-- What was the lowest pressure, and what the strongest wind, in a September from 2010 on?
SELECT MIN(pressure), MAX(wind) FROM storms WHERE month = 9 AND year >= 2010
-- How many reports fall outside the season from June to November, and what are the first and the last year of them?
SELECT COUNT(*), MIN(year), MAX(year) FROM storms WHERE month NOT BETWEEN 6 AND 11
-- How far across did gales blow round major hurricanes, on average (the sum over the count)?
SELECT SUM(gale_miles), COUNT(gale_miles) FROM storms WHERE category IN (3, 4, 5)
-- When was a storm hurricane-strong more than 200 miles across?
SELECT storm, year, month, day, hour, hurricane_miles FROM storms WHERE hurricane_miles > 200
-- For how many reports of hurricanes is it false or unknown that gales blew more than 300 miles across, and for how many false?
SELECT COUNT(*), COUNT(gale_miles) FROM storms WHERE category >= 1 AND (gale_miles > 300) IS NOT TRUE
