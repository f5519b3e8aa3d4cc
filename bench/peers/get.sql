-- All gets in one statement, so that it is read once.
CREATE TEMP TABLE asked (n INTEGER PRIMARY KEY, id INTEGER);
.import get.asked asked
SELECT places.* FROM asked JOIN places ON places.id = asked.id ORDER BY n;
