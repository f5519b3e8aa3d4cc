-- All admin codes in one statement, so that it is read once.
CREATE TEMP TABLE asked (n INTEGER PRIMARY KEY, code TEXT);
.import admin.asked asked
SELECT codes.* FROM asked JOIN codes ON codes.code = asked.code ORDER BY n;
