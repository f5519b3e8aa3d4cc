-- A day in one transaction. The files are read into tables in memory first.
PRAGMA temp_store = MEMORY;
CREATE TEMP TABLE changed AS SELECT * FROM places WHERE 0;
CREATE TEMP TABLE changed_names AS SELECT * FROM alternates WHERE 0;
CREATE TEMP TABLE gone (id INTEGER, name TEXT, why TEXT);
CREATE TEMP TABLE gone_names (id INTEGER, name TEXT, why TEXT);
.import modifications-2024-03-02.txt changed
.import deletes-2024-03-02.txt gone
.import alternateNamesModifications-2024-03-02.txt changed_names
.import alternateNamesDeletes-2024-03-02.txt gone_names
BEGIN;
INSERT OR REPLACE INTO places SELECT * FROM changed;
DELETE FROM places WHERE id IN (SELECT id FROM gone);
INSERT OR REPLACE INTO alternates SELECT * FROM changed_names;
DELETE FROM alternates WHERE id IN (SELECT id FROM gone_names);
COMMIT;
