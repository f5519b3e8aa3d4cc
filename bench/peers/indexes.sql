-- What sqlite3 is asked with besides: an index for each kind of question, boxes in an R*Tree that follows the table, and a view with the parent of
-- each place by the rule of docs/PARENT.md.
CREATE INDEX by_name ON places (lower(name));
CREATE INDEX by_ascii ON places (lower(ascii));
CREATE INDEX by_text ON alternates (lower(text), lang, place);
CREATE INDEX by_code ON places (country, code, population DESC, id);
CREATE INDEX divisions ON places (code, country, a1, a2, a3, a4, id) WHERE class = 'A';
CREATE INDEX links_by_child ON links (child, type, parent);
CREATE INDEX links_by_parent ON links (parent, child);

CREATE VIRTUAL TABLE boxes USING rtree (id, south, north, west, east);
INSERT INTO boxes SELECT id, latitude, latitude, longitude, longitude FROM places;
CREATE TRIGGER place_put AFTER INSERT ON places BEGIN
    INSERT OR REPLACE INTO boxes VALUES (new.id, new.latitude, new.latitude, new.longitude, new.longitude);
END;
CREATE TRIGGER place_gone AFTER DELETE ON places BEGIN
    DELETE FROM boxes WHERE id = old.id;
END;

CREATE VIEW above AS SELECT r.id AS id, COALESCE(
    (SELECT min(p.id) FROM links l JOIN places p ON p.id = l.parent WHERE l.child = r.id AND l.type = 'ADM' AND p.id <> r.id),
    CASE WHEN r.first > 3 AND r.coded AND r.a2 <> '' AND r.a3 <> '' AND r.a4 <> '' THEN (SELECT min(d.id) FROM places d INDEXED BY divisions
        WHERE d.class = 'A' AND d.code = 'ADM4' AND d.country = r.country AND d.a1 = r.a1 AND d.a2 = r.a2 AND d.a3 = r.a3 AND d.a4 = r.a4 AND d.id <> r.id) END,
    CASE WHEN r.first > 2 AND r.coded AND r.a2 <> '' AND r.a3 <> '' THEN (SELECT min(d.id) FROM places d INDEXED BY divisions
        WHERE d.class = 'A' AND d.code = 'ADM3' AND d.country = r.country AND d.a1 = r.a1 AND d.a2 = r.a2 AND d.a3 = r.a3 AND d.id <> r.id) END,
    CASE WHEN r.first > 1 AND r.coded AND r.a2 <> '' THEN (SELECT min(d.id) FROM places d INDEXED BY divisions
        WHERE d.class = 'A' AND d.code = 'ADM2' AND d.country = r.country AND d.a1 = r.a1 AND d.a2 = r.a2 AND d.id <> r.id) END,
    CASE WHEN r.first > 0 AND r.coded THEN (SELECT min(d.id) FROM places d INDEXED BY divisions
        WHERE d.class = 'A' AND d.code = 'ADM1' AND d.country = r.country AND d.a1 = r.a1 AND d.id <> r.id) END,
    CASE WHEN NOT r.is_country AND r.country <> '' THEN (SELECT p.id FROM countries c JOIN places p ON p.id = c.place WHERE c.code = r.country AND p.id <> r.id) END,
    CASE WHEN NOT r.is_country AND r.country <> '' THEN (SELECT min(d.id) FROM places d INDEXED BY divisions
        WHERE d.class = 'A' AND d.code IN ('PCL', 'PCLD', 'PCLF', 'PCLI', 'PCLIX', 'PCLS') AND d.country = r.country AND d.id <> r.id) END,
    (SELECT min(p.id) FROM links l JOIN places p ON p.id = l.parent WHERE l.child = r.id AND l.type = '' AND p.id <> r.id)) AS parent
FROM (SELECT id, country, a1, a2, a3, a4, country <> '' AND a1 NOT IN ('', '00') AS coded,
    class = 'A' AND code IN ('PCL', 'PCLD', 'PCLF', 'PCLI', 'PCLIX', 'PCLS') AS is_country,
    CASE WHEN class <> 'A' THEN 4 WHEN code IN ('PCL', 'PCLD', 'PCLF', 'PCLI', 'PCLIX', 'PCLS', 'ADM1') THEN 0
        WHEN code = 'ADM2' THEN 1 WHEN code = 'ADM3' THEN 2 WHEN code = 'ADM4' THEN 3 ELSE 4 END AS first FROM places) r;
ANALYZE;
