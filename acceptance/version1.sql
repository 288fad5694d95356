-- An office of version 1, whose places are links: sqlite3 version1.db < version1.sql makes version1.db again.
-- Four units in boxes, the first moved behind the others, then a fonds with a series. The series is closed, and one reader
-- has a permit for it. The first box is with that reader, and the other reader waits for it.
PRAGMA journal_mode = DELETE;
PRAGMA foreign_keys = ON;
BEGIN;

CREATE TABLE reader (ticket INTEGER PRIMARY KEY, name TEXT NOT NULL, until INTEGER NOT NULL) STRICT;
CREATE TABLE seat (seat INTEGER PRIMARY KEY, ticket INTEGER NOT NULL, UNIQUE (ticket)) STRICT;
CREATE TABLE orders (id INTEGER PRIMARY KEY, ticket INTEGER NOT NULL, container INTEGER NOT NULL, day INTEGER NOT NULL, state INTEGER NOT NULL, UNIQUE (state, container, id, ticket), UNIQUE (ticket, day, id), UNIQUE (ticket, state, id)) STRICT;
CREATE TABLE holding (container INTEGER PRIMARY KEY, held_by INTEGER, place INTEGER NOT NULL) STRICT;
CREATE TABLE run (id INTEGER PRIMARY KEY, day INTEGER NOT NULL) STRICT;
CREATE TABLE run_line (run INTEGER NOT NULL, container INTEGER NOT NULL, order_no INTEGER NOT NULL, ticket INTEGER NOT NULL, PRIMARY KEY (run, container)) STRICT;
CREATE TABLE permit (ticket INTEGER NOT NULL, unit INTEGER NOT NULL REFERENCES unit ON DELETE CASCADE, until INTEGER NOT NULL, PRIMARY KEY (ticket, unit), UNIQUE (unit, ticket)) STRICT;
CREATE TABLE office (one INTEGER PRIMARY KEY, version INTEGER NOT NULL, country TEXT NOT NULL, repo TEXT NOT NULL, seats INTEGER NOT NULL, daily INTEGER NOT NULL, hands INTEGER NOT NULL, run_size INTEGER NOT NULL, day INTEGER NOT NULL, next_unit INTEGER NOT NULL) STRICT;
CREATE TABLE unit (id INTEGER PRIMARY KEY, source TEXT NOT NULL, legacy TEXT NOT NULL, level TEXT NOT NULL, until INTEGER, draft INTEGER NOT NULL, UNIQUE (source, legacy)) STRICT;
CREATE TABLE element (unit INTEGER NOT NULL REFERENCES unit ON DELETE CASCADE, k INTEGER NOT NULL, value TEXT NOT NULL, PRIMARY KEY (unit, k)) STRICT;
CREATE TABLE container (id INTEGER PRIMARY KEY, name TEXT NOT NULL, location TEXT NOT NULL, kind TEXT NOT NULL, UNIQUE (name, location, kind)) STRICT;
CREATE TABLE housing (unit INTEGER NOT NULL REFERENCES unit ON DELETE CASCADE, ord INTEGER NOT NULL, container INTEGER NOT NULL, PRIMARY KEY (unit, ord), UNIQUE (container, unit)) STRICT;
CREATE TABLE link (id INTEGER PRIMARY KEY, parent INTEGER, ord INTEGER NOT NULL) STRICT;
CREATE INDEX link_by_parent ON link (parent, ord);

-- the day is 2024-03-01
INSERT INTO office VALUES (1, 1, 'GB', '0999', 2, 3, 1, 2, 19783, 7);

INSERT INTO unit (id, source, legacy, level, draft, until) VALUES
    (1, 'a', '1', '', 0, NULL), (2, 'a', '2', '', 0, NULL), (3, 'a', '3', '', 0, NULL), (4, 'a', '4', '', 0, NULL),
    (5, 'b', '1', 'Fonds', 0, NULL),
    (6, 'b', '2', 'Series', 0, 21915); -- closed until 2030-01-01
INSERT INTO link VALUES (1, NULL, 4), (2, NULL, 1), (3, NULL, 2), (4, NULL, 3), (5, NULL, 5), (6, 5, 1);

-- identifiers and titles
INSERT INTO element VALUES
    (1, 1, 'A'), (1, 2, 'Plans'), (2, 1, 'B'), (2, 2, 'Minutes'), (3, 1, 'C'), (3, 2, 'Maps'), (4, 1, 'D'), (4, 2, 'Deeds'),
    (5, 1, 'HUL'), (5, 2, 'Hull Dock Company'), (6, 1, '1'), (6, 2, 'Letters');

INSERT INTO container VALUES
    (1, 'Box 1', 'Strongroom 2', ''), (2, 'Box 2', 'Strongroom 1', ''), (3, 'Box 3', 'Strongroom 1', ''),
    (4, 'Box 4', 'Strongroom 1', ''), (5, 'Box 5', 'Strongroom 3', '');
INSERT INTO housing VALUES (1, 1, 1), (2, 1, 2), (3, 1, 3), (4, 1, 4), (6, 1, 5);

-- until 2024-12-31
INSERT INTO reader VALUES (1, 'Ann', 20088), (2, 'Ben', 20088);
INSERT INTO permit VALUES (1, 6, 20088);
INSERT INTO seat VALUES (1, 1);

-- the first order is out, the others wait
INSERT INTO orders VALUES (1, 1, 1, 19783, 2), (2, 2, 1, 19783, 1), (3, 1, 5, 19783, 1);
INSERT INTO run VALUES (1, 19783);
INSERT INTO run_line VALUES (1, 1, 1, 1);
INSERT INTO holding (container, place, held_by) VALUES (1, 2, 1);

COMMIT;
