-- A request whose quotes end in every way before one is hit, as a trail keeps it. The sqlite3 shell makes the file from
-- it: sqlite3 day.trail <day.sql
-- Messages have | for SOH; moments are milliseconds since 1970, and 1741078800000 is 4 March 2025, 9:00 UTC.
PRAGMA journal_mode = WAL;
BEGIN;
CREATE TABLE head (id INTEGER PRIMARY KEY, version INTEGER NOT NULL, participants BLOB NOT NULL, instruments BLOB NOT NULL);
CREATE TABLE item (n INTEGER PRIMARY KEY, who INTEGER NOT NULL, number INTEGER NOT NULL, moment INTEGER NOT NULL, text BLOB NOT NULL);
CREATE TABLE delay (x INTEGER PRIMARY KEY, ms INTEGER NOT NULL);
CREATE TABLE later_era (n INTEGER PRIMARY KEY, era INTEGER NOT NULL);
INSERT INTO head (id, version, participants, instruments) VALUES (1, 3,
CAST('venue = "SEF"
[[participant]]
name = "ALPHA"
[[participant]]
name = "BETA"
[[participant]]
name = "GAMMA"
[[participant]]
name = "DELTA"
[[participant]]
name = "EPSILON"
[[participant]]
name = "ZETA"
[[related]]
a = "BETA"
b = "GAMMA"
' AS BLOB),
CAST('[[instrument]]
symbol = "IRS5Y"
tick = 2500
least = 1
rfq_life = 30
' AS BLOB));
INSERT INTO delay (x, ms) VALUES (1, 15000);
INSERT INTO item (n, who, number, moment, text) VALUES
-- ALPHA asks five for an offer.
(1, 1, 2, 1741078800000, '35=R|131=q1|146=1|55=IRS5Y|54=1|38=100|453=5|448=BETA|447=D|452=35|448=GAMMA|447=D|452=35|448=DELTA|447=D|452=35|448=EPSILON|447=D|452=35|448=ZETA|447=D|452=35|'),
-- BETA answers first. GAMMA's offer ends after two seconds.
(2, 2, 2, 1741078801000, '35=S|117=b1|131=R1|55=IRS5Y|133=2.505|'),
(3, 3, 2, 1741078802000, '35=S|117=g1|131=R1|55=IRS5Y|133=2.4975|62=20250304-09:00:04|'),
(4, 4, 2, 1741078803000, '35=S|117=d1|131=R1|55=IRS5Y|133=2.5|'),
(5, 5, 2, 1741078804000, '35=S|117=e1|131=R1|55=IRS5Y|133=2.5075|'),
(6, 6, 2, 1741078805000, '35=S|117=z1|131=R1|55=IRS5Y|133=2.5025|'),
-- BETA quotes again, DELTA withdraws its better offer, and ALPHA passes that of EPSILON; then it hits that of ZETA.
(7, 2, 3, 1741078806000, '35=S|117=b2|131=R1|55=IRS5Y|133=2.51|'),
(8, 4, 3, 1741078807000, '35=Z|117=d1|298=5|'),
(9, 1, 3, 1741078808000, '35=AJ|693=h1|117=Q4|694=6|'),
(10, 1, 4, 1741078809000, '35=AJ|693=h2|117=Q5|694=1|54=1|');
UPDATE item SET text = CAST(replace(text, '|', char(1)) AS BLOB);
COMMIT;
