-- A day of the venue as its trail keeps it. The sqlite3 shell makes the file from it: sqlite3 day.trail <day.sql
-- Messages have | for SOH; moments are milliseconds since 1970, and 1741012200000 is 3 March 2025, 14:30 UTC.
PRAGMA journal_mode = WAL;
BEGIN;
CREATE TABLE head (id INTEGER PRIMARY KEY, version INTEGER NOT NULL, participants BLOB NOT NULL, instruments BLOB NOT NULL);
CREATE TABLE item (n INTEGER PRIMARY KEY, who INTEGER NOT NULL, number INTEGER NOT NULL, moment INTEGER NOT NULL, text BLOB NOT NULL);
CREATE TABLE delay (x INTEGER PRIMARY KEY, ms INTEGER NOT NULL);
CREATE TABLE later_era (n INTEGER PRIMARY KEY, era INTEGER NOT NULL);
INSERT INTO head (id, version, participants, instruments) VALUES (1, 3,
CAST('venue = "SEF"
[[participant]]
name = "ALPHA"
[[participant]]
name = "BETA"
[[participant]]
name = "GAMMA"
[[participant]]
name = "DELTA"
[[participant]]
name = "EPSILON"
[[related]]
a = "BETA"
b = "GAMMA"
' AS BLOB),
CAST('[[instrument]]
symbol = "IRS5Y"
tick = 2500
least = 1
rfq_life = 30
[[instrument]]
symbol = "BASIS1Y"
tick = 2500
least = 1
rfq_life = 30
' AS BLOB));
-- The venue had adjusted the delay of BASIS1Y to a second; the file's text, which states none, means fifteen.
INSERT INTO delay (x, ms) VALUES (1, 15000), (2, 1000);
INSERT INTO item (n, who, number, moment, text) VALUES
-- ALPHA buys 100, and meets two sellers.
(1, 2, 2, 1741012200000, '35=D|11=b1|55=IRS5Y|54=2|38=60|40=2|44=2.5|'),
(2, 4, 2, 1741012200001, '35=D|11=d1|55=IRS5Y|54=2|38=70|40=2|44=2.5|'),
(3, 1, 2, 1741012200001, '35=D|11=a1|55=IRS5Y|54=1|38=100|40=2|44=2.5|'),
-- ALPHA's offer of the other swap, and an order that is killed.
(4, 1, 3, 1741012200002, '35=D|11=a2|55=BASIS1Y|54=2|38=1|40=2|44=-0.25|'),
(5, 3, 2, 1741012200002, '35=D|11=g1|55=IRS5Y|54=1|38=31|40=2|44=2.5|59=4|'),
-- ALPHA asks four for quotes. EPSILON answers first, and is shown with what DELTA's order has left; ALPHA takes its quote.
(6, 1, 4, 1741012210000, '35=R|131=q1|146=1|55=IRS5Y|54=1|38=100|453=4|448=BETA|447=D|452=35|448=GAMMA|447=D|452=35|448=DELTA|447=D|452=35|448=EPSILON|447=D|452=35|'),
(7, 5, 2, 1741012212500, '35=S|117=e1|131=R1|55=IRS5Y|133=2.5|'),
(8, 1, 5, 1741012215000, '35=AJ|693=h1|117=Q1|694=1|54=1|'),
-- A cross by ALPHA: its buy enters, and its sell fifteen seconds later, at a tick.
(9, 1, 6, 1741012220000, '35=s|548=c1|549=4|550=1|552=2|54=1|11=x1|38=10|54=2|11=x2|38=10|55=IRS5Y|40=2|44=2.4|'),
(10, 0, 0, 1741012235000, ''),
-- BETA's sell is linked to GAMMA's buy, since they are related: a second after it they trade, by the adjusted delay, and a
-- millisecond earlier they do not. BETA resets its numbers before its last order, which is the first of its second era.
(11, 3, 3, 1741012240000, '35=D|11=g2|55=BASIS1Y|54=1|38=5|40=2|44=-1|'),
(12, 2, 3, 1741012240999, '35=D|11=b2|55=BASIS1Y|54=2|38=5|40=2|44=-1|'),
(13, 2, 2, 1741012241000, '35=D|11=b3|55=BASIS1Y|54=2|38=5|40=2|44=-1|');
INSERT INTO later_era (n, era) VALUES (13, 2);
UPDATE item SET text = CAST(replace(text, '|', char(1)) AS BLOB);
COMMIT;
