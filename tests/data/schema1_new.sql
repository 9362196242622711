-- A new library of schema 1: its one request was refused, `week 1 ooooooo`.
-- `circ` 0.9.0 of schema 1 made it, and stock SQLite 3.40.1 wrote it down (`sqlite3 FILE .dump`).
PRAGMA foreign_keys=OFF;
BEGIN TRANSACTION;
CREATE TABLE meta (id INTEGER PRIMARY KEY, schema INTEGER NOT NULL, today INTEGER NOT NULL, next_loan INTEGER NOT NULL, next_hold INTEGER NOT NULL, next_line INTEGER NOT NULL) STRICT;
INSERT INTO meta VALUES(1,1,10957,1,1,1);
CREATE TABLE branches (branch INTEGER PRIMARY KEY, pickup INTEGER NOT NULL, week TEXT NOT NULL, name TEXT NOT NULL) STRICT;
CREATE TABLE closed_days (branch INTEGER NOT NULL, day INTEGER NOT NULL, PRIMARY KEY (branch, day)) STRICT;
CREATE TABLE kinds (kind INTEGER PRIMARY KEY, loans INTEGER NOT NULL, holds INTEGER NOT NULL, debt INTEGER NOT NULL) STRICT;
CREATE TABLE rules (kind INTEGER NOT NULL, copy_kind INTEGER NOT NULL, period INTEGER NOT NULL, renewals INTEGER NOT NULL, rate INTEGER NOT NULL, cap INTEGER NOT NULL, PRIMARY KEY (kind, copy_kind)) STRICT;
CREATE TABLE patrons (patron INTEGER PRIMARY KEY, kind INTEGER NOT NULL, card_key TEXT NOT NULL, name TEXT NOT NULL, owed INTEGER NOT NULL) STRICT;
CREATE TABLE titles (title INTEGER PRIMARY KEY, text TEXT NOT NULL) STRICT;
CREATE TABLE copies (copy INTEGER PRIMARY KEY, title INTEGER NOT NULL, kind INTEGER NOT NULL, home INTEGER NOT NULL, price INTEGER NOT NULL, condition INTEGER NOT NULL) STRICT;
CREATE TABLE loans (loan INTEGER PRIMARY KEY, copy INTEGER NOT NULL, patron INTEGER NOT NULL, branch INTEGER NOT NULL, made INTEGER NOT NULL, due INTEGER NOT NULL, period INTEGER NOT NULL, renewals_left INTEGER NOT NULL, rate INTEGER NOT NULL, cap INTEGER NOT NULL, ended INTEGER) STRICT;
CREATE TABLE holds (hold INTEGER PRIMARY KEY, patron INTEGER NOT NULL, title INTEGER NOT NULL, branch INTEGER NOT NULL, state INTEGER NOT NULL, copy INTEGER, limit_day INTEGER) STRICT;
CREATE TABLE transits (copy INTEGER PRIMARY KEY, goal INTEGER NOT NULL, hold INTEGER UNIQUE) STRICT;
CREATE TABLE lines (line INTEGER PRIMARY KEY, patron INTEGER NOT NULL, day INTEGER NOT NULL, sort INTEGER NOT NULL, amount INTEGER NOT NULL, loan INTEGER) STRICT;
CREATE TABLE kept (caller INTEGER NOT NULL, key TEXT NOT NULL, text TEXT NOT NULL, reply TEXT NOT NULL, PRIMARY KEY (caller, key)) STRICT;
CREATE INDEX loans_copy ON loans (copy, ended);
CREATE INDEX loans_patron ON loans (patron, ended);
CREATE INDEX holds_copy ON holds (copy);
CREATE INDEX holds_patron ON holds (patron, state);
CREATE INDEX holds_title ON holds (title, state);
CREATE INDEX holds_branch ON holds (branch, state);
CREATE INDEX lines_day ON lines (day);
CREATE INDEX loans_branch ON loans (branch, ended);
COMMIT;
