-- The tables of a library, as stock SQLite shows them in a file that `circ` made with schema 4.
--
-- Each column stands with its unit or its values. Their ranges are in RULES.md under "Limits".
-- A day is its number of days since 1970-01-01: date(due * 86400, 'unixepoch') shows it.
-- An amount is in cents. A column without NOT NULL may be NULL, and says when it is.
--
-- Read a backup, or a library that nobody has open. Never write one: an audit finds most of what
-- another hand changed, but not all.

-- One row: what holds of the whole library.
CREATE TABLE meta (
    id INTEGER PRIMARY KEY,            -- always 1
    schema INTEGER NOT NULL,           -- 4
    today INTEGER NOT NULL,            -- the library's day
    next_loan INTEGER NOT NULL,        -- the number of the next loan; 2147483648 once all are used
    next_hold INTEGER NOT NULL,        -- the same for holds
    next_line INTEGER NOT NULL         -- the same for lines of accounts
) STRICT;

CREATE TABLE branches (
    branch INTEGER PRIMARY KEY,
    pickup INTEGER NOT NULL,           -- the pick-up period of holds, in days
    week TEXT NOT NULL,                -- seven letters, Monday first: o for open, c for closed
    name TEXT NOT NULL
) STRICT;

-- The days on which a branch is closed besides those of its week.
CREATE TABLE closed_days (
    branch INTEGER NOT NULL,
    day INTEGER NOT NULL,
    PRIMARY KEY (branch, day)
) STRICT;

-- The kinds of patrons.
CREATE TABLE kinds (
    kind INTEGER PRIMARY KEY,
    loans INTEGER NOT NULL,            -- how many open loans such a patron may have
    holds INTEGER NOT NULL,            -- how many waiting or ready holds such a patron may have
    debt INTEGER NOT NULL              -- in cents: who owes more may not borrow or renew
) STRICT;

-- Circulation rules of schemas 1 and 2. Empty: they are in rules3.
CREATE TABLE rules (
    kind INTEGER NOT NULL,
    copy_kind INTEGER NOT NULL,
    period INTEGER NOT NULL,
    renewals INTEGER NOT NULL,
    rate INTEGER NOT NULL,
    cap INTEGER NOT NULL,
    PRIMARY KEY (kind, copy_kind)
) STRICT;

CREATE TABLE patrons (
    patron INTEGER PRIMARY KEY,
    kind INTEGER NOT NULL,             -- of kinds
    card_key TEXT NOT NULL,            -- what the patron signs in with, as it is
    name TEXT NOT NULL,
    owed INTEGER NOT NULL              -- in cents: fines, prices and charges less payments and waivers
) STRICT;

CREATE TABLE titles (
    title INTEGER PRIMARY KEY,
    text TEXT NOT NULL
) STRICT;

-- A copy is on loan, on a hold shelf or in transit where loans3, holds2 or transits says so, else
-- on the shelf of its home if its condition is 0.
CREATE TABLE copies (
    copy INTEGER PRIMARY KEY,
    title INTEGER NOT NULL,            -- of titles
    kind INTEGER NOT NULL,             -- the kind of copy that circulation rules name
    home INTEGER NOT NULL,             -- of branches
    price INTEGER NOT NULL,            -- in cents: what a borrower owes who loses it
    condition INTEGER NOT NULL         -- 0 present, 1 missing, 2 withdrawn
) STRICT;

-- Loans of schemas 1 and 2. Empty: they are in loans3.
CREATE TABLE loans (
    loan INTEGER PRIMARY KEY,
    copy INTEGER NOT NULL,
    patron INTEGER NOT NULL,
    branch INTEGER NOT NULL,
    made INTEGER NOT NULL,
    due INTEGER NOT NULL,
    period INTEGER NOT NULL,
    renewals_left INTEGER NOT NULL,
    rate INTEGER NOT NULL,
    cap INTEGER NOT NULL,
    ended INTEGER
) STRICT;

-- Holds of schema 1. Empty: they are in holds2.
CREATE TABLE holds (
    hold INTEGER PRIMARY KEY,
    patron INTEGER NOT NULL,
    title INTEGER NOT NULL,
    branch INTEGER NOT NULL,
    state INTEGER NOT NULL,
    copy INTEGER,
    limit_day INTEGER
) STRICT;

-- The copies in transit. A row is there as long as its copy travels.
CREATE TABLE transits (
    copy INTEGER PRIMARY KEY,          -- of copies
    goal INTEGER NOT NULL,             -- the branch to which it travels
    hold INTEGER UNIQUE                -- the hold for which it travels; NULL if it goes home
) STRICT;

-- The lines of all accounts.
CREATE TABLE lines (
    line INTEGER PRIMARY KEY,
    patron INTEGER NOT NULL,           -- of patrons
    day INTEGER NOT NULL,              -- the library's day on which it was posted
    sort INTEGER NOT NULL,             -- 0 fine, 1 price, 2 payment, 3 waiver, 4 charge
    amount INTEGER NOT NULL,           -- in cents, above 0
    loan INTEGER                       -- of a fine or a price the loan; NULL for the others
) STRICT;

-- The accepted commands, in the order of their rowid.
CREATE TABLE kept (
    caller INTEGER NOT NULL,           -- 0 for the desk, else the patron
    key TEXT NOT NULL,                 -- the key of the request; a clerk's begins with the clerk's name and a slash
    text TEXT NOT NULL,                -- the words of the request
    reply TEXT NOT NULL,
    PRIMARY KEY (caller, key)
) STRICT;

CREATE INDEX loans_copy ON loans (copy, ended);
CREATE INDEX loans_patron ON loans (patron, ended);
CREATE INDEX holds_copy ON holds (copy);
CREATE INDEX holds_patron ON holds (patron, state);
CREATE INDEX holds_title ON holds (title, state);
CREATE INDEX holds_branch ON holds (branch, state);
CREATE INDEX lines_day ON lines (day);
CREATE INDEX loans_branch ON loans (branch, ended);

CREATE TABLE holds2 (
    hold INTEGER PRIMARY KEY,
    patron INTEGER NOT NULL,           -- of patrons
    title INTEGER NOT NULL,            -- of titles
    branch INTEGER NOT NULL,           -- where the patron picks it up
    state INTEGER NOT NULL,            -- 0 waiting, 1 ready, 2 filled, 3 cancelled, 4 expired
    copy INTEGER,                      -- of a ready hold the copy on its hold shelf; NULL for the others
    limit_day INTEGER,                 -- of a ready hold the shelf limit, after which it may expire; else NULL
    first_day INTEGER                  -- the day on which it begins; NULL if it began at once
) STRICT;

CREATE INDEX holds2_copy ON holds2 (copy, hold);
CREATE INDEX holds2_patron ON holds2 (patron, state, hold);
CREATE INDEX holds2_title ON holds2 (title, state, first_day, hold);
CREATE INDEX holds2_branch ON holds2 (branch, state, hold);

-- The circulation rules, for a kind of patron and a kind of copy.
CREATE TABLE rules3 (
    kind INTEGER NOT NULL,             -- of kinds
    copy_kind INTEGER NOT NULL,
    period INTEGER NOT NULL,           -- in days
    renewals INTEGER NOT NULL,         -- how often a loan may be renewed
    rate INTEGER NOT NULL,             -- in cents for each open day that a copy is late
    cap INTEGER NOT NULL,              -- in cents: the highest fine
    grace INTEGER NOT NULL,            -- up to so many open days late there is no fine
    PRIMARY KEY (kind, copy_kind)
) STRICT;

-- The loans. The terms are those of the rule when it was made.
CREATE TABLE loans3 (
    loan INTEGER PRIMARY KEY,
    copy INTEGER NOT NULL,             -- of copies
    patron INTEGER NOT NULL,           -- of patrons
    branch INTEGER NOT NULL,           -- the branch that lent it, whose calendar counts
    made INTEGER NOT NULL,             -- the day of the check-out
    due INTEGER NOT NULL,              -- the due day, after the last renewal
    period INTEGER NOT NULL,           -- in days
    renewals_left INTEGER NOT NULL,
    rate INTEGER NOT NULL,             -- in cents for each open day late
    cap INTEGER NOT NULL,              -- in cents
    ended INTEGER,                     -- the day on which it was checked in or reported missing; NULL while it is open
    grace INTEGER NOT NULL             -- in open days
) STRICT;

CREATE INDEX loans3_copy ON loans3 (copy, ended);
CREATE INDEX loans3_patron ON loans3 (patron, ended);
CREATE INDEX loans3_branch ON loans3 (branch, loan);
CREATE INDEX copies_title ON copies (title, copy);
CREATE INDEX lines_patron ON lines (patron, line);
CREATE INDEX holds2_state ON holds2 (state, hold);
CREATE INDEX loans3_of_copy ON loans3 (copy, loan);
CREATE INDEX copies_condition ON copies (condition, copy);

-- The barcodes of patrons and copies.
CREATE TABLE barcodes (
    sort INTEGER NOT NULL,             -- 0 a patron's, 1 a copy's
    number INTEGER NOT NULL,           -- of patrons or of copies
    barcode TEXT NOT NULL,             -- unlike all others
    PRIMARY KEY (sort, number)
) STRICT;

-- Where charges, and payments at a counter, were made.
CREATE TABLE notes (
    line INTEGER PRIMARY KEY,          -- of lines
    branch INTEGER NOT NULL,           -- of branches
    text TEXT                          -- what a charge is for; NULL for a payment
) STRICT;

CREATE INDEX barcodes_barcode ON barcodes (barcode);
CREATE INDEX notes_branch ON notes (branch, line);
