-- A check-out as one transaction: the statements of `circ` for a copy for which nobody waits, in its order. `bench/peers` sets n, patron, copy and branch before it.
-- PostgreSQL locks the patron and the copy, since others borrow meanwhile; its loans get their numbers from a sequence, or from the one row where `circ` has the next one.
BEGIN;
SELECT * FROM kept WHERE caller = 0 AND key = 'c' || :n;
SELECT * FROM meta ORDER BY id \gset
SELECT * FROM branches WHERE branch = :branch;
SELECT * FROM closed_days WHERE branch = :branch ORDER BY day;
SELECT * FROM patrons WHERE patron = :patron FOR UPDATE \gset patron_
SELECT * FROM kinds WHERE kind = :patron_kind;
SELECT * FROM copies WHERE copy = :copy FOR UPDATE \gset copy_
SELECT * FROM loans3 WHERE copy = :copy AND ended IS NULL ORDER BY loan LIMIT 1;
SELECT * FROM transits WHERE copy = :copy;
SELECT * FROM holds2 WHERE copy = :copy ORDER BY hold LIMIT 1;
SELECT * FROM rules3 WHERE kind = :patron_kind AND copy_kind = :copy_kind \gset rule_
SELECT * FROM holds2 WHERE title = :copy_title AND state = 0 AND NOT EXISTS (SELECT * FROM transits WHERE transits.hold = holds2.hold) ORDER BY first_day, hold LIMIT 1;
SELECT COUNT(*) FROM loans3 WHERE patron = :patron AND ended IS NULL;
SELECT COUNT(*) FROM holds2 WHERE patron = :patron AND title = :copy_title AND state <= 1;
\if :sequence
SELECT nextval('loan_numbers') AS next_loan \gset
\else
UPDATE meta SET next_loan = next_loan + 1 WHERE id = 1 RETURNING next_loan - 1 AS next_loan \gset
\endif
INSERT INTO loans3 VALUES (:next_loan, :copy, :patron, :branch, :today, 0 + :today + :rule_period, :rule_period, :rule_renewals, :rule_rate, :rule_cap, NULL, :rule_grace);
INSERT INTO kept VALUES (0, 'c' || :n, 'check-out ' || :patron || ' ' || :copy || ' ' || :branch, 'loan ' || :next_loan || ' due 2026-03-30');
COMMIT;
