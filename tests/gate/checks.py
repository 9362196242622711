#!/usr/bin/env python3
"""Each check of each command as the first that fails, and each form of a reply: by words, by the bytes of POST /desk,
and a patron's by the patrons' routes.

Each list of requests has a new library: a copy of the small one that the fifteen requests of `GROUND` make. Its
answers are those of docs/RULES.md, worked out by hand; the rules in plain Python (`desk_rules`) say them once more.
The desk's lists are run by words on one library and by POST /desk on another, and end in the same rows. In the
patrons' lists a line that begins with a number and a card key is what that patron asks by the routes. Which checks
there are, and which forms, is read from the table of commands in docs/RULES.md, and from what it says of the desk's
questions, so that none is left out. So a program that tells a fault to each renewal, or to any other kind of request,
fails here: no clause can say that there is memory.
"""

import copy
import datetime
import json
import os
import re
import shlex
import shutil
import tempfile
import unicodedata

import room  # finds lib and reference
from lib.checking import check, part, run_script
from lib.messages import read
from lib.runs import GROUND, answers, circ, say, status_of, whole
from lib.serving import DESK_KEY, Serving, by_patron, told
from reference.desk_rules import FIRST_FOLDED, OVERDUE_HEAD, PATRONS_COMMANDS, QUESTIONS, SHELF_HEAD, Library
from reference.desk_rules import LETTERS as RULED_LETTERS
from reference.outer_forms import WORDS, said

# A line: the words and the answer, whose lines are parted by strokes; `weekly N` before it asks N times, each with a
# last word that is a week later, `counted N` with a second word that is one more.
DESK = """
begin-day 2026-03-02 -> refused 23
begin-day 2191-01-01 -> refused 23
begin-day 2026-03-03 -> ok
branch 100 5 Hill -> refused 21
branch 1 6 Main -> refused 20
branch 1 5 Harbour -> refused 20
branch 3 5 Hill -> ok
week 9 ooooooo -> refused 10
week 1 ccccccc -> refused 22
week 3 oooooco -> ok
close-day 9 2026-03-09 -> refused 10
close-day 1 2026-03-03 -> refused 23
close-day 1 2026-03-09 -> ok
close-day 1 2026-03-09 -> refused 24
open-day 9 2026-03-09 -> refused 10
open-day 1 2026-03-03 -> refused 23
open-day 1 2026-03-10 -> refused 25
open-day 1 2026-03-09 -> ok
kind 1 201 5 500 -> refused 21
kind 2 5 5 500 -> ok
rule 1 1 366 1 20 100 -> refused 21
rule 3 1 6 1 20 100 -> refused 17
rule 2 1 6 1 20 100 -> ok
grace 1 3 366 -> refused 21
grace 1 100 2 -> refused 21
grace 1 3 2 -> refused 16
grace 2 1 2 -> ok
patron 10000000 1 cardkey00004 'Di East' -> refused 21
patron 4 3 cardkey00004 'Di East' -> refused 17
patron 1 1 cardkey00004 'Ann Bell' -> refused 20
patron 4 2 cardkey00004 'Di East' -> ok
acquire 12 100 1 1 1000001 'Rivers of the North' -> refused 21
acquire 12 100 1 9 2500 'Rivers of the North' -> refused 10
acquire 12 100 1 1 2500 'Salt Roads' -> refused 20
acquire 10 100 1 2 2500 'Rivers of the North' -> refused 20
acquire 12 100 1 1 2500 'Rivers of the North' -> ok

# four hundred days are closed singly
weekly 400 close-day 1 2026-03-09 -> ok
close-day 1 2026-03-10 -> refused 21

# check-out
check-out 1 10 9 -> refused 10
check-out 9 10 1 -> refused 11
check-out 1 99 1 -> refused 13
withdraw 11 -> ok
check-out 1 11 1 -> refused 35
missing 30 -> ok
check-out 1 30 1 -> refused 34
check-out 1 10 1 -> loan 1 due 2026-03-09
check-out 2 10 1 -> refused 31
check-in 20 1 -> fine 0 transit 2
check-out 1 20 1 -> refused 32
acquire 21 200 1 2 1200 'Salt Roads' -> ok
check-out 1 21 1 -> refused 30
acquire 50 500 1 1 900 'Old Maps' -> ok
place-hold 3 500 1 -> hold 1
check-in 50 1 -> fine 0 ready 1 at 1 until 2026-03-07
check-out 1 50 1 -> refused 33
acquire 51 510 1 1 900 'New Maps' -> ok
place-hold 3 510 1 -> hold 2
check-out 1 51 1 -> refused 36
acquire 52 500 1 1 900 'Old Maps' -> ok
check-out 3 52 1 -> refused 50
acquire 60 600 3 1 100 Charts -> ok
check-out 1 60 1 -> refused 16
kind 1 1 5 500 -> ok
check-out 1 52 1 -> refused 37

# what is owed
check-out 2 10 1 -> loan 1 due 2026-03-09
begin-day 2026-03-17 -> ok
check-in 10 1 -> fine 100 shelf 1
kind 1 5 5 99 -> ok
check-out 2 10 1 -> refused 38
pay 9 1 -> refused 11
pay 2 101 -> refused 60
pay 2 30 -> owed 70
waive 9 1 -> refused 11
waive 2 71 -> refused 60
waive 2 20 -> owed 50
page 9 -> refused 11
page 2 -> patron 2 owed 50 name Bo Carr

# check-in and its ways
check-in 10 9 -> refused 10
check-in 99 1 -> refused 13
withdraw 11 -> ok
check-in 11 1 -> refused 35
place-hold 2 300 1 -> hold 1
check-in 30 2 -> fine 0 transit 1 for 1
check-in 30 1 -> fine 0 ready 1 at 1 until 2026-03-07
check-in 30 1 -> refused 33
check-in 10 2 -> fine 0 transit 1
check-in 10 1 -> fine 0 shelf 1

# grace days: those of the rule when the loan was made
grace 1 1 2 -> ok
check-out 1 10 1 -> loan 1 due 2026-03-09
check-out 2 11 1 -> loan 2 due 2026-03-09
rule 1 1 6 1 20 100 -> ok
check-out 3 20 2 -> loan 3 due 2026-03-10
begin-day 2026-03-11 -> ok
check-in 10 1 -> fine 0 shelf 1
renew 2 -> refused 41
begin-day 2026-03-12 -> ok
check-in 11 1 -> fine 60 shelf 1
missing 20 -> fine 40 price 1200
page 1 -> patron 1 owed 0 name Ann Bell

# renew
renew 1 -> refused 14
check-out 1 10 1 -> loan 1 due 2026-03-09
check-in 10 1 -> fine 0 shelf 1
renew 1 -> refused 40
check-out 1 10 1 -> loan 2 due 2026-03-09
place-hold 2 100 1 -> hold 1
renew 2 -> refused 36
cancel-hold 1 -> ok
renew 2 -> loan 2 due 2026-03-16
renew 2 -> refused 42
check-out 1 11 1 -> loan 3 due 2026-03-09
begin-day 2026-03-10 -> ok
renew 3 -> refused 41
check-in 11 1 -> fine 20 shelf 1
check-out 1 11 1 -> loan 4 due 2026-03-16
kind 1 5 5 19 -> ok
renew 4 -> refused 38

# renew at the end of the calendar
rule 1 2 365 99 20 100 -> ok
begin-day 2190-12-31 -> ok
check-out 1 30 1 -> loan 1 due 2191-12-31
renew 1 -> loan 1 due 2192-12-31
renew 1 -> loan 1 due 2193-12-31
renew 1 -> loan 1 due 2194-12-31
renew 1 -> loan 1 due 2195-12-31
renew 1 -> loan 1 due 2196-12-30
renew 1 -> loan 1 due 2197-12-30
renew 1 -> loan 1 due 2198-12-31
renew 1 -> loan 1 due 2199-12-31
renew 1 -> refused 39

# place-hold and cancel-hold
place-hold 9 100 1 -> refused 11
place-hold 1 999 1 -> refused 12
place-hold 1 100 9 -> refused 10
place-hold 1 100 1 -> hold 1
place-hold 1 100 1 -> refused 50
check-out 1 30 1 -> loan 1 due 2026-03-14
place-hold 1 300 1 -> refused 52
kind 1 5 1 500 -> ok
place-hold 1 200 2 -> refused 51
cancel-hold 9 -> refused 15
cancel-hold 1 -> ok
cancel-hold 1 -> refused 53

# place-hold-from
place-hold-from 9 100 1 2026-03-03 -> refused 11
place-hold-from 1 999 1 2026-03-03 -> refused 12
place-hold-from 1 100 9 2026-03-03 -> refused 10
place-hold-from 1 100 1 2026-03-02 -> refused 23
place-hold-from 1 100 1 2191-01-01 -> refused 23
place-hold-from 1 100 1 2190-12-31 -> hold 1
place-hold-from 1 100 1 2026-03-03 -> refused 50
check-out 1 30 1 -> loan 1 due 2026-03-14
place-hold-from 1 300 1 2026-03-03 -> refused 52
kind 1 5 1 500 -> ok
place-hold-from 1 200 2 2026-03-03 -> refused 51

# unshelve
unshelve 1 -> refused 15
place-hold 1 300 2 -> hold 1
unshelve 1 -> refused 53
check-in 30 2 -> fine 0 ready 1 at 2 until 2026-03-05
unshelve 1 -> refused 54
place-hold 2 300 2 -> hold 2
place-hold 3 300 1 -> hold 3
begin-day 2026-03-06 -> ok
unshelve 1 -> ready 2 at 2 until 2026-03-10
begin-day 2026-03-11 -> ok
unshelve 2 -> transit 1 for 3
check-in 30 1 -> fine 0 ready 3 at 1 until 2026-03-16
begin-day 2026-03-17 -> ok
unshelve 3 -> shelf 1
place-hold 1 300 2 -> hold 4
check-in 30 2 -> fine 0 ready 4 at 2 until 2026-03-20
begin-day 2026-03-21 -> ok
unshelve 4 -> transit 1

# unshelve-cancelled
unshelve-cancelled 1 -> refused 15
place-hold 1 300 2 -> hold 1
unshelve-cancelled 1 -> refused 53
check-in 30 2 -> fine 0 ready 1 at 2 until 2026-03-05
place-hold 2 300 2 -> hold 2
place-hold 3 300 1 -> hold 3
unshelve-cancelled 1 -> ready 2 at 2 until 2026-03-05
unshelve-cancelled 2 -> transit 1 for 3
check-in 30 1 -> fine 0 ready 3 at 1 until 2026-03-07
unshelve-cancelled 3 -> shelf 1
place-hold 1 300 2 -> hold 4
check-in 30 2 -> fine 0 ready 4 at 2 until 2026-03-05
unshelve-cancelled 4 -> transit 1

# missing and withdraw
missing 99 -> refused 13
withdraw 99 -> refused 13
withdraw 11 -> ok
missing 11 -> refused 35
withdraw 11 -> refused 35
missing 30 -> ok
missing 30 -> refused 34
check-out 1 10 1 -> loan 1 due 2026-03-09
withdraw 10 -> refused 31
check-in 20 1 -> fine 0 transit 2
withdraw 20 -> refused 32
acquire 50 500 1 1 900 'Old Maps' -> ok
place-hold 2 500 1 -> hold 1
check-in 50 1 -> fine 0 ready 1 at 1 until 2026-03-07
withdraw 50 -> refused 33
begin-day 2026-03-10 -> ok
missing 10 -> fine 20 price 2500

# what the desk can be asked
copy 99 -> refused 13
copies 999 0 -> refused 12
queue 999 0 -> refused 12
account 9 0 -> refused 11
overdue 9 0 -> refused 10
shelf 9 0 -> refused 10
pulls 9 0 -> refused 10
transits 9 0 -> refused 10
copy 10 -> copy 10 home 1 kind 1 price 2500 title 100 Rivers of the North / shelf 1
check-out 1 10 1 -> loan 1 due 2026-03-09
copy 10 -> copy 10 home 1 kind 1 price 2500 title 100 Rivers of the North / loan 1 due 2026-03-09 patron 1 Ann Bell
place-hold 2 100 1 -> hold 1
place-hold-from 3 100 2 2026-03-04 -> hold 2
queue 100 0 -> title 100 Rivers of the North / hold 1 patron 2 at 1 / end
pulls 1 0 -> hold 1 copy 11 title 100 Rivers of the North / end
pulls 2 0 -> end
check-in 11 2 -> fine 0 transit 1 for 1
copy 11 -> copy 11 home 1 kind 1 price 2500 title 100 Rivers of the North / transit 1 for 1 patron 2 Bo Carr
transits 1 0 -> copy 11 for 1 title 100 Rivers of the North / end
begin-day 2026-03-04 -> ok
queue 100 0 -> title 100 Rivers of the North / hold 2 patron 3 at 2 from 2026-03-04 / end
queue 100 2 -> title 100 Rivers of the North / end
check-in 11 1 -> fine 0 ready 1 at 1 until 2026-03-09
copy 11 -> copy 11 home 1 kind 1 price 2500 title 100 Rivers of the North / ready 1 at 1 until 2026-03-09 patron 2 Bo Carr
shelf 1 0 ->       hold    copy  patron until      title /          1      11       2 2026-03-09 Rivers of the North / end
check-in 20 1 -> fine 0 transit 2
copy 20 -> copy 20 home 2 kind 1 price 1200 title 200 Salt Roads / transit 2
copies 200 0 -> title 200 Salt Roads / copy 20 transit 2 / end
transits 2 0 -> copy 20 title 200 Salt Roads / end
missing 30 -> ok
copy 30 -> copy 30 home 1 kind 2 price 800 title 300 Night Ferries / missing
copies 300 0 -> title 300 Night Ferries / copy 30 missing / end
withdraw 30 -> ok
copy 30 -> copy 30 home 1 kind 2 price 800 title 300 Night Ferries / withdrawn
copies 300 0 -> title 300 Night Ferries / copy 30 withdrawn / end
acquire 12 100 1 1 2500 'Rivers of the North' -> ok
copies 100 0 -> title 100 Rivers of the North / copy 10 loan 1 due 2026-03-09 / copy 11 ready 1 at 1 until 2026-03-09 / copy 12 shelf 1 / end
check-in 12 1 -> fine 0 transit 2 for 2
copies 100 11 -> title 100 Rivers of the North / copy 12 transit 2 for 2 / end
debts 0 -> end
begin-day 2026-03-17 -> ok
overdue 1 0 ->       loan  patron    copy due         late title /          1       1      10 2026-03-09     7 Rivers of the North / end
missing 10 -> fine 100 price 2500
pay 1 30 -> owed 2570
waive 1 20 -> owed 2550
account 1 0 -> patron 1 owed 2550 name Ann Bell / line 1 2026-03-17 fine 100 loan 1 title 100 Rivers of the North / line 2 2026-03-17 price 2500 loan 1 title 100 Rivers of the North / line 3 2026-03-17 payment 30 / line 4 2026-03-17 waiver 20 / end
debts 0 -> patron 1 owed 2550 name Ann Bell / end
till 2026-03-17 -> till 2026-03-17 / SUMS 100 2500 30 20

# card keys, and patrons with another kind
card-key 9 newkey000001 -> refused 11
card-key 1 newkey000001 -> ok
card-key 1 newkey000001 -> ok
patron 1 1 cardkey00001 'Ann Bell' -> refused 20
patron 1 1 newkey000001 'Ann Bell' -> ok
check-out 1 10 1 -> loan 1 due 2026-03-09
begin-day 2026-03-10 -> ok
check-in 10 1 -> fine 20 shelf 1
check-out 1 11 1 -> loan 2 due 2026-03-16
amend-patron 9 100 Ann -> refused 21
amend-patron 1 0 Ann -> refused 21
amend-patron 9 3 Ann -> refused 11
amend-patron 1 3 Ann -> refused 17
kind 2 1 0 19 -> ok
rule 2 1 3 0 50 200 -> ok
amend-patron 1 2 'Ann Özil' -> ok
amend-patron 1 2 'Ann Özil' -> ok
patron 1 1 newkey000001 'Ann Bell' -> refused 20
patron 1 2 newkey000001 'Ann Özil' -> ok
page 1 -> patron 1 owed 20 name Ann Özil / loan 2 due 2026-03-16 renewals 1 title 100 Rivers of the North
borrower 1 -> patron 1 owed 20 name Ann Özil / kind 2
check-out 1 30 1 -> refused 16
check-out 1 10 1 -> refused 37
place-hold 1 300 1 -> refused 51
renew 2 -> refused 38
pay 1 1 -> owed 19
renew 2 -> loan 2 due 2026-03-23
check-in 11 1 -> fine 0 shelf 1
check-out 1 10 1 -> loan 3 due 2026-03-13

# amend-branch: a shelf limit stays, and so do the closed weekdays
amend-branch 100 5 Hall -> refused 21
amend-branch 9 61 Hall -> refused 21
amend-branch 9 5 Hall -> refused 10
place-hold 2 300 2 -> hold 1
check-in 30 2 -> fine 0 ready 1 at 2 until 2026-03-05
amend-branch 2 1 'Harbour Hall' -> ok
amend-branch 2 1 'Harbour Hall' -> ok
shelf 2 0 ->       hold    copy  patron until      title /          1      30       2 2026-03-05 Night Ferries / end
branch 2 3 Harbour -> refused 20
branch 2 1 'Harbour Hall' -> ok
place-hold 3 200 2 -> hold 2
check-in 20 2 -> fine 0 ready 2 at 2 until 2026-03-03
unshelve-cancelled 2 -> shelf 2
amend-branch 2 6 Harbour -> ok
place-hold 3 200 2 -> hold 3
check-in 20 2 -> fine 0 ready 3 at 2 until 2026-03-10

# amend-title and amend-copy: pages, lists and prices as they are now, loans and lines as they were set
amend-title 999 Rivers -> refused 12
check-out 1 10 1 -> loan 1 due 2026-03-09
place-hold 2 100 1 -> hold 1
amend-title 100 'Rivers of the South' -> ok
amend-title 100 'Rivers of the South' -> ok
page 1 -> patron 1 owed 0 name Ann Bell / loan 1 due 2026-03-09 renewals 1 title 100 Rivers of the South
page 2 -> patron 2 owed 0 name Bo Carr / hold 1 at 1 waiting title 100 Rivers of the South
pulls 1 0 -> hold 1 copy 11 title 100 Rivers of the South / end
acquire 12 100 1 1 2500 'Rivers of the North' -> refused 20
acquire 12 100 1 1 2500 'Rivers of the South' -> ok
amend-copy 99 0 900 -> refused 21
amend-copy 99 1 1000001 -> refused 21
amend-copy 99 1 900 -> refused 13
amend-copy 10 2 900 -> ok
amend-copy 10 2 900 -> ok
acquire 10 100 1 1 2500 'Rivers of the South' -> refused 20
acquire 10 100 2 1 900 'Rivers of the South' -> ok
cancel-hold 1 -> ok
renew 1 -> loan 1 due 2026-03-16
begin-day 2026-03-17 -> ok
overdue 1 0 ->       loan  patron    copy due         late title /          1       1      10 2026-03-16     1 Rivers of the South / end
missing 10 -> fine 20 price 900
amend-copy 10 1 700 -> ok
account 1 0 -> patron 1 owed 920 name Ann Bell / line 1 2026-03-17 fine 20 loan 1 title 100 Rivers of the South / line 2 2026-03-17 price 900 loan 1 title 100 Rivers of the South / end
check-in 10 1 -> fine 0 shelf 1
check-out 2 10 1 -> loan 2 due 2026-03-23

# rehome, wherever a copy is
rehome 99 9 -> refused 10
rehome 99 2 -> refused 13
rehome 10 1 -> ok
copy 10 -> copy 10 home 1 kind 1 price 2500 title 100 Rivers of the North / shelf 1
rehome 10 2 -> ok
copy 10 -> copy 10 home 2 kind 1 price 2500 title 100 Rivers of the North / transit 2
rehome 10 2 -> ok
acquire 10 100 1 1 2500 'Rivers of the North' -> refused 20
acquire 10 100 1 2 2500 'Rivers of the North' -> ok
check-out 1 10 1 -> refused 32
rehome 10 1 -> ok
copy 10 -> copy 10 home 1 kind 1 price 2500 title 100 Rivers of the North / transit 2
check-in 10 2 -> fine 0 transit 1
check-in 10 1 -> fine 0 shelf 1
check-out 1 11 1 -> loan 1 due 2026-03-09
rehome 11 2 -> ok
copy 11 -> copy 11 home 2 kind 1 price 2500 title 100 Rivers of the North / loan 1 due 2026-03-09 patron 1 Ann Bell
check-in 11 1 -> fine 0 transit 2
check-in 11 2 -> fine 0 shelf 2
check-out 2 11 1 -> refused 30
place-hold 2 300 1 -> hold 1
check-in 30 1 -> fine 0 ready 1 at 1 until 2026-03-07
rehome 30 2 -> ok
copy 30 -> copy 30 home 2 kind 2 price 800 title 300 Night Ferries / ready 1 at 1 until 2026-03-07 patron 2 Bo Carr
unshelve-cancelled 1 -> transit 2
missing 20 -> ok
rehome 20 1 -> ok
copy 20 -> copy 20 home 1 kind 1 price 1200 title 200 Salt Roads / missing
check-in 20 2 -> fine 0 transit 1
withdraw 11 -> ok
rehome 11 1 -> refused 35
transits 1 0 -> copy 20 title 200 Salt Roads / end
transits 2 0 -> copy 30 title 300 Night Ferries / end
copies 100 0 -> title 100 Rivers of the North / copy 10 shelf 1 / copy 11 withdrawn / end

# a rehomed copy that travels for a hold goes on to it, and one that leaves its shelf is to be taken from there no more
place-hold 2 300 2 -> hold 1
check-in 30 1 -> fine 0 transit 2 for 1
rehome 30 2 -> ok
copy 30 -> copy 30 home 2 kind 2 price 800 title 300 Night Ferries / transit 2 for 1 patron 2 Bo Carr
cancel-hold 1 -> ok
check-in 30 2 -> fine 0 shelf 2
place-hold 1 200 1 -> hold 2
pulls 2 0 -> hold 2 copy 20 title 200 Salt Roads / end
rehome 20 1 -> ok
pulls 2 0 -> end
pulls 1 0 -> end
check-in 20 1 -> fine 0 ready 2 at 1 until 2026-03-07

# today, borrowers, and what is found
today -> today 2026-03-02
begin-day 2026-03-03 -> ok
today -> today 2026-03-03
borrower 9 -> refused 11
borrower 2 -> patron 2 owed 0 name Bo Carr / kind 1
find-patrons 0 'BELL aN' -> patron 1 owed 0 name Ann Bell / end
find-patrons 0 n -> patron 1 owed 0 name Ann Bell / patron 3 owed 0 name Cy Dunn / end
find-patrons 1 n -> patron 3 owed 0 name Cy Dunn / end
find-patrons 3 n -> end
find-patrons 0 ann-bell -> end
find-patrons 0 'ann dunn' -> end
find-titles 0 r -> title 100 Rivers of the North / title 200 Salt Roads / title 300 Night Ferries / end
find-titles 100 't  r' -> title 200 Salt Roads / title 300 Night Ferries / end
find-titles 300 r -> end
acquire 40 400 1 1 900 'Ærø und ÇEŞME, 2 × 3' -> ok
find-titles 0 'aro cesme' -> title 400 Ærø und ÇEŞME, 2 × 3 / end
find-titles 0 'ÅRÖ ×' -> title 400 Ærø und ÇEŞME, 2 × 3 / end
find-titles 0 aero -> end
find-titles 0 '2 x' -> end
acquire 41 410 1 1 900 Σειρά -> ok
find-titles 0 Σειρά -> title 410 Σειρά / end
find-titles 0 σειρά -> end
LETTERS

# missing copies, and the loans of a copy
missing-copies 0 -> end
loans 10 0 -> end
loans 99 0 -> refused 13
loans 0 0 -> refused 13
check-out 1 10 1 -> loan 1 due 2026-03-09
loans 10 0 -> loan 1 patron 1 made 2026-03-02 due 2026-03-09 / end
loans 11 0 -> end
missing 20 -> ok
missing 30 -> ok
missing-copies 0 -> copy 20 home 2 title 200 Salt Roads / copy 30 home 1 title 300 Night Ferries / end
missing-copies 20 -> copy 30 home 1 title 300 Night Ferries / end
missing-copies 30 -> end
missing-copies 4294967295 -> end
check-in 20 2 -> fine 0 shelf 2
missing-copies 0 -> copy 30 home 1 title 300 Night Ferries / end
withdraw 30 -> ok
missing-copies 0 -> end
begin-day 2026-03-10 -> ok
check-in 10 1 -> fine 20 shelf 1
loans 10 0 -> loan 1 patron 1 made 2026-03-02 due 2026-03-09 ended 2026-03-10 / end
check-out 3 11 1 -> loan 2 due 2026-03-16
check-out 2 10 1 -> loan 3 due 2026-03-16
renew 3 -> loan 3 due 2026-03-23
loans 10 0 -> loan 1 patron 1 made 2026-03-02 due 2026-03-09 ended 2026-03-10 / loan 3 patron 2 made 2026-03-10 due 2026-03-23 / end
loans 10 1 -> loan 3 patron 2 made 2026-03-10 due 2026-03-23 / end
loans 10 3 -> end
loans 10 4294967295 -> end
missing 10 -> fine 0 price 2500
loans 10 1 -> loan 3 patron 2 made 2026-03-10 due 2026-03-23 ended 2026-03-10 / end
missing-copies 0 -> copy 10 home 1 title 100 Rivers of the North / end
rehome 10 2 -> ok
amend-title 100 'Rivers of the South' -> ok
missing-copies 0 -> copy 10 home 2 title 100 Rivers of the South / end
withdraw 10 -> ok
missing-copies 0 -> end
loans 10 2 -> loan 3 patron 2 made 2026-03-10 due 2026-03-23 ended 2026-03-10 / end

# what is set: branches, kinds and rules as they are now
branches 0 -> branch 1 pickup 5 week ooooooc name Main / branch 2 pickup 3 week coooooc name Harbour / end
branches 1 -> branch 2 pickup 3 week coooooc name Harbour / end
branches 2 -> end
kinds 0 -> kind 1 loans 5 holds 5 debt 500 / end
kinds 1 -> end
rules 1 0 -> rule 1 1 period 6 renewals 1 rate 20 cap 100 grace 0 / rule 1 2 period 12 renewals 1 rate 20 cap 100 grace 0 / end
rules 1 1 -> rule 1 2 period 12 renewals 1 rate 20 cap 100 grace 0 / end
rules 1 2 -> end
rules 2 0 -> refused 17
rules 0 0 -> refused 17
branch 99 60 'Zoë Quay' -> ok
branch 30 0 Hill -> ok
week 2 ooooooo -> ok
week 99 cccccco -> ok
amend-branch 1 0 'Main Street' -> ok
branches 0 -> branch 1 pickup 0 week ooooooc name Main Street / branch 2 pickup 3 week ooooooo name Harbour / branch 30 pickup 0 week ooooooo name Hill / branch 99 pickup 60 week cccccco name Zoë Quay / end
branches 29 -> branch 30 pickup 0 week ooooooo name Hill / branch 99 pickup 60 week cccccco name Zoë Quay / end
branches 98 -> branch 99 pickup 60 week cccccco name Zoë Quay / end
branches 4294967295 -> end
kind 99 200 0 1000000 -> ok
kind 2 0 200 0 -> ok
rules 2 0 -> end
rule 99 1 365 99 10000 100000 -> ok
rule 2 99 1 0 0 0 -> ok
rule 1 3 7 0 0 0 -> ok
grace 1 1 365 -> ok
grace 1 2 3 -> ok
rule 1 2 14 2 30 90 -> ok
kind 1 6 4 300 -> ok
kinds 0 -> kind 1 loans 6 holds 4 debt 300 / kind 2 loans 0 holds 200 debt 0 / kind 99 loans 200 holds 0 debt 1000000 / end
kinds 2 -> kind 99 loans 200 holds 0 debt 1000000 / end
kinds 99 -> end
rules 1 0 -> rule 1 1 period 6 renewals 1 rate 20 cap 100 grace 365 / rule 1 2 period 14 renewals 2 rate 30 cap 90 grace 0 / rule 1 3 period 7 renewals 0 rate 0 cap 0 grace 0 / end
rules 1 2 -> rule 1 3 period 7 renewals 0 rate 0 cap 0 grace 0 / end
rules 2 0 -> rule 2 99 period 1 renewals 0 rate 0 cap 0 grace 0 / end
rules 2 98 -> rule 2 99 period 1 renewals 0 rate 0 cap 0 grace 0 / end
rules 99 0 -> rule 99 1 period 365 renewals 99 rate 10000 cap 100000 grace 0 / end

# as many branches, kinds and rules of a kind as there can be
counted 97 branch 3 5 Hill -> ok
branches 2 -> HILLS / end
counted 98 kind 2 1 2 30 -> ok
kinds 1 -> KINDS / end
RULES
rules 99 0 -> RULED / end

# single closed days after today, by day, whatever the order in which they were closed
closed-days 9 0 -> refused 10
closed-days 0 0 -> refused 10
closed-days 1 0 -> end
close-day 1 2026-03-10 -> ok
close-day 1 2199-12-31 -> ok
close-day 1 2026-03-03 -> ok
close-day 1 2026-12-24 -> ok
close-day 2 2026-03-04 -> ok
closed-days 1 0 -> day 2026-03-03 / day 2026-03-10 / day 2026-12-24 / day 2199-12-31 / end
closed-days 1 20514 -> day 2026-03-03 / day 2026-03-10 / day 2026-12-24 / day 2199-12-31 / end
closed-days 1 20515 -> day 2026-03-10 / day 2026-12-24 / day 2199-12-31 / end
closed-days 1 20521 -> day 2026-03-10 / day 2026-12-24 / day 2199-12-31 / end
closed-days 1 20522 -> day 2026-12-24 / day 2199-12-31 / end
closed-days 1 84004 -> day 2199-12-31 / end
closed-days 1 84005 -> end
closed-days 1 4294967295 -> end
closed-days 2 0 -> day 2026-03-04 / end
open-day 1 2026-12-24 -> ok
closed-days 1 0 -> day 2026-03-03 / day 2026-03-10 / day 2199-12-31 / end
begin-day 2026-03-03 -> ok
closed-days 1 0 -> day 2026-03-10 / day 2199-12-31 / end
closed-days 1 20513 -> day 2026-03-10 / day 2199-12-31 / end
begin-day 2026-03-09 -> ok
closed-days 1 0 -> day 2026-03-10 / day 2199-12-31 / end
closed-days 2 0 -> end
begin-day 2190-12-31 -> ok
closed-days 1 0 -> day 2199-12-31 / end

# more than a hundred closed days, and how the days that come leave exactly a hundred
close-day 1 2026-03-03 -> ok
weekly 101 close-day 1 2026-03-09 -> ok
closed-days 1 0 -> day 2026-03-03 / WEEKS 0 98 / after 21207
closed-days 1 21207 -> WEEKS 99 100 / end
closed-days 1 20515 -> WEEKS 0 99 / after 21214
closed-days 1 20521 -> WEEKS 1 100 / end
begin-day 2026-03-03 -> ok
closed-days 1 0 -> WEEKS 0 99 / after 21214
begin-day 2026-03-09 -> ok
closed-days 1 0 -> WEEKS 1 100 / end
close-day 1 2026-03-10 -> ok
closed-days 1 0 -> day 2026-03-10 / WEEKS 1 99 / after 21214
closed-days 1 20522 -> WEEKS 1 100 / end

# the hundredth found is the last that is there, and then it isn't
counted 100 patron 1001 1 cardkey00009 'Zoë Sand' -> ok
find-patrons 0 'sand zoe' -> FOUND / end
patron 2000 1 cardkey00010 'Di Ek' -> ok
find-patrons 0 'sand zoe' -> FOUND / after 1100
find-patrons 1100 'sand zoe' -> end

# barcodes: one for a copy or a patron, and none for two of them; capitals and leading zeros count
copy-barcode 99 c1 -> refused 13
patron-barcode 9 c1 -> refused 11
drop-barcode c1 -> refused 18
find-barcode c1 -> refused 18
copy-barcode 10 c1 -> ok
find-barcode c1 -> copy 10
copy 10 -> copy 10 home 1 kind 1 price 2500 title 100 Rivers of the North / shelf 1 / barcode c1
copy 11 -> copy 11 home 1 kind 1 price 2500 title 100 Rivers of the North / shelf 1
copy-barcode 99 c1 -> refused 13
patron-barcode 9 c1 -> refused 11
copy-barcode 11 c1 -> refused 26
patron 10 1 cardkey00010 'Di East' -> ok
patron-barcode 10 c1 -> refused 26
copy-barcode 10 c1 -> ok
find-barcode C1 -> refused 18
drop-barcode C1 -> refused 18
copy-barcode 11 C1 -> ok
patron-barcode 10 01 -> ok
find-barcode 1 -> refused 18
drop-barcode 1 -> refused 18
find-barcode 01 -> patron 10
borrower 10 -> patron 10 owed 0 name Di East / kind 1 / barcode 01
patron-barcode 10 01 -> ok
patron-barcode 1 01 -> refused 26
copy-barcode 10 01 -> refused 26
copy-barcode 20 01 -> refused 26

# another barcode takes the place of the old one, which may be given again; so may one that was dropped
copy-barcode 10 c1 -> ok
patron-barcode 1 p1 -> ok
patron-barcode 1 000000000000000000000001 -> ok
find-barcode p1 -> refused 18
find-barcode 000000000000000000000001 -> patron 1
copy-barcode 20 p1 -> ok
copy-barcode 10 c2 -> ok
find-barcode c1 -> refused 18
drop-barcode c1 -> refused 18
patron-barcode 2 c1 -> ok
find-barcode c1 -> patron 2
borrower 1 -> patron 1 owed 0 name Ann Bell / kind 1 / barcode 000000000000000000000001
drop-barcode 000000000000000000000001 -> ok
drop-barcode 000000000000000000000001 -> refused 18
find-barcode 000000000000000000000001 -> refused 18
borrower 1 -> patron 1 owed 0 name Ann Bell / kind 1
borrower 2 -> patron 2 owed 0 name Bo Carr / kind 1 / barcode c1
copy-barcode 11 000000000000000000000001 -> ok
find-barcode p1 -> copy 20
drop-barcode p1 -> ok
copy 20 -> copy 20 home 2 kind 1 price 1200 title 200 Salt Roads / shelf 2
drop-barcode c2 -> ok
copy-barcode 10 c2 -> ok
find-barcode c2 -> copy 10

# a barcode stays, wherever its copy is and whatever is corrected
copy-barcode 10 c10 -> ok
copy-barcode 30 C30 -> ok
patron-barcode 1 p1 -> ok
check-out 1 10 1 -> loan 1 due 2026-03-09
copy 10 -> copy 10 home 1 kind 1 price 2500 title 100 Rivers of the North / loan 1 due 2026-03-09 patron 1 Ann Bell / barcode c10
amend-copy 10 1 900 -> ok
amend-patron 1 1 'Ann Carr' -> ok
card-key 1 newkey000001 -> ok
borrower 1 -> patron 1 owed 0 name Ann Carr / kind 1 / barcode p1
missing 10 -> fine 0 price 900
copy 10 -> copy 10 home 1 kind 1 price 900 title 100 Rivers of the North / missing / barcode c10
rehome 10 2 -> ok
place-hold 2 300 1 -> hold 1
check-in 30 2 -> fine 0 transit 1 for 1
copy 30 -> copy 30 home 1 kind 2 price 800 title 300 Night Ferries / transit 1 for 1 patron 2 Bo Carr / barcode C30
check-in 30 1 -> fine 0 ready 1 at 1 until 2026-03-07
copy 30 -> copy 30 home 1 kind 2 price 800 title 300 Night Ferries / ready 1 at 1 until 2026-03-07 patron 2 Bo Carr / barcode C30
withdraw 10 -> ok
copy 10 -> copy 10 home 2 kind 1 price 900 title 100 Rivers of the North / withdrawn / barcode c10
copies 100 0 -> title 100 Rivers of the North / copy 10 withdrawn / copy 11 shelf 1 / end
find-barcode c10 -> copy 10
acquire 10 100 1 2 900 'Rivers of the North' -> ok
copy-barcode 10 c11 -> ok
find-barcode c11 -> copy 10

# charges, and what is paid at a counter
charge 9 1000001 9 Card -> refused 21
charge 9 0 9 Card -> refused 11
charge 2 0 9 Card -> refused 10
charge 2 0 1 Card -> refused 60
pay-at 9 0 9 -> refused 11
pay-at 2 0 9 -> refused 10
pay-at 2 0 1 -> refused 60
pay-at 2 1 1 -> refused 60
till-at 9 2026-03-02 -> refused 10
till-at 0 2026-03-02 -> refused 10
till-at 1 2026-03-02 -> till 2026-03-02 at 1 / payments               0 / charges                0
till 2026-03-02 -> till 2026-03-02 / SUMS 0 0 0 0
charge 2 1000000 1 'Lost card, 1' -> owed 1000000
charge 2 1 2 7 -> owed 1000001
pay-at 2 1000002 1 -> refused 60
check-out 2 10 1 -> refused 38
debts 0 -> patron 2 owed 1000001 name Bo Carr / end
pay-at 2 999998 2 -> owed 3
pay 2 1 -> owed 2
waive 2 1 -> owed 1
page 2 -> patron 2 owed 1 name Bo Carr
borrower 2 -> patron 2 owed 1 name Bo Carr / kind 1
account 2 0 -> patron 2 owed 1 name Bo Carr / line 1 2026-03-02 charge 1000000 at 1 for Lost card, 1 / line 2 2026-03-02 charge 1 at 2 for 7 / line 3 2026-03-02 payment 999998 at 2 / line 4 2026-03-02 payment 1 / line 5 2026-03-02 waiver 1 / end
account 2 3 -> patron 2 owed 1 name Bo Carr / line 4 2026-03-02 payment 1 / line 5 2026-03-02 waiver 1 / end
till 2026-03-02 -> till 2026-03-02 / SUMS 0 0 999999 1 1000001
till-at 1 2026-03-02 -> till 2026-03-02 at 1 / payments               0 / charges          1000000
till-at 2 2026-03-02 -> till 2026-03-02 at 2 / payments          999998 / charges                1
pay-at 2 1 1 -> owed 0
pay-at 2 1 1 -> refused 60
till-at 1 2026-03-02 -> till 2026-03-02 at 1 / payments               1 / charges          1000000
debts 0 -> end
check-out 2 10 1 -> loan 1 due 2026-03-09

# a day's till has its own charges, and fines and prices are made at no counter
charge 1 30 1 Copies -> owed 30
check-out 2 10 1 -> loan 1 due 2026-03-09
begin-day 2026-03-17 -> ok
till 2026-03-17 -> till 2026-03-17 / SUMS 0 0 0 0
check-in 10 1 -> fine 100 shelf 1
till 2026-03-17 -> till 2026-03-17 / SUMS 100 0 0 0
pay-at 2 40 1 -> owed 60
till 2026-03-17 -> till 2026-03-17 / SUMS 100 0 40 0
till-at 1 2026-03-17 -> till 2026-03-17 at 1 / payments              40 / charges                0
till-at 2 2026-03-17 -> till 2026-03-17 at 2 / payments               0 / charges                0
charge 2 5 2 'Copies, 1' -> owed 65
till 2026-03-17 -> till 2026-03-17 / SUMS 100 0 40 0 5
till-at 1 2026-03-17 -> till 2026-03-17 at 1 / payments              40 / charges                0
till-at 2 2026-03-17 -> till 2026-03-17 at 2 / payments               0 / charges                5
till 2026-03-02 -> till 2026-03-02 / SUMS 0 0 0 0 30
till-at 1 2026-03-02 -> till 2026-03-02 at 1 / payments               0 / charges               30
till-at 1 2199-12-31 -> till 2199-12-31 at 1 / payments               0 / charges                0
amend-branch 1 5 'Main Street' -> ok
account 2 0 -> patron 2 owed 65 name Bo Carr / line 2 2026-03-17 fine 100 loan 1 title 100 Rivers of the North / line 3 2026-03-17 payment 40 at 1 / line 4 2026-03-17 charge 5 at 2 for Copies, 1 / end

# more than a hundred rows
counted 101 acquire 1001 500 1 1 900 Charts -> ok
copies 500 0 -> title 500 Charts / ROWS / after 1100
copies 500 1100 -> title 500 Charts / copy 1101 shelf 1 / end
counted 101 missing 1001 -> ok
missing-copies 0 -> MISSED / after 1100
missing-copies 1100 -> copy 1101 home 1 title 500 Charts / end
""".replace("ROWS", " / ".join(f"copy {number} shelf 1" for number in range(1001, 1101)))
DESK = DESK.replace("MISSED", " / ".join(f"copy {number} home 1 title 500 Charts" for number in range(1001, 1101)))
DESK = DESK.replace("FOUND", " / ".join(f"patron {number} owed 0 name Zoë Sand" for number in range(1001, 1101)))
DESK = DESK.replace("HILLS", " / ".join(f"branch {number} pickup 5 week ooooooo name Hill" for number in range(3, 100)))
DESK = DESK.replace("KINDS", " / ".join(f"kind {number} loans 1 holds 2 debt 30" for number in range(2, 100)))
DESK = DESK.replace("RULES", "\n".join(f"rule 99 {number} {number} 1 20 100 -> ok" for number in reversed(range(1, 100))))
DESK = DESK.replace("RULED", " / ".join(f"rule 99 {number} period {number} renewals 1 rate 20 cap 100 grace 0" for number in range(1, 100)))
DESK = re.sub("SUMS((?: [0-9]+)+)", lambda it: " / ".join(
    f"{name:<9}{cents:>15}" for name, cents in zip(("fines", "prices", "payments", "waivers", "charges"), it[1].split())), DESK)
DESK = re.sub("WEEKS ([0-9]+) ([0-9]+)", lambda it: " / ".join(
    f"day {datetime.date(2026, 3, 9) + datetime.timedelta(7 * week)}" for week in range(int(it[1]), int(it[2]) + 1)), DESK)

# Which letters a search takes for one another: as many in a title as its text may have.
MANY = 32
LETTERS = re.search(r"^<!-- letters: .*-->\n\n((?:    .*\n)+)", read("docs/RULES.md"), re.MULTILINE)[1].split()
LETTERS = re.findall("." * MANY, "".join(LETTERS))
MARKED = ["".join(map(chr, range(FIRST_FOLDED + at, FIRST_FOLDED + at + MANY))) for at in range(0, len(LETTERS) * MANY, MANY)]
DESK = DESK.replace("LETTERS", "\n".join(line for number, (plain, marked) in enumerate(zip(LETTERS, MARKED), 42) for line in (
    f"acquire {number} {10 * number} 1 1 900 {marked} -> ok", f"find-titles 0 {plain} -> title {10 * number} {marked} / end", f"find-titles 0 {marked} -> title {10 * number} {marked} / end",
    f"amend-title {10 * number} {plain} -> ok", f"find-titles 0 {marked} -> title {10 * number} {plain} / end")))

# Before each patron's command comes 81, and 14 and 15 are told of another's loan and hold too.
PATRONS = """
1/cardkey00002 page 1 -> refused 81
9/cardkey00001 page 9 -> refused 81
1/cardkey00001 page 1 -> patron 1 owed 0 name Ann Bell
1/cardkey00002 place-hold 1 100 1 -> refused 81
9/cardkey00001 place-hold 9 100 1 -> refused 81
1/cardkey00001 place-hold 1 999 1 -> refused 12
1/cardkey00001 place-hold 1 100 9 -> refused 10
1/cardkey00001 place-hold 1 100 1 -> hold 1
1/cardkey00001 place-hold 1 100 1 -> refused 50
check-out 1 30 1 -> loan 1 due 2026-03-14
1/cardkey00001 place-hold 1 300 1 -> refused 52
kind 1 5 1 500 -> ok
1/cardkey00001 place-hold 1 200 2 -> refused 51
1/cardkey00002 cancel-hold 1 -> refused 81
1/cardkey00001 cancel-hold 9 -> refused 15
2/cardkey00002 cancel-hold 1 -> refused 15
1/cardkey00001 cancel-hold 1 -> ok
1/cardkey00001 cancel-hold 1 -> refused 53

1/cardkey00002 place-hold-from 1 100 1 2026-03-03 -> refused 81
9/cardkey00001 place-hold-from 9 100 1 2026-03-03 -> refused 81
1/cardkey00001 place-hold-from 1 999 1 2026-03-03 -> refused 12
1/cardkey00001 place-hold-from 1 100 9 2026-03-03 -> refused 10
1/cardkey00001 place-hold-from 1 100 1 2026-03-02 -> refused 23
1/cardkey00001 place-hold-from 1 100 1 2191-01-01 -> refused 23
1/cardkey00001 place-hold-from 1 100 1 2190-12-31 -> hold 1
1/cardkey00001 place-hold-from 1 100 1 2026-03-03 -> refused 50
check-out 1 30 1 -> loan 1 due 2026-03-14
1/cardkey00001 place-hold-from 1 300 1 2026-03-03 -> refused 52
kind 1 5 1 500 -> ok
1/cardkey00001 place-hold-from 1 200 2 2026-03-03 -> refused 51

1/cardkey00001 renew 1 -> refused 14
check-out 1 10 1 -> loan 1 due 2026-03-09
1/cardkey00002 renew 1 -> refused 81
2/cardkey00002 renew 1 -> refused 14
check-in 10 1 -> fine 0 shelf 1
1/cardkey00001 renew 1 -> refused 40
check-out 1 10 1 -> loan 2 due 2026-03-09
place-hold 2 100 1 -> hold 1
1/cardkey00001 renew 2 -> refused 36
cancel-hold 1 -> ok
1/cardkey00001 renew 2 -> loan 2 due 2026-03-16
1/cardkey00001 renew 2 -> refused 42
check-out 1 11 1 -> loan 3 due 2026-03-09
begin-day 2026-03-10 -> ok
1/cardkey00001 renew 3 -> refused 41
check-in 11 1 -> fine 20 shelf 1
check-out 1 11 1 -> loan 4 due 2026-03-16
kind 1 5 5 19 -> ok
1/cardkey00001 renew 4 -> refused 38

rule 1 2 365 99 20 100 -> ok
begin-day 2190-12-31 -> ok
check-out 1 30 1 -> loan 1 due 2191-12-31
1/cardkey00001 renew 1 -> loan 1 due 2192-12-31
1/cardkey00001 renew 1 -> loan 1 due 2193-12-31
1/cardkey00001 renew 1 -> loan 1 due 2194-12-31
1/cardkey00001 renew 1 -> loan 1 due 2195-12-31
1/cardkey00001 renew 1 -> loan 1 due 2196-12-30
1/cardkey00001 renew 1 -> loan 1 due 2197-12-30
1/cardkey00001 renew 1 -> loan 1 due 2198-12-31
1/cardkey00001 renew 1 -> loan 1 due 2199-12-31
1/cardkey00001 renew 1 -> refused 39
"""

# With another card key the old one opens nothing, and it is good again once it is given again.
PATRONS += """
1/cardkey00001 page 1 -> patron 1 owed 0 name Ann Bell
1/newkey000001 page 1 -> refused 81
card-key 1 newkey000001 -> ok
1/cardkey00001 page 1 -> refused 81
1/cardkey00001 place-hold 1 100 1 -> refused 81
1/cardkey00001 place-hold-from 1 100 1 2026-03-03 -> refused 81
1/newkey000001 page 1 -> patron 1 owed 0 name Ann Bell
1/newkey000001 place-hold 1 100 1 -> hold 1
1/cardkey00001 cancel-hold 1 -> refused 81
check-out 1 30 1 -> loan 1 due 2026-03-14
1/cardkey00001 renew 1 -> refused 81
card-key 1 newkey000002 -> ok
1/cardkey00001 page 1 -> refused 81
1/newkey000001 renew 1 -> refused 81
1/newkey000002 renew 1 -> loan 1 due 2026-03-26
amend-title 300 'Day Ferries' -> ok
1/newkey000002 page 1 -> patron 1 owed 0 name Ann Bell / loan 1 due 2026-03-26 renewals 0 title 300 Day Ferries / hold 1 at 1 waiting title 100 Rivers of the North
card-key 1 cardkey00001 -> ok
1/newkey000002 cancel-hold 1 -> refused 81
1/cardkey00001 cancel-hold 1 -> ok
2/cardkey00001 page 2 -> refused 81
1/cardkey00001 card-key 1 newkey000003 -> refused 81
1/cardkey00001 amend-patron 1 1 Ann -> refused 81
1/cardkey00001 amend-branch 1 5 Main -> refused 81
1/cardkey00001 amend-title 100 Mine -> refused 81
1/cardkey00001 amend-copy 10 1 0 -> refused 81
1/cardkey00001 rehome 10 2 -> refused 81
1/cardkey00001 today -> refused 81
1/cardkey00001 borrower 1 -> refused 81
1/cardkey00001 find-patrons 0 ann -> refused 81
1/cardkey00001 find-titles 0 rivers -> refused 81
1/cardkey00001 branches 0 -> refused 81
1/cardkey00001 closed-days 1 0 -> refused 81
1/cardkey00001 kinds 0 -> refused 81
1/cardkey00001 rules 1 0 -> refused 81
1/cardkey00001 missing-copies 0 -> refused 81
1/cardkey00001 loans 10 0 -> refused 81
copy-barcode 10 c1 -> ok
charge 1 30 1 Copies -> owed 30
1/cardkey00001 copy-barcode 10 c2 -> refused 81
1/cardkey00001 patron-barcode 1 p1 -> refused 81
1/cardkey00001 drop-barcode c1 -> refused 81
1/cardkey00001 charge 1 30 1 Copies -> refused 81
1/cardkey00001 pay-at 1 30 1 -> refused 81
1/cardkey00001 find-barcode c1 -> refused 81
1/cardkey00001 till-at 1 2026-03-02 -> refused 81
1/cardkey00001 page 1 -> patron 1 owed 30 name Ann Bell / loan 1 due 2026-03-26 renewals 0 title 300 Day Ferries
"""

# The form of the page of a patron with no loan and no hold.
PAGE = "patron P owed N name NAME"
# The lines of the reports, of which docs/RULES.md tells the columns. The forms are patterns, in which capitals stand
# as in those that it has.
OF_REPORTS = {
    "overdue": [OVERDUE_HEAD, " +LOAN +PATRON +COPY DAY +LATE TEXT"],
    "shelf": [SHELF_HEAD, " +HOLD +COPY +PATRON DAY TEXT"],
    "till": ["till DAY", *(f"{name} +CENTS" for name in ("fines", "prices", "payments", "waivers", "charges"))],
    "till-at": ["till DAY at B", "payments +CENTS", "charges +CENTS"],
}


class Line:
    """A request of a list: who asks, how often, what, and the answer."""

    def __init__(self, text):
        said, _, answer = text.partition(" -> ")
        self.answer = answer.replace(" / ", "\n")
        words = shlex.split(said)
        self.patron = self.card_key = None
        if "/" in words[0]:
            self.patron, _, self.card_key = words.pop(0).partition("/")
        self.often = words[0] if words[0] in ("weekly", "counted") else None
        self.count = int(words[1]) if self.often else 1
        self.words = words[2:] if self.often else words

    def asked(self, number):
        """Each of its requests: a key, and the words."""
        for at in range(self.count):
            words = [*self.words]
            if self.often == "weekly":
                words[-1] = str(datetime.date.fromisoformat(words[-1]) + datetime.timedelta(7 * at))
            elif self.often:
                words[1] = str(int(words[1]) + at)
            yield f"k{number}-{at}", words


def lists_of(text):
    """The lists of a text, which empty lines part, each of numbered lines; a line that begins with # is a remark."""
    return [list(enumerate(Line(line) for line in part.split("\n") if not line.startswith("#")))
            for part in text.strip().split("\n\n")]


def are_the_rules(rules, asked):
    """The answers are those of the rules in plain Python."""
    for key, words, line in asked:
        patron, shown = (int(line.patron), line.card_key) if line.patron else (None, DESK_KEY)
        check(f"the rules at {key} {words}", said(rules, DESK_KEY, patron, shown, key, words), line.answer)


def all_asked(lines):
    """Each request of a list, with its line."""
    return [(key, words, line) for number, line in lines for key, words in line.asked(number)]


def by_words(path, asked):
    """The list by words."""
    for key, words, line in asked:
        check(f"{key} {words}", answers(path, key, words), (line.answer + "\n", status_of(line.answer)))


def over_the_web(path, asked):
    """The list over the web: the desk's requests by their bytes, a patron's by the routes."""
    with Serving(path, len(asked)) as serving:
        for key, words, line in asked:
            how = ("POST", "/desk", {"Desk-Key": DESK_KEY, "Request-Key": key}, json.dumps(words).encode())
            serving.answers(*(by_patron(line.patron, line.card_key, key, words) if line.patron else how), *told(line.answer))


def compared(folder, small, rules, lists):
    """Runs lists, each on new libraries, and compares the rows that they end in."""
    for at, lines in enumerate(lists):
        asked, known = all_asked(lines), copy.deepcopy(rules)
        are_the_rules(known, asked)
        for way in (over_the_web,) if any(line.patron for _, line in lines) else (by_words, over_the_web):
            path = os.path.join(folder, f"{at}.db")
            shutil.copy(small, path)
            way(path, asked)
            found = whole(path)
            for name, wanted in known.tables().items():
                check(f"list {at}, {way.__name__}: rows of {name}", sorted(found[name], key=repr), sorted(wanted, key=repr))
            check(f"list {at}, {way.__name__}: its audit", circ(["audit", path]), ("sound", 0))


def commands():
    """Of each command its checks but 70, and the forms of its replies, as docs/RULES.md has them."""
    text = read("docs/RULES.md")
    places = re.findall("`(.*?)`", re.search(r"^PLACE is ([^.(]*)", text, re.MULTILINE)[1])
    check("how many forms a place has", len(places), 4)
    table, shown = {}, forms_of_questions(text)
    for name, checks, replies in re.findall(r"^\| `([a-z-]+)(?: [A-Z ]+)?` \| .* \| `.*` \| (.*) \| (.*) \|$", text, re.MULTILINE):
        numbers = [int(re.match(r"[0-9]{2}\b", part)[0]) for part in checks.split("; ") if checks != "none"]
        forms = shown.pop(name) if name in shown else [PAGE] if replies == "the page" else re.findall("`(.*?)`", replies)
        each = [form.replace("PLACE", place) for form in forms for place in (places if "PLACE" in form else [""])]
        table[name] = [number for number in numbers if number != 70], each
    check("the forms of what is no command", shown, {})
    return table


def forms_of_questions(text):
    """The forms of the lines that each question is answered by, as docs/RULES.md has them: of a copy, a borrower,
    today, what has a barcode, the lists, and the till reports. PLACE is left as it is where nobody is told with it."""
    told = re.search(r"^A copy is shown in two lines, ([^(]*)", text, re.MULTILINE)[1]
    forms = {"copy": re.findall("`(.*?)`", told), **{name: OF_REPORTS[name] for name in ("till", "till-at")}}
    check("a copy, and how many forms its place has", len(forms["copy"]), 8)
    *forms["borrower"], today = re.findall("`(.*?)`", re.search(r"^A borrower is shown in two lines, ([^(]*)", text, re.MULTILINE)[1])
    forms["today"] = [today]
    places = [re.sub(" patron P NAME$", "", form) for form in forms["copy"][1:]]
    third, found = re.search(r"^A third line, (.*?)\. `find-barcode` (.*?)\.$", text,
                             re.MULTILINE | re.DOTALL).groups()
    labels, forms["find-barcode"] = re.findall("`(.*?)`", third), re.findall("`(.*?)`", found)
    check("how many lines tell a barcode", len(labels), 1)
    for name in ("copy", "borrower"):
        forms[name] += labels
    table = re.search(r"^\| list \| head \| row \|\n\|-.*\n((?:\|.*\n)+)", text, re.MULTILINE)[1]
    for name, head, rows_ in re.findall(r"^\| ([a-z-]+) \| (.*) \| (.*) \|$", table, re.MULTILINE):
        each = [form.replace("PLACE", place) for form in re.findall("`(.*?)`", f"{head} {rows_}") for place in (places if "PLACE" in form else [""])]
        forms[name] = [*(each or OF_REPORTS[name]), "end"]
    check("the questions that are told of", sorted(forms), sorted(QUESTIONS))
    return forms


def has_form(answer, form):
    """Whether a line has a form, in which capitals stand for what differs."""
    form = re.sub(r"\b(?!NAME|TEXT|BARCODE)[A-Z]+\b", "[0-9-]+", form.replace("MASK", "[oc]{7}"))
    return re.fullmatch(re.sub("NAME|TEXT", ".*", form).replace("BARCODE", "[A-Za-z0-9]{1,24}"), answer)


def none_is_left_out(lines, wanted):
    """Each check comes as the first that fails, and each form of a line of a reply; a question is answered by no
    others, but that a list goes on."""
    answers = {name: [line.answer for line in lines if line.words[0] == name] for name in wanted}
    for name, (numbers, forms) in wanted.items():
        check(f"checks of {name}", [it for it in numbers if f"refused {it}" not in answers[name]], [])
        told = [it for answer in answers[name] for it in answer.split("\n")]
        lacking = [form for form in forms if not any(has_form(it, form) for it in told)]
        check(f"replies of {name}", lacking, [])
        if name in QUESTIONS:
            check(f"other replies of {name}", [it for it in told if not any(has_form(it, form) for form in [*forms, "after N", "refused N"])], [])


def main():
    table, desks, patrons = commands(), lists_of(DESK), lists_of(PATRONS)
    check("the commands of the table", list(table), list(WORDS))
    none_is_left_out([line for lines in desks for _, line in lines], table)
    check("lists that go on", sum(re.search(r"\nafter \d+$", line.answer) is not None for lines in desks for _, line in lines), 7)
    check("the letters of the rules in plain Python", "".join(LETTERS), RULED_LETTERS)
    bare = {marked: unicodedata.normalize("NFD", marked)[0].lower() for marked in "".join(MARKED)}
    wrong = [marked for marked, plain in zip("".join(MARKED), "".join(LETTERS)) if bare[marked].isascii() and bare[marked] != plain]
    check(f"letters with marks stand for those without, {sum(map(str.isascii, bare.values()))} of them", wrong, [])
    own = {name: ([81] + [it for it in table[name][0] if it != 11], table[name][1]) for name in PATRONS_COMMANDS}
    none_is_left_out([line for lines in patrons for _, line in lines if line.patron], own)
    rules = Library()
    for key, words, line in GROUND:
        check(f"the rules at {key}", rules.handle(key, words), line)
    with tempfile.TemporaryDirectory() as folder:
        small = os.path.join(folder, "small.db")
        say(small, GROUND)
        part(compared, folder, small, rules, desks)
        part(compared, folder, small, rules, patrons)


if __name__ == "__main__":
    run_script(main)
