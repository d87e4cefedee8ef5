#!/usr/bin/env bash
# Measures how long `rowplan session` takes for so many events of 200 sessions over the tables of examples/sales: each session logs in,
# declares a cursor, and then asks, fetches and sets and resets its role in turn. In the second script every session logs out after
# each 100 events of it and logs in again: its memory shows if anything is kept of a session that ended. Then one text is asked again
# and again; 64 texts in turn, whose plans are kept, and 65, which are planned each time; and 64 of the greatest queries, twice.
# usage: bench/sessions.sh [EVENTS [RUNS]], with 100000 events and 3 runs where nothing is said.
# `rt` must be on the path. The program is proved and built first, if it is not yet.
set -eu
events=${1:-100000}
runs=${2:-3}
. "$(dirname "$0")/measure.sh"
build
sales=$top/examples/sales

# A script of so many events. What does event number i of a session: i modulo 4.
script() {
    awk -v n="$1" -v logs_out="$2" 'BEGIN {
        sessions = 200; next_number = 0
        for (k = 0; k < sessions; k++) { print "login " (k % 2 ? "alice" : "bob"); number[k] = next_number++; print "declare " number[k] " c SELECT id FROM deal" }
        for (i = 2 * sessions; i < n; i++) {
            k = i % sessions; turn = int(i / sessions)
            if (logs_out && turn % 100 == 99) { print "logout " number[k]; print "login " (k % 2 ? "alice" : "bob"); number[k] = next_number++; print "declare " number[k] " c SELECT id FROM deal"; i += 2; continue }
            if (turn % 4 == 0) print "ask " number[k] " SELECT d.id, r.name FROM deal d JOIN region r ON d.region = r.id"
            if (turn % 4 == 1) print "fetch " number[k] " c 1"
            if (turn % 4 == 2) print "setrole " number[k] " sales"
            if (turn % 4 == 3) print "resetrole " number[k]
        }
    }'
}
script 400 0 > "$work/logins"
script "$events" 0 > "$work/open"
script "$events" 1 > "$work/closing"
yes 'ask 0 SELECT d.id, r.name FROM deal d JOIN region r ON d.region = r.id' | head -n "$((events / 10))" | sed '1i login alice' > "$work/asks"
# So many asks of so many texts in turn.
in_turn() {
    awk -v n="$1" -v texts="$2" 'BEGIN {
        print "login alice"
        for (i = 0; i < n; i++) print "ask 0 SELECT d.id, r.name FROM deal d JOIN region r ON d.region = r.id WHERE d.id <> " 100 + i % texts
    }'
}
in_turn "$((events / 10))" 64 > "$work/turns_64"
in_turn "$((events / 10))" 65 > "$work/turns_65"

# So many texts of eight tables and 64 conjuncts, asked twice.
awk -v texts=64 'BEGIN {
    print "login alice"
    for (i = 0; i < 2 * texts; i++) {
        text = "SELECT a1.id FROM region a1"
        for (k = 2; k <= 8; k++) text = text ", region a" k
        text = text " WHERE a1.id <> " 100 + i % texts
        for (k = 2; k <= 8; k++) text = text " AND a" k - 1 ".id = a" k ".id"
        for (k = 0; k < 56; k++) text = text " AND a" k % 8 + 1 ".id <> " 200 + k
        print "ask 0 " text
    }
}' > "$work/greatest"
head -n 2 "$work/greatest" > "$work/one_of_the_greatest"
for run in $(seq "$runs"); do
    for what in logins open closing asks turns_64 turns_65 one_of_the_greatest greatest; do
        measure "$what, $(wc -l < "$work/$what") events" "$rowplan" session --schema "$sales/schema.sql" --dir "$sales" "$work/$what"
    done
done
