# Sourced by the other scripts: the top of the repository, a folder to work in, the program, and how a command is measured.
top=$(cd "$(dirname "$0")/.." && pwd)
work=$(mktemp -d)
trap 'rm -rf "$work"' EXIT
rowplan=$top/crates/rowplan/out/rowplan

# Proves and builds the program, if it is not yet.
build() {
    (cd "$top/crates/rowplan" && rt run -- query --schema "$top/examples/deals/schema.sql" \
        --dir "$top/examples/deals" --role alice 'SELECT id FROM deal') > "$work/built"
}

# True for a status that a measured command may end with; 4 is a denial.
is_expected() {
    [ "$1" = 4 ]
}

# Runs a command, and reports its wall time, processor time and greatest memory.
measure() {
    label=$1
    shift
    if [ -x /usr/bin/time ]; then
        /usr/bin/time -f '%e %U %S %M' -o "$work/time" "$@" > "$work/out" || is_expected $?
        read -r wall user sys peak < <(tail -n 1 "$work/time")
    else
        local from to
        from=$(date +%s.%N)
        "$@" > "$work/out" &
        peak=0
        while kill -0 $! 2> /dev/null; do
            now=$(awk '/VmHWM/ { print $2 }' "/proc/$!/status" 2> /dev/null || true)
            peak=${now:-$peak}
            sleep 0.01
        done
        wait $! || is_expected $?
        to=$(date +%s.%N)
        wall=$(awk -v a="$from" -v b="$to" 'BEGIN { printf "%.2f", b - a }')
        user=- sys=-
    fi
    printf '%-34s %8s s wall %8s s user %8s s sys %8d KB at most\n' "$label" "$wall" "$user" "$sys" "$peak"
}

# The processor time of a command, in seconds. Status 4 is a denial.
processor() {
    local TIMEFORMAT='%3U %3S'
    { time "$@" > "$work/out" 2> "$work/errors"; } 2> "$work/time" || [ $? = 4 ]
    tail -n 1 "$work/time" | awk '{ printf "%.3f\n", $1 + $2 }'
}

# What sqlite3 is told so that it has the tables of CSV files in the folder, each given by its name and its columns, and writes CSV.
sqlite_tables() {
    local table
    for table in "$@"; do
        echo "CREATE TABLE ${table%% *} (${table#* });"
        echo ".import --csv --skip 1 $work/${table%% *}.csv ${table%% *}"
    done
    printf '%s\n' '.mode csv' '.separator , "\n"' '.headers on'
}

# So many rows of a table `deal`, with a header: a number, one of so many owners, one of 50 regions, an amount that is null in one
# row of eight, and a small number.
deal_rows() {
    awk -v n="$1" -v owners="$2" 'BEGIN {
        print "id,owner,region,amount,parts"
        for (i = 1; i <= n; i++) {
            amount = (i % 8 == 0) ? "\\N" : (i * 7919) % 1000003 - 500000
            printf "%d,owner-%d,%d,%s,%d\n", i, i % owners, i % 50, amount, i % 13
        }
    }'
}
