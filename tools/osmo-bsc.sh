#!/usr/bin/env bash
# Runs `cbc serve` against a real osmo-bsc, and compares each board with what the rules say.
#
#   tools/osmo-bsc.sh [PROGRAM [CASE..]]
#
# PROGRAM is the compiled cbc, crates/cbc/out/cbc where none is named; `rt run` in crates/cbc makes it. osmo-bsc has to be
# installed (Debian: apt-get install osmo-bsc), and python3. Nothing but the loopback address is used. The BSC has cells
# (100,7) and (100,8), which have a cell broadcast channel, and (100,9), which has none. No radio is needed: without one nothing is
# broadcast, so nothing is deleted. First a warning is issued, updated and stopped, and a BSC is restarted. Then come the cases of
# tools/osmo_links, in which links are lost; where cases are named, these alone. Status 0: all of it is as expected.
set -u
PROGRAM=$(realpath "${1:-crates/cbc/out/cbc}")
LINKS=$(dirname "$0")/osmo_links
[ $# -gt 0 ] && shift
[ $# -gt 0 ] && exec "$LINKS" --program "$PROGRAM" "$@"
# below the ports that Linux hands out
PORT=26000
VTY=127.0.1.1
WORK=$(mktemp -d)
FAULTS=0
BSC=

# starts the BSC, and waits until its link is up
start_bsc() {
    local i before
    before=$(grep -c ' is up' "$WORK/errors")
    (ulimit -f 102400; cd "$WORK" && exec osmo-bsc -c osmo-bsc.cfg > osmo-bsc.log 2>&1) &
    BSC=$!
    for i in $(seq 1 300); do
        [ "$(grep -c ' is up' "$WORK/errors")" -gt "$before" ] && return
        sleep 0.1
    done
    echo "  no link is up after 30 s"
    FAULTS=$((FAULTS + 1))
}

# ends the BSC at once, as a power cut does
end_bsc() {
    kill -KILL "$BSC" 2> /dev/null
    wait "$BSC" 2> /dev/null
    BSC=
}

finish() {
    [ -n "$BSC" ] && end_bsc
    [ -n "${CENTRE:-}" ] && kill "$CENTRE" 2> /dev/null
    rm -rf "$WORK"
}
trap finish EXIT

# the messages of a cell, by the BSC's own table: message identifier and serial number
shown() {
    python3 - "$VTY" "$1" <<'X'
import re, socket, sys, time
s = socket.create_connection((sys.argv[1], 4242), 5)
s.settimeout(0.5)
def read():
    text = b""
    while True:
        try:
            more = s.recv(65536)
        except socket.timeout:
            break
        if not more:
            break
        text += more
        if re.search(rb"(> |# )$", text):
            break
    return text.decode("latin1")
read()
s.sendall(b"terminal length 0\n"); read()
s.sendall(b"show bts " + sys.argv[2].encode() + b" smscb basic\n")
for line in read().replace("\r", "").split("\n"):
    row = re.match(r"\s*([0-9a-fA-F]{4})\s*\|\s*([0-9a-fA-F]{4})\s*\|", line)
    if row:
        print(int(row.group(1), 16), row.group(2).upper())
X
}

# types a line, and answers its answer; without one nothing can be compared any more
ask() {
    printf '%s\n' "$1" >&4
    IFS= read -r -t 60 ANSWER <&3 && return
    echo "  $1: no answer"
    cat "$WORK/errors"
    exit 1
}

# types a line that is answered so
type_line() {
    ask "$1"
    printf '  %-52s -> %s\n' "$1" "$ANSWER"
}

# waits until the line is answered so
expect() {
    local i
    for i in $(seq 1 150); do
        ask "$1"
        if [ "$ANSWER" = "$2" ]; then
            printf '  %-52s -> %s\n' "$1" "$ANSWER"
            return
        fi
        sleep 0.1
    done
    printf '  %-52s -> %s\n  expected: %s\n' "$1" "$ANSWER" "$2"
    FAULTS=$((FAULTS + 1))
}

# compares the keys that the centre knows to be on air with the BSC's own table
same_tables() {
    local known= own bts line
    printf 'table 1\n' >&4
    while IFS= read -r -t 60 line <&3; do
        case $line in
            keys*) break ;;
            *onair) known+="$(cut -d' ' -f2-4 <<< "$line")"$'\n' ;;
        esac
    done
    known=$(printf '%s' "$known" | sort)
    own=$(for bts in 0 1 2; do shown $bts | sed "s/^/$((bts + 7)) /"; done | sort)
    if [ "$known" = "$own" ]; then
        printf '  the BSC has the same: %s\n' "$(echo "$own" | paste -sd, -)"
    else
        printf '  the centre knows: %s\n  the BSC has: %s\n' "$(echo "$known" | paste -sd, -)" "$(echo "$own" | paste -sd, -)"
        FAULTS=$((FAULTS + 1))
    fi
}

board() { echo "awaited $1 onair $2 failed $3 left $4 broadcasts 0"; }

"$LINKS" --config "$VTY" "$PORT" > "$WORK/osmo-bsc.cfg"
coproc CBC { exec "$PROGRAM" serve --links 1 --base "$PORT" 2> "$WORK/errors"; }
CENTRE=$CBC_PID
# these stay where the centre has ended
exec 3<&"${CBC[0]}" 4>&"${CBC[1]}"

echo "link up"
type_line "bsc add 1"
for ci in 7 8 9; do type_line "cell add 100 $ci 1"; done
type_line "area add Coast"
type_line "area put Coast 100"
start_bsc

echo "a warning on air in two cells, and failed in the third, which has no cell broadcast channel"
type_line "issue 4370 3 15 0 30 d4f29c0e Coast"
expect "board 1" "$(board 0 2 1 0)"
same_tables

echo "the warning is updated"
type_line "update 1 15 0 30 d4f29c0f"
expect "board 1" "$(board 0 2 1 0)"
same_tables

echo "the warning is stopped, and forgotten"
type_line "stop 1"
expect "board 1" "$(board 0 0 0 0)"
same_tables
expect "pending 1" "groups 0"
type_line "forget 1"

echo "the link is lost while an order is in flight, and the BSC comes back"
kill -STOP "$BSC"
type_line "issue 4371 3 15 0 30 d4f29c0e Coast"
sleep 1
type_line "board 2"
end_bsc
start_bsc
expect "board 2" "$(board 0 2 1 0)"
same_tables

echo "the BSC is restarted"
end_bsc
start_bsc
expect "board 2" "$(board 0 2 1 0)"
same_tables

echo "an emergency warning is on air in all three cells"
type_line "alert 4354 1 1 1408 0 - Coast"
expect "board 3" "$(board 0 3 0 0)"

echo "another one is refused: a cell has one emergency message"
type_line "alert 4353 1 1 896 0 - Coast"
expect "board 4" "$(board 0 0 3 0)"
type_line "stop 4"
expect "board 4" "$(board 0 0 0 0)"

echo "the emergency warning is updated"
type_line "realert 3 1 384 0 -"
expect "pending 1" "groups 0"
expect "board 3" "$(board 0 3 0 0)"

echo "the BSC is restarted, and says so of messages of text alone"
end_bsc
start_bsc
expect "board 2" "$(board 0 2 1 0)"
expect "board 3" "$(board 0 3 0 0)"

echo "the emergency warning is stopped, which the BSC has no more"
type_line "stop 3"
expect "board 3" "$(board 0 0 0 0)"
expect "pending 1" "groups 0"

echo "1,000 cells in one order, of which the BSC knows three"
for ci in $(seq 1000 1996); do printf 'cell add 100 %d 1\n' "$ci"; done >&4
for ci in $(seq 1000 1996); do IFS= read -r -t 60 ANSWER <&3; done
expect "board 2" "$(board 0 2 998 0)"
type_line "issue 4372 3 15 0 30 d4f29c0e Coast"
expect "board 5" "$(board 0 2 998 0)"
same_tables

printf 'quit\n' >&4
IFS= read -r -t 60 ANSWER <&3
echo "$ANSWER"
wait "$CENTRE" 2> /dev/null
end_bsc
echo "standard error of the centre:"
cat "$WORK/errors"
echo "faults: $FAULTS"
"$LINKS" --program "$PROGRAM" && [ "$FAULTS" = 0 ]
