#!/bin/sh
# many.sh [LINES [SEED]]: ten million queries, or LINES of them, in one run of the program and then over
# every core by GNU parallel: the answers are the same byte for byte, and both times are printed.
# One line in is one line out, so a file may be cut between any two lines, and the answers put together
# in the order of the parts. The lines are made by a seeded generator: all three kinds of query, all
# resolutions and orientations, points inside the wedge and outside. Needs Python 3, GNU parallel and a
# gigabyte of room under target/.
set -eu
cd "$(dirname "$0")/.."
count=${1:-10000000}
seed=${2:-1}
# moreutils has another program of that name
if ! parallel --version 2>/dev/null </dev/null | grep -q '^GNU parallel'; then
    echo "many.sh: GNU parallel is missing; on Debian and Ubuntu: apt install parallel" >&2
    exit 2
fi
./wedge </dev/null
program=target/bin/wedge
room=target/many
mkdir -p "$room"
trap 'rm -rf "$room"' EXIT

python3 - "$count" "$seed" >"$room/lines" <<'END'
import random, struct, sys

count, draw = int(sys.argv[1]), random.Random(int(sys.argv[2])).getrandbits


def below(bound):
    return draw(80) % bound


def cell(rows):
    """A triple in bounds."""
    y = below(rows)
    odd = draw(1) if y else 0
    away = below(y - odd + 1)
    return -away, y, away + odd - y


def coordinate(rows):
    """Inside the wedge or past its edges by at most half its side."""
    return struct.pack(">d", (draw(53) / 2**52 - 0.5) * rows).hex().upper()


def line():
    orientation, resolution, kind = below(6), below(31), below(3)
    rows = 2**resolution
    if kind == 0:
        return f"P {orientation} {resolution} {below(rows * rows)}\n"
    if kind == 1:
        x, y, z = cell(rows)
        return f"C {orientation} {resolution} {x} {y} {z}\n"
    return f"R {orientation} {resolution} {coordinate(rows)} {coordinate(rows)}\n"


for start in range(0, count, 10000):
    sys.stdout.write("".join(line() for _ in range(min(10000, count - start))))
END

# timed NAME COMMAND: runs it, and prints how long it took beside the first
timed() {
    before=$(date +%s.%N)
    "$2"
    took=$(date +%s.%N | awk -v before="$before" '{ print $1 - before }')
    : "${first:=$took}"
    awk -v name="$1" -v took="$took" -v first="$first" -v count="$count" 'BEGIN {
        printf "%-20s %6.2f s, %5.2f million lines a second, %.2f of the speed of one run\n", name, took, count / took / 1e6, first / took }'
}
one() { "$program" <"$room/lines" >"$room/one"; }
# what comes through a pipe is cut by parallel itself
piped() { parallel --pipe --keep-order --block 10M "$program" <"$room/lines" >"$room/piped"; }
# a file is cut by place, a part for each core, and parallel only looks for the ends of lines
parts() { parallel --pipepart --arg-file "$room/lines" --keep-order --block -1 "$program" >"$room/parts"; }

echo "$count lines, $(wc -c <"$room/lines") bytes; $(nproc) cores, load before: $(cut -d ' ' -f 1-3 /proc/loadavg)"
timed "one run" one
timed "parallel --pipe" piped
timed "parallel --pipepart" parts
for other in piped parts; do
    cmp "$room/one" "$room/$other"
done
[ "$(wc -l <"$room/one")" -eq "$count" ]
echo "the three outputs are the same, a line for each: $(sha256sum <"$room/one" | cut -c 1-16)"
