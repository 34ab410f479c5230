#!/usr/bin/env bash
# Times whole runs of `nfot solve` on generated ladders and grids, in milliseconds: of three rounds of five runs the quickest, a run of it, with
# the start of the process.
# Outside the gate. With another program that takes the same words, and more words for it, that one is timed beside it:
#     bench/runs.sh other --its-option
set -euo pipefail
here=$(cd "$(dirname "$0")" && pwd)
work=$(mktemp -d)
trap 'rm -rf "$work"' EXIT
program=$here/../crates/nfot/out/nfot
[ -x "$program" ] || (cd "$here/../crates/nfot" && rt run >"$work/log" 2>&1) || [ -x "$program" ] || { tail -n 20 "$work/log"; exit 1; }
export LC_ALL=C # the times have a point, whatever the language
# Two rails of so many nodes from s to t, and a rung from each upper node to the lower one beside it; or a square of nodes, each with a link
# to the right and one down. Transit times from 1 to 5, capacities from 1 to 4 and inflows from 1 to 6 are drawn by x -> 75 x + 74
# modulo 65537.
network() {
    awk -v kind="$1" -v x="$2" -v size="$3" '
        function draw(most) { x = (75 * x + 74) % 65537; return 1 + x % most }
        function link(name, tail, head,   transit) { transit = draw(5); print "link", name, tail, head, transit, draw(4) }
        function ladder(   i) {
            link("su", "s", "u1"); link("sl", "s", "l1")
            for (i = 1; i < size; i++) { link("u" i, "u" i, "u" (i + 1)); link("l" i, "l" i, "l" (i + 1)) }
            for (i = 1; i <= size; i++) link("r" i, "u" i, "l" i)
            link("ut", "u" size, "t"); link("lt", "l" size, "t")
        }
        function at(i, j) { return i + j == 0 ? "s" : i + j == 2 * size - 2 ? "t" : "v" i "_" j }
        function grid(   i, j) {
            for (i = 0; i < size; i++)
                for (j = 0; j < size; j++) {
                    if (j + 1 < size) link("r" i "_" j, at(i, j), at(i, j + 1))
                    if (i + 1 < size) link("d" i "_" j, at(i, j), at(i + 1, j))
                }
        }
        BEGIN {
            print "nfot 1\nsource s\nsink t"
            if (kind == "ladder") ladder(); else grid()
            print "inflow 0", draw(6); print "inflow 10", draw(6); print "inflow 20 0\nend"
        }'
}
least_of() {
    for _ in 1 2 3; do { TIMEFORMAT=%R; time for _ in 1 2 3 4 5; do "$@" >/dev/null 2>&1 || true; done; } 2>&1; done | sort -n | head -n 1
}
while read -r kind number size; do
    network "$kind" "$number" "$size" >"$work/network"
    for horizon in 30 100; do
        status=0
        "$program" solve "$work/network" --horizon "$horizon" >/dev/null 2>&1 || status=$?
        ours=$(least_of "$program" solve "$work/network" --horizon "$horizon")
        other=
        [ $# -eq 0 ] || other=$(least_of "$1" solve "$work/network" --horizon "$horizon" "${@:2}")
        awk -v k="$kind $number/$size" -v h="$horizon" -v c="$status" -v a="$ours" -v b="$other" \
            'BEGIN { printf "%-14s horizon %3d  status %d  %8.1f", k, h, c, a * 200; if (b != "") printf "  %8.1f", b * 200; print "" }'
    done
done <<'E2'
ladder 7 5
ladder 7 8
ladder 7 10
ladder 7 15
ladder 7 20
ladder 3 8
ladder 3 10
ladder 3 15
ladder 3 20
grid 1 8
grid 2 8
grid 3 8
E2
