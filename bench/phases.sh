#!/usr/bin/env bash
# Times the first phase of generated ladders: the search for its thin flow, in milliseconds, and the listing of patterns, in microseconds
# a pattern, with the most memory that it takes. Outside the gate: it proves and builds a program in a copy of the repository.
set -euo pipefail
here=$(cd "$(dirname "$0")" && pwd)
work=$(mktemp -d)
trap 'rm -rf "$work"' EXIT
bench=$work/repo/crates/bench_phases
mkdir -p "$bench/src" "$bench/specs" "$bench/proofs"
cp "$here/../HANDLES" "$work/repo/"
# The crates above the search are left out.
awk '{
    above = 0
    for (i = 1; i <= NF; i++) { name = $i; sub(":", "", name); if (name ~ /^(nf_phase|nf_forever|nf_resume|nf_app_answers|nf_app|nfot)$/) above = 1 }
    if (!above) print
}' "$here/../crates.txt" >"$work/repo/crates.txt"
for crate in $(sed -n 's/^\([a-z_]*\):.*/\1/p' "$work/repo/crates.txt"); do
    cp -r "$here/../crates/$crate" "$work/repo/crates/"
done
echo 'bench_phases: nf_rational nf_frac_def nf_model nf_net_def nf_thin_def nf_edge nf_frac nf_graph nf_net_file nf_net nf_pattern nf_sets nf_thin_guess nf_thin_rank nf_thin' >>"$work/repo/crates.txt"
cp "$here/phases/main.txt" "$bench/src/main.rt"
cp "$here/phases/phases.txt" "$bench/src/phases.rt"
cp -r "$here/phases/proofs" "$bench/proofs/phases"
find "$bench/proofs/phases" -name '*.txt' -exec bash -c 'mv "$1" "${1%.txt}.antt"' _ {} \;
touch "$bench/specs/Lib.antt" "$bench/proofs/Lib.antt"
program=$bench/out/bench_phases
# The ladder of a number: two rails of so many nodes from s to t, and a rung from each upper node to the lower one beside it; transit times
# from 1 to 5, capacities from 1 to 4 and inflows from 1 to 6 are drawn by x -> 75 x + 74 modulo 65537.
ladder() {
    awk -v x="$1" -v rungs="$2" '
        function draw(most) { x = (75 * x + 74) % 65537; return 1 + x % most }
        function link(name, tail, head,   transit) { transit = draw(5); print "link", name, tail, head, transit, draw(4) }
        BEGIN {
            print "nfot 1\nsource s\nsink t"
            link("su", "s", "u1"); link("sl", "s", "l1")
            for (i = 1; i < rungs; i++) { link("u" i, "u" i, "u" (i + 1)); link("l" i, "l" i, "l" (i + 1)) }
            for (i = 1; i <= rungs; i++) link("r" i, "u" i, "l" i)
            link("ut", "u" rungs, "t"); link("lt", "l" rungs, "t")
            print "inflow 0", draw(6); print "inflow 10", draw(6); print "inflow 20 0\nend"
        }'
}
ladder 7 5 >"$work/ladder"
(cd "$bench" && rt run -- search "$work/ladder" 1 >"$work/log" 2>&1) || { tail -n 20 "$work/log"; exit 1; }
export LC_ALL=C # the times have a point, whatever the language
least_of() {
    for _ in 1 2 3; do { TIMEFORMAT=%U; time "$program" "$1" "$work/ladder" "$2" >/dev/null; } 2>&1; done | sort -n | head -n 1
}
while read -r number rungs turns; do
    ladder "$number" "$rungs" >"$work/ladder"
    awk -v l="$number/$rungs" -v p="$("$program" search "$work/ladder" 1)" -v s="$(least_of search "$turns")" -v t="$turns" \
        'BEGIN { printf "ladder %-5s search, place %5d  %8.2f ms\n", l, p, s * 1000 / t }'
done <<<'7 5 20
3 8 500
7 10 10'
for rungs in 10 20; do
    ladder 7 "$rungs" >"$work/ladder"
    memory=$(/usr/bin/time -f %M "$program" list "$work/ladder" 100000 2>&1 >/dev/null)
    awk -v r="$rungs" -v s="$(least_of list 100000)" -v m="$memory" 'BEGIN { printf "ladder 7/%-3d 100000 patterns  %8.2f us each  %6.1f MB\n", r, s * 10, m / 1024 }'
done
