#!/usr/bin/env bash
# Times the reading of network files of 1 MiB, in milliseconds a file, and tells the most memory that it takes. Outside the gate: it
# proves and builds a program in a copy of the repository, over what the checks in this one kept.
set -euo pipefail
here=$(cd "$(dirname "$0")" && pwd)
work=$(mktemp -d)
trap 'rm -rf "$work"' EXIT
mkdir -p "$work/repo/crates/bench_networks/src" "$work/repo/crates/bench_networks/specs"
cp "$here/../HANDLES" "$work/repo/"
for crate in nf_rational nf_rational_laws nf_model nf_model_laws nf_frac_def nf_frac_words nf_frac nf_text_def nf_text nf_edge nf_graph nf_net_def nf_net_laws nf_net_file nf_net; do
    cp -r "$here/../crates/$crate" "$work/repo/crates/"
    grep "^$crate:" "$here/../crates.txt" >>"$work/repo/crates.txt"
done
echo 'bench_networks: nf_edge nf_net_file nf_net' >>"$work/repo/crates.txt"
cp "$here/networks.main.txt" "$work/repo/crates/bench_networks/src/main.rt"
touch "$work/repo/crates/bench_networks/specs/Lib.antt"
program=$work/repo/crates/bench_networks/out/bench_networks
# 64 nodes, 200 links and 200 inflow lines, names and numbers at their limits, and then comments, empty lines, or lines of words, which
# are refused, up to 1,048,576 bytes
network() {
    awk -v fill="$1" '
        function put(line) { size += length(line) + 1; print line }
        function times(text, count,   all) { all = ""; while (count-- > 0) all = all text; return all }
        function node(number) { return sprintf("node_%s%02d", times("n", 17), number) }
        function pad(line) { return line " " times("#", 999 - length(line)) }
        BEGIN {
            wide = "170141183460469231731687303715884105727"
            put("nfot 2"); put("source " node(0)); put("sink " node(1))
            for (link = 0; link < 200; link++)
                put(pad(sprintf("link link_%s%03d %s %s %s%03d %s/%s6", times("l", 16), link, node(link % 63), node(link % 63 + 1), times("1", 33), link, wide, substr(wide, 1, 38))))
            for (piece = 0; piece < 200; piece++)
                put(pad(sprintf("inflow %s%03d/1 %s/%s6", times("1", 35), piece, wide, substr(wide, 1, 38))))
            line = fill == "comments" ? times("#", 1000) : fill == "words" ? times("a ", 499) "a" : ""
            while (size + length(line) + 1 + 4 <= 1048576) put(line)
            put("end")
        }'
}
(cd "$work/repo/crates/bench_networks" && rt run -- none 0 >"$work/log" 2>&1) || { tail -n 20 "$work/log"; exit 1; }
export LC_ALL=C # the times have a point, whatever the language
for fill in comments empty words; do
    network "$fill" >"$work/network"
    answer=$("$program" "$work/network" 1)
    least=$(for _ in 1 2 3; do { TIMEFORMAT=%U; time "$program" "$work/network" 20 >/dev/null; } 2>&1; done | sort -n | head -n 1)
    memory=$(/usr/bin/time -f %M "$program" "$work/network" 1 2>&1 >/dev/null)
    awk -v f="$fill" -v s="$least" -v m="$memory" -v a="$answer" -v b="$(wc -c <"$work/network")" 'BEGIN { printf "%-9s %d bytes  %6.1f ms  %6.1f MB  %s\n", f, b, s * 1000 / 20, m / 1024, a }'
done
