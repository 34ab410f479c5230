#!/usr/bin/env bash
# Times the solution of one table beside the same elimination in plain Rust, in microseconds. The two tables, of 60 and of 150
# unknowns, are the equations of a pattern in a phase of a ladder of 14 rungs and of 36. Outside the gate: it proves and builds a
# program in a copy of the repository, and compiles tables.rs by rustc.
set -euo pipefail
here=$(cd "$(dirname "$0")" && pwd)
work=$(mktemp -d)
trap 'rm -rf "$work"' EXIT
turns=1000
bench=$work/repo/crates/bench_tables
mkdir -p "$bench/src" "$bench/specs" "$bench/proofs/filled"
cp "$here/../HANDLES" "$work/repo/"
for crate in nf_rational nf_rational_laws nf_model nf_model_laws nf_frac_def nf_frac_words nf_frac nf_text_def nf_net_def nf_linear_laws nf_linear nf_thin_def nf_thin_laws; do
    cp -r "$here/../crates/$crate" "$work/repo/crates/"
    grep "^$crate:" "$here/../crates.txt" >>"$work/repo/crates.txt"
done
echo 'bench_tables: nf_frac nf_linear' >>"$work/repo/crates.txt"
cp "$here/tables.main.txt" "$bench/src/main.rt"
touch "$bench/specs/Lib.antt"
cat >"$bench/proofs/filled/Invariants.antt" <<'END'
use Rattle.std.proofs.Common.{◌≡◌, length}
use Rattle.bench_tables.proofs.filled.Given as goal

abbrev pub invariant-loop-cell : goal.invariant-loop-cell
invariant-loop-cell l = length l.table ≡ l.size
END
(cd "$bench" && rt run -- 1 <"$here/tables.60.txt" >"$work/log" 2>&1) || { tail -n 20 "$work/log"; exit 1; }
rustc -C opt-level=3 -o "$work/plain" "$here/tables.rs"
export LC_ALL=C # the times have a point, whatever the language
for size in 60 150; do
    for program in "$bench/out/bench_tables" "$work/plain"; do
        test "$("$program" "$turns" <"$here/tables.$size.txt")" = "$turns"
        least=$(for _ in 1 2 3; do { TIMEFORMAT=%U; time "$program" "$turns" <"$here/tables.$size.txt" >/dev/null; } 2>&1; done | sort -n | head -n 1)
        awk -v s="$least" -v n="$size" -v t="$turns" -v p="$(basename "$program")" 'BEGIN { printf "%4d unknowns %-16s %7.1f us\n", n, p, s * 1e6 / t }'
    done
done
