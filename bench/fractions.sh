#!/usr/bin/env bash
# Times fractions beside the same loops in plain Rust, in nanoseconds per operation. Outside the gate: it proves and builds a
# program in a copy of the repository, and compiles fractions.rs by rustc.
set -euo pipefail
here=$(cd "$(dirname "$0")" && pwd)
work=$(mktemp -d)
trap 'rm -rf "$work"' EXIT
mkdir -p "$work/repo/crates/bench_fractions/src" "$work/repo/crates/bench_fractions/specs"
cp "$here/../HANDLES" "$work/repo/"
for crate in nf_rational nf_rational_laws nf_frac_def nf_frac_words nf_frac; do
    cp -r "$here/../crates/$crate" "$work/repo/crates/"
    grep "^$crate:" "$here/../crates.txt" >>"$work/repo/crates.txt"
done
echo 'bench_fractions: nf_frac' >>"$work/repo/crates.txt"
cp "$here/fractions.main.txt" "$work/repo/crates/bench_fractions/src/main.rt"
touch "$work/repo/crates/bench_fractions/specs/Lib.antt"
(cd "$work/repo/crates/bench_fractions" && rt run -- sum small >"$work/log" 2>&1) || { tail -n 20 "$work/log"; exit 1; }
rustc -C opt-level=3 -o "$work/plain" "$here/fractions.rs"
export LC_ALL=C # the times have a point, whatever the language
for operation in sum product quotient cmp; do
    for kind in small middle wide beyond; do
        for program in "$work/repo/crates/bench_fractions/out/bench_fractions" "$work/plain"; do
            least=$(for _ in 1 2 3; do { TIMEFORMAT=%U; time "$program" "$operation" "$kind" >/dev/null; } 2>&1; done | sort -n | head -n 1)
            awk -v s="$least" -v o="$operation" -v k="$kind" -v p="$(basename "$program")" 'BEGIN { printf "%-9s %-6s %-16s %7.1f ns\n", o, k, p, s * 1e9 / 10240000 }'
        done
    done
done
