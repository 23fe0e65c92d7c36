#!/usr/bin/env bash
# The proved library timed beside the emulator of hep-tools and beside a plain copy, all built for release, in one run. What is measured is
# the archives of the proved crates. It fails where a function that an attempt is to have inlined is still called: see `inlined`. How much larger each
# may still grow is told by the compiler's remarks on the same module, built without proof.
#
#     bash tests/bench.sh [--write]    --write: the tables go to docs/BENCHMARKS.md, below its line "## Measured"
set -euo pipefail
cd "$(dirname "$0")/.."
inlined="operation_decide::decide run_schedule::attempt run_schedule::Carried::settle"
# A function that is inlined at every call has no symbol of its own in the archive.
check_inlined() {
    local function symbols
    symbols=$(nm "$1")
    if ! grep -q :: <<< "$symbols"; then echo "bench: $1 names no function of a crate"; exit 1; fi
    for function in $inlined; do
        if ! grep -q "fn ${function##*::}(" crates/"${function%%::*}"/src/*.rt; then echo "bench: there is no $function"; exit 1; fi
        if grep -q " $function\(\.\|$\)" <<< "$symbols"; then echo "bench: $function is not inlined"; exit 1; fi
    done
}
mkdir -p target/staticlib
for crate in hep_c benchmark; do
    (cd "crates/$crate" && rt lib) > target/staticlib.log 2>&1 || { cat target/staticlib.log; exit 1; }
    cp "crates/$crate/out/lib$crate.a" target/staticlib
done
check_inlined target/staticlib/libhep_c.a
python3 tools/native.py hep_c > target/native.log 2>&1 || { cat target/native.log; exit 1; }
# shellcheck disable=SC2086
units=$(python3 tools/inline.py --left target/native/libhep_c.ll $inlined)
cargo build --quiet --release --offline --manifest-path hep-trials/Cargo.toml --bin hep-bench
measured() {
    echo "$(date +%F), commit $(git rev-parse --short HEAD), $(lscpu | sed -n 's/^Model name: *//p'), $(nproc) processors, kit $(rt version | cut -d ' ' -f 1), load $(cut -d ' ' -f 1-2 /proc/loadavg) (1 and 5 minutes)."
    echo
    hep-trials/target/release/hep-bench
    echo
    hep-trials/target/release/hep-bench --instructions
    printf '\n%s\n' "$units"
}
if [ "${1:-}" = --write ]; then
    tables=$(measured)
    { sed '/^## Measured$/q' docs/BENCHMARKS.md; printf '\n%s\n' "$tables"; } > target/BENCHMARKS.md
    mv target/BENCHMARKS.md docs/BENCHMARKS.md
else
    measured
fi
