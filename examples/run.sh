#!/usr/bin/env bash
# Shows the machine: document 01's printed case, a handover between two processes, then the frame check beside each of two neighbours, with the
# meaning in words, and a picture.
# The reports must be those of examples/, and house one's table, taken from the image after the run, the same beside both neighbours.
#
#     bash examples/run.sh                by programs that are built without proof, in a minute or two
#     bash examples/run.sh --proved       by the proved programs; proves first what isn't
set -euo pipefail
cd "$(dirname "$0")/.."
build_unproved() {
    bash tools/needs.sh
    echo "Building the batch program, the library and the program hep without proof: about a minute of processor, 1 GB of memory."
    python3 tools/native.py hep_batch
    python3 tools/native.py hep_c
    HEP_LIB_DIR=$PWD/target/native CARGO_PROFILE_DEV_OPT_LEVEL=0 cargo build --quiet --offline --manifest-path hep-cli/Cargo.toml --target-dir target/native/cargo
    batch=target/native/hep_batch hep=target/native/cargo/debug/hep
}
build_proved() {
    bash tools/proved.sh
    env -u HEP_LIB_DIR cargo build --quiet --release --offline --manifest-path hep-cli/Cargo.toml
    batch=target/bin/hep_batch hep=hep-cli/target/release/hep
}
# A report, and each of its lines in words.
in_words() {
    awk '
        function number(place) { return substr($place, 2) }
        /^[1-7] / {
            items = number(5) + number(6) + number(7) + number(8)
            trap = ($3 == "--" ? "not trapped" : "trapped at PC " $4 ", kind " $3 ($3 == "14" ? ", a protection violation" : ""))
            printf "%-38s task %d: %d %s, %d live, %s\n", $0, $1, items, (items == 1 ? "item" : "items"), $2, trap
            next
        }
        {
            printf "%-38s all: %d items executed, %d waved (had to wait), %d trapped, %d idle; ", $0, number(1), number(2), number(3), number(4)
            printf "%d tries; flag %d\n", number(5), substr($6, 3)
        }'
}
# House one's table: utilisations in units of 10^-16 at 32 to 37, the worst at 40, how many are too much at 41.
spans() {
    awk '
        $1 <= 37 { printf "    span %d: %.3f of what it bears%s\n", $1 - 31, $2 / 1e16, ($2 > 1e16 ? ", too much" : "") }
        $1 == 40 { worst = $2 / 1e16 }
        $1 == 41 { printf "    the judge says: the worst %.3f; too much: %d\n", worst, $2 }'
}

case "${1:-}" in
    "") build_unproved ;;
    --proved) build_proved ;;
    *) echo "usage: bash examples/run.sh [--proved]" >&2; exit 2 ;;
esac
after=$(mktemp)
trap 'rm -f "$after"' EXIT
declare -A beside=(
    [a]="house two, task 2, which checks four spans for shear"
    [b]="house three, task 5, which leaves ten processes waiting for ever and then stores past its window"
)
echo "The printed case of document 01, one step of one task:"
"$batch" < crates/hep_batch/stdin | tee "$after" | in_words
diff "$after" crates/hep_batch/stdout
echo "Two processes hand three numbers over through one data word; who finds it in the other state waits in the SFU queue:"
"$hep" run examples/handover.hep | tee "$after" | in_words
diff "$after" examples/handover.out
for neighbour in a b; do
    text=examples/frame-$neighbour.hep report=examples/frame-$neighbour.out
    echo "House one's frame check, task 1, beside ${beside[$neighbour]}:"
    "$hep" asm "$text" | "$batch" | diff - "$report"
    in_words < "$report"
    "$hep" run -o "$after" "$text" | diff - "$report"
    "$hep" share --data 32..41 1 "$after" | diff - examples/house-one.table
done
echo "House one's spans, the same beside both:"
spans < examples/house-one.table
"$hep" timeline -o target/frame-b.svg examples/frame-b.hep
echo "A picture of the second, to open in a browser: target/frame-b.svg"
if [ "${1:-}" = --proved ]; then
    echo "All of it by the proved programs."
else
    echo "Nothing of this was proved yet. bash .ci/run proves it, and holds what you just ran to what it proved:"
    echo "$(python3 tools/progress.py --forecast --gate)."
fi
