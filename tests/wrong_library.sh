#!/usr/bin/env bash
# A wrong library is noticed: hep-trials is linked to the archive spoilt by tests/c/wrong.c, and must differ under each of its faults. So is
# `hep`, whose commands must end with status 3 where the two emulators differ. tools/archive.sh comes first.
set -euo pipefail
cd "$(dirname "$0")/.."
folder=$PWD/target/wrong
mkdir -p "$folder"
cp "${HEP_LIB_DIR:-target/staticlib}/libhep_c.a" "$folder/libhep_c.a"
for name in check sizes run batch fill; do objcopy --redefine-sym "hep_$name=true_$name" "$folder/libhep_c.a"; done
cc -std=c11 -Wall -Wextra -Werror -O1 -I include -c -o "$folder/wrong.o" tests/c/wrong.c
ar rs "$folder/libhep_c.a" "$folder/wrong.o"
HEP_LIB_DIR=$folder cargo build --quiet --release --offline --target-dir "$folder/build" --manifest-path hep-trials/Cargo.toml --bin hep-trials
trials() { WRONG=$1 "$folder/build/release/hep-trials" --save "$folder/cases" > "$folder/log" 2>&1; }
trials none
faults=$(sed -n 's/.*wrong("\([a-z_]*\)").*/\1/p' tests/c/wrong.c)
for fault in $faults; do
    status=0
    trials "$fault" || status=$?
    if [ $status != 1 ]; then echo "wrong library: $fault is not noticed"; exit 1; fi
    if [ "${1:-}" = -v ]; then echo "$fault: $(grep -m 1 'differs\|hep-trials:' "$folder/log"), $(grep -m 1 '^found' -A 1 "$folder/log" | tr '\n' ' ')"; fi
done
HEP_LIB_DIR=$folder cargo build --quiet --offline --target-dir "$folder/build" --manifest-path hep-cli/Cargo.toml
cargo run --quiet --release --offline --manifest-path hep-tools/Cargo.toml --bin hep-generate -- --refused "$folder/refused"
hep() { WRONG=$1 "$folder/build/debug/hep" "${@:2}" > "$folder/log" 2>&1; }
differing=0
differs() {
    local status=0
    hep "$@" || status=$?
    if [ $status != 3 ]; then echo "wrong library: hep ${*:2} ends with status $status under $1"; cat "$folder/log"; exit 1; fi
    differing=$((differing + 1))
}
frame=examples/frame-b.hep
hep none run --check "$frame"
for fault in rare_bit_of_the_image rare_letter_of_the_report a_step_miscounted a_try_missed; do differs "$fault" run --check "$frame"; done
for command in trace why timeline; do differs rare_bit_of_the_image "$command" "$frame"; done
echo "hep image" > "$folder/none.hep"
# shellcheck disable=SC2086
for command in "run --check" trace why timeline; do differs unlisted_items_not_counted $command --schedule 5 "$folder/none.hep"; done
differs left_over_accepted check --image "$folder/refused/R4.bin"
differs constant_as_a_cell run --image --schedule 1 "$folder/refused/R14.bin"
printf '\0\0' | cat - "$folder/refused/R6.bin" > "$folder/refused/R6.input"
differs refusal_one_off run --input "$folder/refused/R6.input"
echo "wrong library: $(wc -w <<< "$faults") faults, each noticed; hep ends with status 3 in $differing cases"
