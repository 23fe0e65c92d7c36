#!/usr/bin/env bash
# The library from C: the test program against the archive of the proved crates, as it is and with sanitizers on the C side. Its images are
# made by `hep asm` and hep-tools; the one after a run by the emulator of hep-tools, so that the archive is held to something else.
set -euo pipefail
cd "$(dirname "$0")/../.."
mkdir -p target/c/images
bash tools/archive.sh > target/c/archive.log 2>&1 || { cat target/c/archive.log; exit 1; }
cargo build --quiet --release --offline --manifest-path hep-tools/Cargo.toml
cargo build --quiet --release --offline --manifest-path hep-cli/Cargo.toml
tools=hep-tools/target/release hep=hep-cli/target/release/hep
for name in printed one two full waiting; do "$hep" asm -o "target/c/images/$name.bin" "tests/c/$name.hep"; done
"$hep" asm --hex tests/c/printed.hep | tr -d '\n' | "$tools/hep-emulator" --lines | cut -d ' ' -f 2 | "$hep" asm -o target/c/images/after.bin --image
"$tools/hep-generate" --refused target/c/images
build() { cc -std=c11 -Wall -Wextra -Werror -O1 -g "${@:2}" -I include -o "target/c/$1" tests/c/hep_test.c target/staticlib/libhep_c.a; }
build hep_test
target/c/hep_test target/c/images
build hep_test_sanitized -fsanitize=address,undefined -fno-sanitize-recover=all
target/c/hep_test_sanitized target/c/images
