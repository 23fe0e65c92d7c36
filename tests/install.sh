#!/usr/bin/env bash
# install.sh in a temporary prefix: both programs run there; a C program that only pkg-config leads to the library and a Rust program over a copy of
# hep-rust outside the repository give the same report; the man pages are well formed, and hep.5 shows a text that hep takes;
# every version is that of VERSION; --destdir puts the same files elsewhere, --uninstall leaves none, and wrong usage is told as such.
set -euo pipefail
cd "$(dirname "$0")/.."
work=$(mktemp -d)
trap 'rm -rf "$work"' EXIT
prefix=$work/hep
fail() { echo "install: $1"; exit 1; }
quietly() { "$@" > "$work/log" 2>&1 || { cat "$work/log"; exit 1; }; }
status() { "$@" > "$work/log" 2>&1 && echo 0 || echo $?; }

[ "$(status bash install.sh --help)" = 0 ] && grep -q "^usage: bash install.sh" "$work/log" || fail "--help"
for wrong in "--prefix" "--foo" "$prefix"; do
    [ "$(status bash install.sh "$wrong")" = 2 ] && grep -q "^usage:" "$work/log" || fail "$wrong is not wrong usage"
done
quietly bash install.sh --prefix "$prefix"
export PKG_CONFIG_PATH=$prefix/lib/pkgconfig PATH=$prefix/bin:$PATH

# C: the program of hep.3.
sed -n '/^    #include <hep.h>/,/^\.fi/{/^\.fi/d;p}' install/hep.3 > "$work/main.c"
# shellcheck disable=SC2046
(cd "$work" && cc -Wall -Wextra -Werror main.c $(pkg-config --cflags --libs hep) -o main)
"$work/main" < crates/hep_batch/stdin | diff - crates/hep_batch/stdout
hep_batch < crates/hep_batch/stdin | diff - crates/hep_batch/stdout
hep asm examples/frame-a.hep | "$work/main" | diff - examples/frame-a.out
hep run "$prefix/share/doc/hep/examples/frame-b.hep" | diff - examples/frame-b.out

# Rust: pkg-config alone leads to the archive.
mkdir -p "$work/rust/src" "$work/hep-rust"
cp -r hep-rust/Cargo.toml hep-rust/build.rs hep-rust/src "$work/hep-rust"
printf '[package]\nname = "r"\nversion = "0.1.0"\nedition = "2021"\n[dependencies]\nhep = { path = "../hep-rust" }\n[workspace]\n' > "$work/rust/Cargo.toml"
echo 'fn main() { print!("{}", hep::run(&hep::example_image(), &[1]).unwrap().report) }' > "$work/rust/src/main.rs"
(cd "$work/rust" && env -u HEP_LIB_DIR cargo run --quiet --offline) | diff - crates/hep_batch/stdout
(cd "$work/rust" && [ "$(status env -u HEP_LIB_DIR PKG_CONFIG_PATH= cargo build --offline)" != 0 ]) && grep -q "tools/archive.sh" "$work/log" || fail "an archive that is missing has no cure"

# Man pages: each the version, none a warning.
version=$(<VERSION)
for page in "$prefix"/share/man/man*/*; do
    head -n 1 "$page" | grep -q "\"hep $version\"\|^\.so man3/hep.3$" || fail "$page has another version than $version"
    if ! command -v groff > /dev/null; then echo "install: no groff, so the layout of $page is not checked"; continue; fi
    warnings=$(cd "$prefix/share/man" && groff -man -Tutf8 -ww -z "$page" 2>&1)
    [ -z "$warnings" ] || fail "$page: $warnings"
done
sed -n '/^    hep input/,/^\.fi/{/^\.fi/d;p}' install/hep.5 | hep asm | hep_batch | diff - <(echo "1 1 -- ----- E2 W0 T0 I0 S0"; echo "E2 W0 T0 I0 S0 CF0")
[ "$(pkg-config --modversion hep)" = "$version" ] || fail "hep.pc has another version than $version"
hep --version | grep -qF "$version" || fail "hep --version has another version than $version"

bash -c ". $prefix/share/bash-completion/completions/hep && complete -p hep" > /dev/null || fail "no completion of hep"

# Elsewhere, and away again.
quietly bash install.sh --prefix="$prefix" --destdir "$work/package"
diff -r "$prefix" "$work/package$prefix"
count=$(find "$prefix" -type f | wc -l)
touch "$prefix/bin/other"
quietly bash install.sh --prefix "$prefix" --uninstall
[ "$(find "$prefix" -type f)" = "$prefix/bin/other" ] || fail "--uninstall: $(find "$prefix" -type f)"
echo "install: $count files, both programs, a C and a Rust program run"
