#!/usr/bin/env bash
# What is missing to build, prove and test, all at once and each with where it comes from; exit 2 if something is. With `gate` also what only
# the tests use.
#
#     bash tools/needs.sh [gate]
set -euo pipefail
cd "$(dirname "$0")/.."
kit="rattle-kit-13f logic dac8208d650f15bf"
rust=$(sed -n 's/^rust-version = "\(.*\)"$/\1/p' hep-tools/Cargo.toml)
python=3.10
missing=()
at_least() { [ "$(printf '%s\n%s\n' "$1" "$2" | sort -V | head -n 1)" = "$1" ]; }
# The version in the first line that a program prints about itself; nothing if it is not there or doesn't run.
version() { { "$@" 2>&1 || true; } | sed -n '1s/[^0-9]*\([0-9][0-9.]*\).*/\1/p'; }
# A program that must be there, in this version or a later one.
program() {
    local found
    if ! command -v "$1" > /dev/null; then missing+=("$1 is missing: $3"); return; fi
    if [ -z "$2" ]; then return; fi
    found=$(version "$1" --version)
    at_least "$2" "${found:-0}" || missing+=("$1 is ${found:-of an unknown version}, and $2 or later is needed: $3")
}
[ "$(uname -sm)" = "Linux x86_64" ] || missing+=("this is $(uname -sm), and the programs are built for Linux x86_64")
if ! command -v rt > /dev/null; then
    missing+=("rt is missing: it is the program of the Rattle kit ($kit); put the kit's bin folder into PATH")
elif [ "$(rt version)" != "$kit" ]; then
    missing+=("rt is of the kit $(rt version), and the proofs are made for $kit")
fi
program cargo "$rust" "rustup installs it with rustc (https://rustup.rs); distributions often have an older one"
program cc "" "a C compiler, as package gcc or clang"
program python3 "$python" "package python3"
program ar "" "package binutils"
if [ "${1:-}" = gate ]; then
    program objdump "" "package binutils"
    program objcopy "" "package binutils"
    program pkg-config "" "package pkg-config or pkgconf"
    program git "" "package git"
fi
if [ ${#missing[@]} != 0 ]; then
    printf '%s\n' "${missing[@]}" >&2
    exit 2
fi
