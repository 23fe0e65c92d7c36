#!/usr/bin/env bash
# Proves and writes target/staticlib/libhep_c.a where it is older than a file of crates/, with a line for each crate that is proved. Right after `rt ci`
# it is built over the libraries as that proved them.
set -euo pipefail
cd "$(dirname "$0")/.."
archive=target/staticlib/libhep_c.a
if [ -f "$archive" ] && [ -z "$(find crates crates.txt -name out -prune -o -type f -newer "$archive" -print -quit)" ]; then exit; fi
mkdir -p target/staticlib target/log
status=0
python3 tools/over_ci.py hep_c "$archive" || status=$?
if [ $status = 3 ]; then
    (cd crates/hep_c && rt lib) 2>&1 | tee target/log/build.txt | python3 tools/progress.py hep_c || { cat target/log/build.txt; exit 1; }
    cp crates/hep_c/out/libhep_c.a "$archive"
elif [ $status != 0 ]; then
    exit $status
fi
