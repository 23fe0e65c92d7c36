#!/usr/bin/env bash
# Proves and builds target/bin/hep_batch and target/staticlib/libhep_c.a where they are not, with a line for each crate. Right after `rt ci` the program
# is the one that `rt ci` built and ran.
set -euo pipefail
cd "$(dirname "$0")/.."
bash tools/needs.sh
batch=crates/hep_batch
mkdir -p target/bin target/log
status=3
if [ -f "$batch/out/hep_batch" ]; then
    status=0
    python3 tools/over_ci.py hep_batch || status=$?
fi
if [ $status = 3 ]; then
    echo "Proving and building the batch program and the library. $(python3 tools/progress.py --forecast hep_batch hep_c)."
    # `rt run` proves and builds what has changed, then runs it
    (cd "$batch" && rt run < stdin > ../../target/bin/printed) 2>&1 | tee target/log/build.txt | python3 tools/progress.py hep_batch ||
        { cat target/log/build.txt; exit 1; }
    diff target/bin/printed "$batch/stdout"
elif [ $status != 0 ]; then
    exit $status
fi
cp "$batch/out/hep_batch" target/bin/hep_batch
bash tools/archive.sh
