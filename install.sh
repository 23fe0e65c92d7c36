#!/usr/bin/env bash
set -euo pipefail
usage() {
    cat <<'END_OF_HELP'
usage: bash install.sh [--prefix P] [--destdir D] [--uninstall]

Proves and builds what isn't yet, then installs below P (/usr/local if it is left out):

    bin                 hep_batch, the proved batch program, and hep
    include, lib        hep.h, libhep_c.a and pkgconfig/hep.pc: cc main.c $(pkg-config --cflags --libs hep)
    share/man           hep(1), hep_batch(1), hep(3) for the library's calls, hep(5) for the text of images
    share/doc/hep       FORMAT.md, MACHINE.md, CHANGELOG.md and the examples
    share/bash-completion   completion of hep

  --prefix P    where the files are to be used
  --destdir D   put them below D first, as a package is made: D/P/bin ..
  --uninstall   remove them again; proves and builds nothing
  --help        this text

Exit status: 0 done; 1 something is not proved or not built; 2 wrong usage, or a program is missing.
END_OF_HELP
}
wrong_usage() { echo "install.sh: $1" >&2; usage >&2; exit 2; }

# Mode, source and place of each file.
files() {
    cat <<'END_OF_FILES'
755 target/bin/hep_batch bin/hep_batch
755 hep-cli/target/release/hep bin/hep
644 include/hep.h include/hep.h
644 target/staticlib/libhep_c.a lib/libhep_c.a
644 install/hep.pc lib/pkgconfig/hep.pc
644 install/hep.1 share/man/man1/hep.1
644 install/hep_batch.1 share/man/man1/hep_batch.1
644 install/hep.3 share/man/man3/hep.3
644 install/calls.3 share/man/man3/hep_check.3
644 install/calls.3 share/man/man3/hep_sizes.3
644 install/calls.3 share/man/man3/hep_run.3
644 install/calls.3 share/man/man3/hep_batch.3
644 install/calls.3 share/man/man3/hep_fill.3
644 install/hep.5 share/man/man5/hep.5
644 target/hep.bash share/bash-completion/completions/hep
644 hep-tools/FORMAT.md share/doc/hep/FORMAT.md
644 docs/MACHINE.md share/doc/hep/MACHINE.md
644 CHANGELOG.md share/doc/hep/CHANGELOG.md
END_OF_FILES
    for file in examples/*.hep examples/*.out examples/*.table examples/README.md; do echo "644 $file share/doc/hep/$file"; done
}
# The sources below install/ have @VERSION@ for the version.
place() {
    case $2 in
        install/*) sed "s/@VERSION@/$(<VERSION)/" "$2" | install -D -m "$1" /dev/stdin "$root/$3" ;;
        *) install -D -m "$1" "$2" "$root/$3" ;;
    esac
}

prefix=/usr/local destdir="" uninstall=""
while [ $# != 0 ]; do
    case $1 in
        --prefix=* | --destdir=*) set -- "${1%%=*}" "${1#*=}" "${@:2}"; continue ;;
        --prefix | --destdir) [ -n "${2:-}" ] || wrong_usage "$1 wants a folder"
            printf -v "${1#--}" %s "$(realpath -m "$2")"
            shift ;;
        --uninstall) uninstall=yes ;;
        -h | --help) usage; exit ;;
        *) wrong_usage "$1 is unknown" ;;
    esac
    shift
done
cd "$(dirname "$0")"
root=$destdir$prefix
if [ -n "$uninstall" ]; then
    while read -r _ _ to; do rm -f "$root/$to"; done < <(files)
    for folder in share/doc/hep/examples share/doc/hep; do
        if [ -d "$root/$folder" ]; then rmdir --ignore-fail-on-non-empty "$root/$folder"; fi
    done
    echo "removed from $root"
    exit
fi
mkdir -p "$root" && [ -w "$root" ] || { echo "install.sh: $root can't be written" >&2; exit 2; }
bash tools/proved.sh
env -u HEP_LIB_DIR cargo build --quiet --release --offline --manifest-path hep-cli/Cargo.toml
hep-cli/target/release/hep --completion > target/hep.bash
while read -r mode from to; do place "$mode" "$from" "$to"; done < <(files)
echo "installed hep $(<VERSION) in $root"
