# tools.sh: what compare's scripts share, sourced from the repository's root: lib's tools, the archive of the proved library, and rustc.
# shellcheck shell=sh disable=SC2034
. lib/tools.sh

build_archive() { lib/build || exit 2; }

# Compiles one crate with optimisation: its kind (lib or bin), its name, its root file, what to write, then rustc's further words.
compile() {
    kind=$1 name=$2 file=$3 to=$4
    shift 4
    "$rustc" --edition 2021 --crate-type "$kind" --crate-name "$name" -C opt-level=3 --target $TARGET -C "linker=$cc" \
        --check-cfg 'cfg(shown, test)' "$@" "$file" -o "$to" || die "$name doesn't compile"
}

# The same for the crate of the proved library: its root file, and what to write.
compile_library() { compile lib bhirkulom "$1" "$2" -L native=$archive -l static=bhirkulom; }
