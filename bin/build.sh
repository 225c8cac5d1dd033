# Sourced by the scripts beside it and by the gate, from a folder that is named `root`: the program and the static library, proved and
# built if they are not there or a source is newer than they are.
program=$root/target/bin/plan
library=$root/target/staticlib/libwindow.a

# build_if_older TARGET WHAT CRATE/FILE COMMAND..: runs COMMAND in the folder of CRATE and puts the FILE that it leaves in out/ at
# TARGET; what the build says is shown only if it fails.
build_if_older() {
    local target=$1 what=$2 crate=${3%/*} file=${3#*/} said
    shift 3
    if [ -e "$target" ] &&
        [ -z "$(find "$root/crates" "$root/crates.txt" -newer "$target" -type f ! -path '*/must-fail/*' ! -path '*/out/*' -print -quit)" ]; then
        return 0
    fi
    echo "$(basename "$0"): proving and building $what first; this takes some minutes" >&2
    if ! said=$(cd "$root/crates/$crate" && "$@" 2>&1 </dev/null); then
        printf '%s\n' "$said" >&2
        return 1
    fi
    mkdir -p "$(dirname "$target")"
    cp "$root/crates/$crate/out/$file" "$target" # a copy, newer than every source
}

build_program() { build_if_older "$program" "the program" plan/plan rt run; }
build_library() { build_if_older "$library" "the static library" window_c/libwindow_c.a rt lib; }
