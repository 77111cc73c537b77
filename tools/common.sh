# What the measuring tools share. They source it.

top=$(cd "$(dirname "${BASH_SOURCE[0]}")/.." && pwd)

# Goes to a fresh folder, which is removed when the tool ends.
enter_fresh_folder() {
    work=$(mktemp -d)
    trap 'rm -rf "$work"' EXIT
    cd "$work"
}

# Sets `mibs` to the program at this place, or to the one that `rt run` builds. Ends the tool where there is none.
find_mibs() {
    mibs=$(realpath "${1:-$top/crates/mibs_run/out/mibs_run}")
    if [ ! -x "$mibs" ]; then
        echo "$(basename "$0"): no program at $mibs: build it by 'rt run' in crates/mibs_run" >&2
        exit 2
    fi
}

# Copies a crate of the repository, and those that it stands on, with their lines of crates.txt.
copy_crate() {
    local line below
    line=$(grep "^$1:" "$top/crates.txt") || return 0
    [ ! -e "crates/$1" ] || return 0
    cp -a "$top/crates/$1" crates/
    echo "$line" >> crates.txt
    for below in ${line#*:}; do
        copy_crate "$below"
    done
}

# Makes a workspace here, with an empty crate `measure` that uses these libraries.
make_workspace() {
    local crate
    git init -q .
    mkdir -p crates/measure/src crates/measure/specs crates/measure/proofs plain
    touch crates/measure/specs/Lib.antt crates/measure/proofs/Lib.antt
    echo "measure: $*" >> crates.txt
    for crate in "$@"; do
        copy_crate "$crate"
    done
}

# Proves and builds the crate `measure`. Shows the end of the log where that fails.
build_measure() {
    (cd crates/measure && rt run) > run.log 2>&1 || { tail -n 20 run.log >&2; exit 2; }
}
