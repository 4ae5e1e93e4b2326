# Sourced after tools/script.sh by the scripts that prove or build, when they are in the root of the repository.

# package_of PROGRAM: prints what to install to have the program.
package_of() {
    case $1 in
    rt) echo "the Rattle toolchain, which proves the solver" ;;
    cargo) echo "Rust $(rust_version) or later, with cargo: https://rustup.rs or your system's packages" ;;
    flock) echo "util-linux, of your system's packages" ;;
    esac
}

# The oldest version of Rust that compiles lambert-cli.
rust_version() {
    sed -n 's/^rust-version = "\(.*\)"$/\1/p' cli/Cargo.toml
}

# require PROGRAM...: ends the script with status 2 unless each program is there, and cargo is new enough. Prints a line for each that
# is not.
require() {
    local program version
    for program in "$@"; do
        if ! command -v "$program" >/dev/null; then
            fault "$program is missing. Install $(package_of "$program")"
        elif [ "$program" = cargo ]; then
            version=$(cargo --version 2>/dev/null | awk '{ print $2 }') || version=
            if [ -z "$version" ]; then
                fault "cargo is there but does not run. Install $(package_of cargo)"
            elif ! printf '%s\n' "$(rust_version)" "$version" | sort -VC; then
                fault "cargo $version is too old. Install $(package_of cargo)"
            fi
        fi
    done
    [ "$status" = 0 ] || exit 2
}

# one_build: waits until no other script proves or builds in this folder, and then keeps the others out until this script and everything
# that it started have ended. The lock is on the folder itself, because nothing removes or replaces it. A script that was started by the
# one with the lock does not wait: it has inherited the open folder, and LAMBERT_LOCK is the number of that descriptor.
one_build() {
    if [ "/dev/fd/${LAMBERT_LOCK:-none}" -ef . ]; then return; fi
    exec {LAMBERT_LOCK}<.
    export LAMBERT_LOCK
    if flock -n "$LAMBERT_LOCK"; then return; fi
    echo "waiting for another build in this folder to finish" >&2
    flock "$LAMBERT_LOCK"
}

# interface_of NAME: prints the crate that exports the functions of the C interface NAME: the crate NAME_c if there is one, otherwise NAME.
# If neither is a static library, prints nothing.
interface_of() {
    sed -nE "s/^($1|$1_c) staticlib:.*/\\1/p" crates.txt | tail -n 1
}

# find_sources CONDITION...: finds the sources that meet the conditions. What rt makes in crates/NAME/out is no source.
find_sources() {
    find crates.txt crates -path 'crates/*/out' -prune -o -type f \( -name crates.txt -o -name '*.rt' -o -name '*.antt' \) "$@"
}

# hash_of_sources: prints the hash of the toolchain's version and of all sources. The order of the files is the same in every locale.
hash_of_sources() {
    {
        rt version
        find_sources -print0 | LC_ALL=C sort -z | xargs -0 sha256sum
    } | sha256sum
}

# made_by_rt NAME FILE CRATE MADE COMMAND: unless FILE is there and was made from the sources as they are, runs `rt COMMAND`, which is
# `rt lib` or `rt run`, in the crate CRATE, and copies the file MADE that it has made there to FILE. In the folder of FILE, NAME.sources
# then has the hash of the sources, and NAME.log what rt said. The lines in which rt says what it does appear on standard error as they
# come. If rt fails, its whole output follows there, and the script ends with the status of rt. `made_from` is the hash of the sources when
# the script began. `rt run` runs the program too, here on an empty input, and what the program then writes is not kept.
made_by_rt() {
    local name=$1 file=$2 crate=$3 made=$4 command=$5 beside
    beside=${file%/*}/$name
    if [ -f "$file" ] && [ "$(cat "$beside.sources" 2>/dev/null)" = "$made_from" ]; then return; fi
    mkdir -p "${file%/*}"
    rm -f "$beside.sources"
    (
        cd "crates/$crate"
        if [ "$command" = run ]; then exec rt run 2>&1 >/dev/null </dev/null; fi
        exec rt "$command" 2>&1 </dev/null
    ) | tee "$beside.log" | sed -un '/^rt:/p' >&2 || {
        local failed=$?
        cat "$beside.log" >&2
        exit "$failed"
    }
    keep "$name" "$file" "crates/$crate/$made"
}

# keep NAME FILE MADE: copies what was made to FILE, and writes NAME.sources beside it, if the sources are still those of `made_from`.
keep() {
    [ "$(hash_of_sources)" = "$made_from" ] || {
        fault "the sources changed while $1 was proved, so it is not known what was proved. Run this again"
        exit 1
    }
    cp "$3" "$2.new"
    mv "$2.new" "$2"
    echo "$made_from" >"${2%/*}/$1.sources"
}
