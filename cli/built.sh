# Sourced by cli/run and cli/build. The functions tell whether lambert-cli is up to date, and what it is built from.

# folders_of_crates FOLDER: prints the folders of the crates that have sources. FOLDER is the path of the folder cli. The folder out of a
# crate is left out: rt keeps its work there.
folders_of_crates() {
    printf '%s\n' "$1"/../crates/*/src "$1"/../crates/*/specs "$1"/../crates/*/proofs
}

# is_current FOLDER: whether FOLDER/target has a lambert-cli that was built from the sources as they are now. FOLDER is the path of the
# folder cli. The file target/built is as old as the beginning of the build and lists the folders of the crates. A folder is newer than
# the build if a file in it was added or removed since.
is_current() {
    local built=$1/target/built folders listed newer
    [ -x "$1/target/release/lambert-cli" ] && [ -f "$built" ] || return 1
    mapfile -t folders < <(folders_of_crates "$1")
    mapfile -t listed <"$built"
    [ "${#folders[@]}" = "${#listed[@]}" ] || return 1
    local kinds=(-type d -o -name "*.rt" -o -name "*.antt" -o -name "*.rs" -o -name "*.txt" -o -name Cargo.toml)
    newer=$(find "$1/../crates.txt" "${folders[@]}" "$1/src" "$1/help" "$1/build.rs" "$1/Cargo.toml" \
        \( "${kinds[@]}" \) -newer "$built" -print -quit) || return 1
    [ -z "$newer" ]
}

# The functions below are called in the root of the repository.

# commit: prints the commit and whether crates/, crates.txt or cli/ differ from it, or 'unknown' if this folder is not a git clone.
commit() {
    local inner hash changes
    if inner=$(git rev-parse --show-prefix 2>/dev/null) && [ -z "$inner" ] && hash=$(git rev-parse --verify HEAD 2>/dev/null) &&
        changes=$(git --no-optional-locks status --porcelain --untracked-files=normal -- crates crates.txt cli 2>/dev/null); then
        echo "$hash${changes:+ with uncommitted changes}"
    else
        echo unknown
    fi
}

# crates_of NAME...: prints the crates that the crates NAME... use, directly or through others, in the order of crates.txt.
crates_of() {
    sed 's/#.*//' crates.txt | awk -F: -v names="$*" '
    NF == 2 { split($1, head, " "); crate[++count] = head[1]; uses[head[1]] = $2 }
    function use(list,    words, n, i) {
        n = split(list, words, " ")
        for (i = 1; i <= n; i++) if (!(words[i] in used)) { used[words[i]] = 1; use(uses[words[i]]) }
    }
    END {
        n = split(names, given, " ")
        for (i = 1; i <= n; i++) use(uses[given[i]])
        for (i = 1; i <= count; i++) if (crate[i] in used) print crate[i]
    }'
}
