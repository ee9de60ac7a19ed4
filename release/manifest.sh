# shellcheck shell=bash disable=SC2154
# What a manifest lists: the kit, and the sha256 of all that the two programs stand on. Sourced by the scripts beside it; needs $top, the
# folder of the repository.
manifest=$top/release/MANIFEST
programs=(vsil vsolve)

# The line of crates.txt for each crate that a program stands on, the crate of the program among them.
lines_below() {
    awk -v tops="$*" -F: '
        /^#/ || NF < 2 { next }
        { name = $1; sub(/ staticlib$/, "", name); line[name] = $0; below[name] = $2 }
        function visit(name,  parts, n, i) {
            if (seen[name]++ || !(name in below)) return
            n = split(below[name], parts, " ")
            for (i = 1; i <= n; i++) visit(parts[i])
            print line[name]
        }
        END { n = split(tops, wanted, " "); for (i = 1; i <= n; i++) visit(wanted[i]) }' "$top/crates.txt"
}

# The names of the crates that a program stands on, those below first.
crates_below() { lines_below "$@" | sed 's/[ :].*//'; }

# The folders of sources, definitions and proofs of these crates.
folders_of() {
    local crate part
    for crate in "$@"; do
        for part in src specs proofs; do
            if [ -d "$top/crates/$crate/$part" ]; then echo "crates/$crate/$part"; fi
        done
    done
}

# `SHA256  PATH` for each file that a program stands on: sources, definitions, proofs, and the handles that are allowed.
sums_of_files() {
    local crates folders
    mapfile -t crates < <(crates_below "${programs[@]}")
    mapfile -t folders < <(folders_of "${crates[@]}")
    (cd "$top" && find HANDLES "${folders[@]}" -type f -print0 | xargs -0 sha256sum --)
}

# `SHA256  crates.txt:CRATE` for each line of crates.txt that a program stands on: each is laid into a file of its own.
sums_of_lines() {
    local folder status
    folder=$(mktemp -d) || return 1
    lines_below "${programs[@]}" | awk -v folder="$folder" -F'[ :]' '{ file = folder "/crates.txt:" $1; print > file; close(file) }'
    (cd "$folder" && sha256sum -- *)
    status=$?
    rm -rf "$folder"
    return "$status"
}

# All that the programs stand on in this tree, in one sorted list.
sums_of_tree() { { sums_of_files && sums_of_lines; } | LC_ALL=C sort -k 2; }

# The manifest of this tree, with the programs that lie in this folder.
write_manifest() {
    echo "kit: $(rt version)"
    sums_of_tree
    (cd "$top" && sha256sum -- "${programs[@]/#/release/}")
}

# The part of the manifest that tells of the tree.
listed_sums() { grep -vE '^(kit: .*|[0-9a-f]{64}  release/.*)$' "$manifest"; }

# The kit with which the listed programs were built.
listed_kit() { sed -n 's/^kit: //p' "$manifest"; }

# The sha256 that the manifest lists for a file, or nothing.
listed_sum() { awk -v path="$1" '$2 == path { print $1 }' "$manifest"; }

sum_of() { sha256sum < "$1" 2> /dev/null | cut -d' ' -f1; }

# Says of the first thing in which the tree and the manifest differ what it is; nothing where they agree.
difference() {
    local sums
    if [ ! -r "$manifest" ]; then
        echo "there is no release/MANIFEST"
    elif ! sums=$(set -o pipefail && sums_of_tree 2> /dev/null); then
        echo "the sources in $top can't be read, or there is no room for temporary files"
    else
        diff <(listed_sums) <(echo "$sums") | awk '
            /^</ { listed[$3] = 1; if (!first) first = $3 }
            /^>/ { found[$3] = 1; if (!first) first = $3 }
            END {
                if (!first) exit
                if (first in listed && first in found) print first " differs from release/MANIFEST"
                else if (first in listed) print first " is in release/MANIFEST and not in the tree"
                else print first " is not in release/MANIFEST"
            }'
    fi
}
