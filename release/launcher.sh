# shellcheck shell=bash disable=SC2154,SC2034,SC2185
# Finds a program of this repository: the one in release/ where the manifest there is that of the tree, else one that is proved and built
# first. Where neither can be had, it ends with status 8 and a line on standard error that says why. Sourced by the launchers and by
# release/where; needs $top, the folder of the repository, and $name, the program: vsil, vsolve, or another one of crates/.
. "$top/release/manifest.sh"

shipped=$top/release/$name
# The folder for what is known of this tree and what is built of it, what was found of the shipped program, and the program that is built.
build=
found=
built=

# Without news for so many seconds, a line says that the work goes on.
patience=60
# So many megabytes are needed on the disk.
room=8000

say() { echo "$name: $*" >&2; }

give_up() {
    say "$*"
    exit 8
}

# The folder is the user's own, in the cache; without one, it lies among temporary files, where it has to be the user's too.
choose_folder() {
    local cache=${XDG_CACHE_HOME:-${HOME:+$HOME/.cache}} number
    if [ -z "$cache" ]; then
        cache=${TMPDIR:-/tmp}/cache-of-$UID
        mkdir -m 700 "$cache" 2> /dev/null
        if [ ! -O "$cache" ] || [ -L "$cache" ]; then cache=; fi
    fi
    read -r number _ < <(cksum <<< "$top")
    build=${VSIL_BUILD:-${cache:+$cache/vsil/$number}}
    found=$build/$name.found
    built=$build/crates/$name/out/$name
}

# All files and folders that are released or may be listed, each ended by a zero byte.
paths_of_tree() { find "$top"/{HANDLES,crates.txt,release,crates} -name out -prune -o -print0; }

# None of them has changed since the time of $found, in what it holds or in its times. (A file more changes its folder.)
is_unchanged() {
    [ -f "$found" ] && [ -f "$found.paths" ] && [ -z "$(find -files0-from "$found.paths" -maxdepth 0 -cnewer "$found" -print -quit 2>&1)" ]
}

# The shipped program runs on this machine.
answers() {
    case $name in
    vsil) [ "$("$shipped" check < /dev/null 2> /dev/null)" = ok ] ;;
    vsolve) [ "$(echo '(check-sat)' | "$shipped" 2> /dev/null)" = sat ] ;;
    esac
}

# Why the shipped program can't be run; nothing where it can.
fault_of_shipped() {
    local why
    why=$(difference)
    if [ -n "$why" ]; then
        echo "$why"
    elif [ ! -f "$shipped" ]; then
        echo "there is no release/$name"
    elif [ "$(sum_of "$shipped")" != "$(listed_sum "release/$name")" ]; then
        echo "release/$name is not the program that release/MANIFEST names"
    elif ! answers; then
        echo "release/$name does not run on this machine ($(uname -sm)): it needs Linux on x86_64 with glibc 2.34"
    fi
}

# Finds out why the shipped program can't be run, and keeps it, with the time before the tree was read.
learn() {
    local mine=$found.$$
    mkdir -p "$build" && : > "$mine.time" && paths_of_tree > "$mine.paths" && fault_of_shipped > "$mine" \
        && touch -r "$mine.time" "$mine" && mv "$mine.paths" "$found.paths" && mv "$mine" "$found"
    rm -f "$mine" "$mine.time" "$mine.paths"
} 2> /dev/null

# The shipped program is the one to run; else $why says why not.
is_shipped() {
    why="there is no release/$name"
    case $name in vsil | vsolve) ;; *) return 1 ;; esac
    why=
    if is_unchanged || { learn && is_unchanged; }; then
        read -r why < "$found"
    else
        why=$(fault_of_shipped)
    fi
    [ -z "$why" ]
}

# The built program is newer than every source and definition that it stands on.
is_built() {
    local sources
    [ -x "$built" ] && [ -f "$build/$name.sources" ] || return 1
    mapfile -t sources < "$build/$name.sources"
    [ -z "$(find "${sources[@]}" -newer "$built" -print -quit 2>&1)" ]
}

# Lays the sources of the crates into the folder in which they are proved. What was proved there before is kept.
lay_out() {
    local crate
    for crate in "$@"; do
        mkdir -p "$build/crates/$crate" || return 1
        find "$build/crates/$crate" -mindepth 1 -maxdepth 1 ! -name out -exec rm -rf {} + || return 1
        find "$top/crates/$crate" -mindepth 1 -maxdepth 1 ! -name out ! -name must-fail -exec cp -rp {} "$build/crates/$crate/" \; || return 1
    done
    lines_below "$name" > "$build/crates.txt" && cp "$top/HANDLES" "$build/HANDLES"
}

# How many lines of code some crates have: the time of a proof grows with them.
weigh() { find "${@/%/src}" -name '*.rt' -exec cat {} + 2> /dev/null | wc -l; }

minutes() { echo $(((SECONDS - started) / 60)); }

# Tells of each crate that the prover says is proved, or kept from an earlier run: the minutes, and the share of the lines.
tell() {
    local count=$1 done=0 weight=0 begun='' line status crate total started=$SECONDS
    total=$(weigh "$build"/crates/*/)
    while :; do
        IFS= read -r -t "$patience" line
        status=$?
        line=$begun$line
        begun=
        if [ "$status" -gt 128 ]; then
            begun=$line
            say "still at work after $(minutes) min: $done of $count crates proved, $((100 * weight / total))% of the lines"
            continue
        fi
        [ "$status" -eq 0 ] || break
        case $line in
        "rt: "*" proved" | "rt: "*" is kept: "*)
            done=$((done + 1))
            crate=${line#rt: }
            crate=${crate%% *}
            weight=$((weight + $(weigh "$build/crates/$crate/")))
            say "$(minutes) min, $((100 * weight / total))%: $crate is proved, $done of $count"
            ;;
        esac
    done
}

# Says what proving and building will take.
announce() {
    say "$why, so the program is proved and built first, in $build"
    say "$1 crates: 70 to 90 minutes on four processors, 8 GB of memory and 8 GB of disk; a few minutes where rt ci has run on this machine"
    say "it may be stopped, and goes on at the next call; all that the prover says is in $build/log"
}

has_room() {
    local free
    free=$(df -Pm "$build" | awk 'NR == 2 { print $4 }')
    [ "${free:-0}" -ge "$room" ]
}

# Proves the crates side by side, as the gate does, and builds the program. What the gate proved on this machine isn't proved again.
prove() {
    local log=$build/log
    announce "$#"
    (cd "$build" && rt ci < /dev/null 2>&1) | tee "$log" | tell "$#"
    [ -x "$built" ] && tail -n 1 "$log" | grep -q ' passed, 0 failed$' && return 0
    say "not proved: $(sed -n 's/^rt: \([^ ]*\) NOT PROVED$/\1/p' "$log" | head -n 1); the last lines of $log:"
    tail -n 15 "$log" >&2
    return 1
}

# Takes the lock of the folder, for as long as this shell and the prover live.
lock() {
    exec 9> "$build/lock" || give_up "can't write into $build"
    if ! flock -n 9; then
        say "another call is proving in $build, and this one waits for it (its progress: $build/log)"
        flock 9
    fi
}

# Proves and builds the program, unless another call has done it meanwhile.
make() {
    local crates
    command -v rt > /dev/null || give_up "$why, and there is no toolchain to build the program with (the command rt)"
    [ -n "$build" ] || give_up "$why, and there is no folder to build the program in: set VSIL_BUILD, XDG_CACHE_HOME or HOME"
    mkdir -p "$build" 2> /dev/null || give_up "$why, and the folder to build the program in can't be made: $build"
    lock
    is_built && return
    has_room || give_up "$why, and less than $room MB are free to build the program in $build"
    mapfile -t crates < <(crates_below "$name")
    lay_out "${crates[@]}" 2> /dev/null || give_up "the sources can't be copied to $build: is the disk full?"
    prove "${crates[@]}" || exit 8
    {
        echo "$top/crates.txt"
        for crate in "${crates[@]}"; do
            find "$top/crates/$crate" -mindepth 1 -maxdepth 1 \( -name src -o -name specs \)
        done
    } > "$build/$name.sources"
    exec 9>&-
}

# Sets $program to the path of the program.
find_program() {
    local why="VSIL_BUILD is set"
    choose_folder
    if [ -z "${VSIL_BUILD:-}" ] && is_shipped; then
        program=$shipped
    else
        is_built || make
        program=$built
    fi
}
