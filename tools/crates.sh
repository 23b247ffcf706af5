# shellcheck shell=sh disable=SC2154
# Functions of ./build, .ci/run, run-program, wrong/try, library/ and web/. $top is the top of the repository, $name a crate, $crates
# its closure, $program the program that is built of it, and $room an empty folder.

# The crates that $name stands on, itself included, by the lines `NAME: DEP DEP ..` of crates.txt.
closure() {
    awk -v top="$name" '{ sub(/#.*/, "") }
        /:/ { split($0, halves, ":"); split(halves[1], head, " "); deps[head[1]] = halves[2] }
        function visit(crate, below, i, n) {
            if (!(crate in deps) || crate in seen) return
            seen[crate] = 1
            n = split(deps[crate], below, " ")
            for (i = 1; i <= n; i++) visit(below[i])
            print crate
        }
        END { visit(top) }' "$top/crates.txt"
}

# Copies these crates to $room/repo, but not what was built of them nor their edits, and their lines of crates.txt.
copy() {
    mkdir -p "$room/repo/crates" "$room/repo/.git" && cp "$top/HANDLES" "$room/repo" || return 1
    for crate in $crates; do
        mkdir "$room/repo/crates/$crate" || return 1
        for part in "$top/crates/$crate"/*; do
            case ${part##*/} in
            out | must-fail) ;;
            *) cp -r "$part" "$room/repo/crates/$crate" || return 1 ;;
            esac
        done
        grep "^${crate}[ :]" "$top/crates.txt" >>"$room/repo/crates.txt" || return 1
    done
}

# Whether the program is built, and none of its sources and of these files is newer.
is_built() {
    [ -e "$program" ] && [ -z "$(newer "$@")" ]
}

newer() {
    set -- "$@" "$top/crates.txt"
    [ ! -e "$top/out/toolchain" ] || set -- "$@" "$top/out/toolchain"
    for crate in $crates; do
        set -- "$@" "$top/crates/$crate"/*
    done
    find "$@" \( -name out -o -name must-fail \) -prune -o -newer "$program" -print
}

# Prints a line on standard error if the toolchain isn't that of TOOLCHAIN. Its word is who says so.
compare_toolchain() {
    pinned=$(cat "$top/TOOLCHAIN") && present=$(rt version 2>/dev/null) || return 0
    [ "$present" = "$pinned" ] || echo "$1: TOOLCHAIN names $pinned, but this is $present" >&2
}

# Writes the toolchain's version to out/toolchain, unless it is there already. So this file is older than what this toolchain built.
note_toolchain() {
    version=$(rt version 2>/dev/null) || return 0
    [ "$version" = "$(cat "$top/out/toolchain" 2>/dev/null)" ] || { mkdir -p "$top/out" && echo "$version" >"$top/out/toolchain"; }
}
