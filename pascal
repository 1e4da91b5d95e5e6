#!/usr/bin/env bash
# Runs the proved program `pascal`, or the one that PASCAL_PROGRAM names, with the words given. It runs the first of
# these that there is:
#
#   the released program     released/NAME, where the sums beside it are that of the tree's sources and its own
#   the tree's own program   crates/NAME/out/NAME, where the sums beside it are that of the tree's sources and its own
#   a new one                which is proved and built first; that takes long, and standard error tells how far it is
#
# PASCAL_OWN=1 leaves out the released program. PASCAL_BUILT=FOLDER has FOLDER/NAME/out/NAME run as it is.
# FONKJULD_SOURCES tells the program the sum of its sources.
#
# What was found is remembered in the user's cache folder (docs/GATE.md), so that the next start doesn't read all
# sources. Needed are bash and the coreutils; to prove, the Rattle kit and flock.
set -uf
# the last part of a pipe is this process
shopt -s lastpipe

name=${PASCAL_PROGRAM:-pascal}
released=released/$name
out=crates/$name/out
own=$out/$name

fail() {
    echo "$name: $1" >&2
    exit 1
}

# Ends with one line where a tool is missing.
needs() {
    local tool
    for tool; do
        type -P "$tool" >/dev/null || fail "the command $tool is not on the path"
    done
}

# ---- which program is of the tree's sources

# The sum of the tree's sources, and that of a program.
sums() {
    local of_program
    of_program=$(sha256sum <"$top/$1")
    printf '%s\n' "$sum" "${of_program%% *}"
}

# Whether a program lies there whole, and is of the tree's sources.
is_current() {
    [ -f "$top/$1" ] && [ -x "$top/$1" ] && [ -r "$top/$1.sum" ] && [ "$(<"$top/$1.sum")" = "$(sums "$1")" ]
}

# Proves each crate in turn, telling how far it is.
build() {
    local crates total at=0 log=$top/$out/build.log
    crates=$("$top/tools/stands_on" "$name")
    total=$(wc -w <<<"$crates")
    for crate in $crates; do
        at=$((at + 1))
        echo "$name: proving $crate ($at of $total)" >&2
        if [ "$crate" = "$name" ]; then
            (cd "$top/crates/$name" && rt run -- --help) </dev/null >"$log" 2>&1
        else
            (cd "$top/crates/$crate" && rt lib) </dev/null >"$log" 2>&1
        fi || fail "$crate was not proved; $log tells why"
    done
    sums "$own" >"$top/$own.sum"
}

# Proves and builds the tree's own program, once however many ask for it.
make_own() {
    local why="no program of these sources has been built yet, and the command rt of the Rattle kit is not on the path"
    type -P rt >/dev/null || fail "$why"
    needs flock mkdir wc
    { mkdir -p "$top/$out" && exec 9>>"$top/$out/build.lock"; } 2>/dev/null || fail "$top/$out cannot be written"
    flock 9
    is_current "$own" || build
    exec 9>&-
}

# ---- what is remembered

# Sets the folder of what is remembered, if there is a place for it: `found` has the program, the sum of the sources,
# what was seen of either half of the paths, and the tree; `paths.1` and `paths.2` are these halves.
find_memory() {
    local cache=${XDG_CACHE_HOME:-} key=$top%$name${PASCAL_OWN:+%own}
    [[ $cache = /* ]] || cache=${HOME:-}/.cache
    memory=
    [[ $cache = /?* ]] && [ -d "${cache%/*}" ] && memory=$cache/fonkjuld/starts/${key//\//%}
}

# Becomes a process that writes a line for each of the paths told in a file that there is; it changes with that file,
# or with the names in that folder. (The time of the last change of any sort is none that can be set. No path has a
# space.)
look() {
    export LC_ALL=C
    # shellcheck disable=SC2046
    cd "$top" && exec stat -c '%i %s %f %.9Z' $(<"$1")
} 2>/dev/null

# Sets what is remembered, where all is as it was seen. The halves are looked at side by side.
remembered() {
    local first second one two
    { read -r program && read -r sum && read -r first && read -r second; } <"$memory/found" || return
    sha256sum <(look "$memory/paths.1") <(look "$memory/paths.2") | { read -r one _ && read -r two _; } || return
    [ "$one $two" = "$first $second" ]
} 2>/dev/null

# Whether all that is seen is told to the nanosecond and had not changed for two seconds before a time: only then
# would each later change show.
had_settled() {
    local before=$(($1 - 2)) line
    for line in "${lines[@]}"; do
        [[ ${line##* } =~ ^([0-9]+)\.[0-9]{9}$ ]] && ((BASH_REMATCH[1] < before)) || return 1
    done
}

# Remembers what was found by a start that began at a time. What it cannot remember the next start finds again.
remember() {
    local LC_ALL=C all half at lines seen sums=()
    [[ -s $paths && $(<"$paths") != *[!A-Za-z0-9_+./$'\n'-]* ]] && mapfile -t all <"$paths" || return
    all+=(tools/sources_sum tools/stands_on "$released" "$released.sum" "$own" "$own.sum")
    half=$((${#all[@]} / 2))
    for at in 1 2; do
        printf '%s\n' "${all[@]:(at - 1) * half:half + at}" >"$paths.$at" || return
        mapfile -t lines < <(look "$paths.$at")
        had_settled "$1" || return
        seen=$(printf '%s\n' "${lines[@]}" | sha256sum)
        sums+=("${seen%% *}")
    done
    printf '%s\n' "$program" "$sum" "${sums[@]}" "$top" >"$paths.found" || return
    mv -f "$paths.1" "$memory/paths.1" && mv -f "$paths.2" "$memory/paths.2" && mv -f "$paths.found" "$memory/found" &&
        forget_others
} 2>/dev/null

# Removes what is remembered of trees that are gone.
forget_others() {
    local folder tree
    set +f
    for folder in "${memory%/*}"/*/; do
        { mapfile -t -s 4 -n 1 tree && [ -n "${tree-}" ] && [ ! -d "$tree" ]; } <"$folder/found" && rm -r "$folder"
    done
    set -f
}

# ---- which program is run

# Sets the program that is run, from the top, and the sum of its sources.
find_program() {
    local began paths=
    find_memory
    [ -z "$memory" ] || ! remembered || return
    printf -v began '%(%s)T' -1
    needs sha256sum sort dirname readlink
    # what is remembered may be longer than files may be here
    trap '' XFSZ
    [ -n "$memory" ] && mkdir -p "$memory" 2>/dev/null && paths=$memory/new.$$
    sum=$("$top/tools/sources_sum" "$name" ${paths:+"$paths"}) || exit 1
    program=$released
    if [ -n "${PASCAL_OWN:-}" ] || ! is_current "$program"; then
        program=$own
        is_current "$program" || make_own
    fi
    [ -z "$paths" ] || { remember "$began"; rm -f "$paths" "$paths".{1,2,found} && rmdir "$memory"; } 2>/dev/null
    trap - XFSZ
}

# Sets the folder of this launcher, without its links where it is one. (A process that isn't needed is not begun:
# each takes a millisecond.)
find_top() {
    local self=$0
    [ ! -L "$self" ] || { needs readlink && self=$(readlink -f "$self"); }
    [[ $self = */* ]] || self=./$self
    [[ $self = /* ]] || self=$PWD/${self#./}
    top=${self%/*}
    [[ $top != */./* && $top != */../* && $top != */.. ]] || top=$(cd -P -- "$top" && pwd) || exit 1
}

find_top
unset FONKJULD_SOURCES
if [ -n "${PASCAL_BUILT:-}" ]; then
    program=$PASCAL_BUILT/$name/out/$name
else
    find_program
    program=$top/$program
    export FONKJULD_SOURCES=$sum
fi
# the calls of the reference interpreter lie on the host's stack
[ "$name" = pascal ] || ulimit -s unlimited 2>/dev/null || ulimit -s "$(ulimit -Hs)"
# a deep tree takes so much memory that the host's pages of 4 KB, handed out one by one, would cost more than the work
# done in them: the C library is told to ask for large pages where there are some, to lay lists of up to 32 MB there too,
# and to give none back before the end
malloc=glibc.malloc
tunables=$malloc.hugetlb=1:$malloc.mmap_threshold=33554432:$malloc.trim_threshold=268435456
export GLIBC_TUNABLES=${GLIBC_TUNABLES-$tunables}
exec "$program" "$@"
