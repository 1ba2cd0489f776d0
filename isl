#!/usr/bin/env bash
# Runs the program with the words given, and ends with its status. Where it is built, that is the proved program; else
# the words are tried at once on a program of which nothing is proved, for at most 60 seconds.
# `isl --build` proves and builds; `rt ci` leaves the program built too.
set -u
top=$(dirname "$(readlink -f "$0")")
crate=$top/crates/isl
program=$crate/out/isl

# Whether a source is newer than the program.
is_old() {
    [[ -n $(find "$top/crates.txt" "$top"/crates/*/src -newer "$program" -print -quit) ]]
}

# Proves and builds the program, by a run of it.
build() {
    (cd "$crate" && rt run -- run data/yes.lsp) </dev/null >&2 && touch "$program"
}

# Runs the words on a program that is not proved. A file that the last word names is passed on as a copy, and lines that
# begin with the copy's name get that of the file.
try() {
    local said last line name= words=("$@") data=()
    if [[ $# != 0 && ${words[-1]} != -* && -f ${words[-1]} ]]; then
        data=(--data "program.lsp=$(realpath "${words[-1]}")")
        name=${words[-1]}
        words[-1]=program.lsp
    fi
    said=$(mktemp) || return 125
    (cd "$crate" && rt try "${data[@]}" -- "${words[@]}") 2>"$said"
    # behind what the program says stand two lines of rt, the last of them with the program's status, and an empty
    # one before them where its output does not end a line
    last=$(tail -n 1 "$said")
    if [[ $last =~ ^run=ended\ status=([0-9]+) ]]; then
        head -n -2 "$said" | sed '${/^$/d}' | while IFS= read -r line; do
            [[ -n $name && $line == program.lsp:* ]] && line=$name:${line#program.lsp:}
            printf '%s\n' "$line"
        done >&2
        rm "$said"
        return "${BASH_REMATCH[1]}"
    fi
    cat "$said" >&2
    rm "$said"
    echo 'isl: the run gave no answer' >&2
    return 125
}

if [[ $# == 1 && $1 == --build ]]; then
    build || exit 1
elif [[ ! -x $program ]]; then
    echo 'isl: nothing is built yet, so this try takes one to three minutes, and nothing of it is proved;' >&2
    echo 'isl: ./isl --build proves and builds the program' >&2
    try "$@"
else
    is_old && echo 'isl: a source is newer than the program; ./isl --build proves and builds it' >&2
    exec -a isl "$program" "$@"
fi
