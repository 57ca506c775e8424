#!/usr/bin/env bash
# Each misuse in must_not_compile/ must be refused by the compiler, at its line and with its error.
#
# A file there is an edit: `crate`, `file`, `old` (a line that stands once in the file), `new` (one line in its place), and
# `error` (the compiler's name for the error). `rt try` compiles all functions of a program and of the crates below it, and
# proves nothing. So each edit is compiled in a copy under a program that does nothing, and so are the untouched crates, which
# must have no error.
set -u
top=$(cd "$(dirname "$0")/.." && pwd)
room=$(mktemp -d)
trap 'rm -rf "$room"' EXIT
passed=0
failed=0

field() { sed -n "s/^$1: //p" "$2"; }

# A copy of the crates, with a program `nothing` over some of them.
copy_of() {
    for it in "$top"/crates/*/src; do
        mkdir -p "$room/$1${it#"$top"}"
        cp -r "$it/." "$room/$1${it#"$top"}"
    done
    mkdir -p "$room/$1/crates/nothing/src"
    { cat "$top/crates.txt"; echo "nothing: ${*:2}"; } >"$room/$1/crates.txt"
    printf '//! Does nothing.\n#![tactic(auto)]\n\nfn main() {}\n' >"$room/$1/crates/nothing/src/main.rt"
}

compile() { (cd "$room/$1/crates/nothing" && rt try >"$room/$1/log" 2>&1 </dev/null); }

# Compiles the misuse, and writes what is wrong with it, if anything is.
misuse() {
    edit=$top/checks/must_not_compile/$1.edit
    crate=$(field crate "$edit")
    name=$crate/$(field file "$edit")
    copy_of "$1" "$crate"
    file=$room/$1/crates/$name
    line=$(grep -nxF -- "$(field old "$edit")" "$file" | cut -d: -f1)
    case $line in
    '' | *[!0-9]*)
        echo "its old line doesn't stand once in the file"
        return
        ;;
    esac
    new=$(field new "$edit") awk -v at="$line" 'NR == at { print ENVIRON["new"]; next } { print }' "$file" >"$room/$1/new"
    mv "$room/$1/new" "$file"
    compile "$1"
    error="error[$(field error "$edit")]"
    grep -F "/$name:$line:" "$room/$1/log" | grep -qF "$error" && return
    echo "no $error at $name:$line"
    tail -n 5 "$room/$1/log"
}

untouched() {
    copy_of "$1" $(sed -n 's/^crate: //p' "$top"/checks/must_not_compile/*.edit | sort -u)
    compile "$1" && ! grep -q 'error\(\[\|:\)' "$room/$1/log" && return
    echo "the untouched crates have an error"
    tail -n 5 "$room/$1/log"
}

# As many side by side as there are processors.
for name in untouched $(cd "$top/checks/must_not_compile" && ls *.edit | sed 's/\.edit$//'); do
    while [ "$(jobs -rp | wc -l)" -ge "$(nproc)" ]; do wait -n; done
    if [ "$name" = untouched ]; then untouched "$name"; else misuse "$name"; fi >"$room/$name.said" &
done
wait
for said in "$room"/*.said; do
    if [ -s "$said" ]; then
        failed=$((failed + 1))
        echo "must not compile: $(basename "$said" .said): $(cat "$said")"
    else
        passed=$((passed + 1))
    fi
done

echo "must not compile: $passed passed, $failed failed"
[ "$failed" -eq 0 ]
