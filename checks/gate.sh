#!/usr/bin/env bash
# .ci/run with stand-ins for the kit and for the checks: each script of checks/ but wrong_bodies.py is called once; what has passed is recorded, so that
# `acquire` proves nothing again and release.sh makes a tar file; nothing else is.
set -u
top=$(cd "$(dirname "$0")/.." && pwd)
what=gate
# shellcheck source=checks/stand_in.sh
. "$top/checks/stand_in.sh"

has git "nothing is tried" || exit 0

# A commit of such a repository, with checks that look at nothing, but note that they are called.
fresh() {
    unbuilt
    mkdir -p checks .ci "$room/made"
    cp "$top/.ci/run" .ci/
    cp -r "$top"/{man,completions,docs,Makefile,release.sh,.gitignore,README.md,LICENSE-MIT,LICENSE-APACHE} .
    for it in "$top"/checks/*; do
        [ -x "$it" ] && [ -f "$it" ] && printf '#!/bin/sh\necho "${0##*/} $*" >>"%s/called"\n' "$room" >"checks/${it##*/}"
    done
    chmod +x checks/*
    echo "first kit" >tools/kit
    commit
    rm -f "$room"/made/*
}

# What the stand-in leaves is no part of the commit.
commit() {
    git init -q . && printf '%s\n' slow waits built kept >.git/info/exclude &&
        git add -A && git -c user.name=a -c user.email=a@b commit -q -m more
}

gate() {
    # What tools/needed.sh says is lacking on this machine is no line of the gate's own.
    .ci/run >"$room/all" 2>"$room/said"
    local ended=$? line
    while IFS= read -r line; do
        [[ $line == "tools: "* ]] || printf '%s\n' "$line"
    done <"$room/all" >"$room/printed"
    echo "$ended"
}

# What `acquire` prints, its status, and how many builds it took.
start() { echo "$(./acquire j run 2>"$room/said") $? $(lines_of built)"; }

# The status of release.sh, and what it made.
release() {
    ./release.sh "$room/made" >"$room/printed" 2>"$room/said"
    echo "$? $(cd "$room/made" && echo *)"
}

refuses() { report "release: $1" "1 *" "$(release)"; }

# Changes a source while rt ci is at work.
change_during() {
    touch slow
    gate >"$room/status" &
    await [ -e waits ]
    "$@"
    rm slow waits
    wait
}

here=$room/top
fresh
report "passed" "0 5 passed, 0 failed" "$(gate) $(sed -n 2p "$room/printed")"
report "each check is called once" "$(find checks -type f ! -name wrong_bodies.py -printf "%f $here/crates/acquire/out/acquire\\n" | sort)" \
    "$(grep -v '^wrong_bodies.py ' "$room/called" | sort)"
report "that of wrong bodies is left out" 0 "$(grep -c '^wrong_bodies.py ' "$room/called")"
report "they are counted" "checks: $(find checks -type f ! -name wrong_bodies.py | wc -l) passed, 0 failed, 0 passed over" "$(grep ^checks: "$room/printed")"
report "how many proofs go side by side" "gate: $(tools/lanes.sh) proofs side by side" "$(head -n 1 "$room/printed")"
report "where the time went" "processor minutes proof second proof edits compile run sum" "$(grep '^processor minutes' "$room/printed" | tr -s ' ')"
report "that is kept" 0 "$(sed -n '/^processor minutes/,$p' "$room/printed" | cmp -s - .ci/out/minutes; echo $?)"
report "nothing is said" "" "$(cat "$room/said")"
mkdir -p "$room/looked/checks"
printf '#!/bin/sh\nsleep 4\n' >"$room/looked/rattle"
printf '#!/bin/sh\n"%s" --crate-name lent\n' "$room/looked/rattle" >"$room/looked/checks/one"
chmod +x "$room/looked/rattle" "$room/looked/checks/one"
sh -c "'$room/looked/rattle' --crate-name own & '$room/looked/checks/one' & wait" &
tools/minutes.py $! "$room/table"
report "what a check builds is no crate of the gate" "own all checks, one" \
    "$(sed '1d; s/,.*:/,/' "$room/table" | awk '{ print $1, $1 == "checks," ? $2 : "" }' | xargs)"
rm "$kit/bin/asked"
report "acquire proves nothing again" "one $here j run 6 0" "$(start)"
report "rt isn't asked" "" "$(cat "$kit/bin/asked" 2>/dev/null)"
report "the record" "$(git rev-parse HEAD) $(sha256sum <crates/acquire/out/acquire) first kit 5 passed, 0 failed" "$(tr '\n' ' ' <.ci/out/passed | sed 's/ $//')"
report "nothing else is left" "minutes passed" "$(ls .ci/out | tr '\n' ' ' | sed 's/ $//')"
name=acquire-1.2.3-$(git rev-parse --short HEAD)
report "release" "0 $name.tar.gz" "$(release)"
mkdir "$room/unpacked" && tar -xzf "$room/made/$name.tar.gz" -C "$room/unpacked"
report "its program" "$(sha256sum <crates/acquire/out/acquire)" "$(sha256sum <"$room/unpacked/$name/lib/acquire/acquire")"
report "its version" "version 1.2.3 commit $(git rev-parse HEAD) kit first kit gate 5 passed, 0 failed" "$(head -n 4 "$room/unpacked/$name/VERSION" | tr '\n' ' ' | sed 's/ $//')"
report "its sums" 0 "$(cd "$room/unpacked/$name" && sha256sum --quiet -c SHA256; echo $?)"
report "its files" "README SHA256 VERSION bin/acquire example/input example/printed lib/acquire/acquire lib/acquire/help lib/acquire/version share/bash-completion/completions/acquire share/man/man1/acquire.1 share/zsh/site-functions/_acquire" \
    "$(cd "$room/unpacked/$name" && find . -type f ! -path './share/doc/*' | sed 's/^..//' | LC_ALL=C sort | tr '\n' ' ' | sed 's/ $//')"
report "its licences" "LICENSE-APACHE LICENSE-MIT" "$(cd "$room/unpacked/$name/share/doc/acquire" && echo LICENSE*)"
cp "$room/made/$name.tar.gz" "$room/first" && rm "$room"/made/*
# (the second time for somebody whose files nobody else may read)
(umask 077 && chmod -R go= examples docs man README.md && release >"$room/status")
report "the same twice" 0 "$(cmp "$room/first" "$room/made/$name.tar.gz"; echo $?)"
rm "$room"/made/*

cp -p crates/acquire/out/acquire "$room/kept"
printf '#!/bin/sh\necho other\n' >crates/acquire/out/acquire
refuses "another program"
cp "$room/kept" crates/acquire/out/acquire
report "release: the program as it was" 0 "$(release | cut -d' ' -f1)"
rm "$room"/made/*
echo more >README.md
refuses "a new file"
git add -A && git -c user.name=a -c user.email=a@b commit -q -m more
refuses "another commit"
git reset -q --hard HEAD~1
echo two >crates/low/src/lib.rt
refuses "a changed source"
git checkout -q .
sed -i '4s/0 failed/1 failed/' .ci/out/passed
refuses "a record of something else"
rm .ci/out/passed
refuses "no record"

fresh
report "broken" "3 1 passed, 1 failed" "$(echo BROKEN >crates/low/src/lib.rt; gate) $(sed -n 2p "$room/printed")"
refuses "broken"
git checkout -q .
report "mended" "one $here j run 6 1" "$(start)"
refuses "no gate"

fresh
mkdir -p crates/low/must-fail
echo "edit" >crates/low/must-fail/unfit.edit
commit
rm -f "$room/called"
report "an edit that doesn't fit" "1 gate: an edit of must-fail doesn't fit the sources: its line above begins with 'rt: must-fail'" "$(gate) $(cat "$room/said")"
report "an edit that doesn't fit: no check is called" "" "$(cat "$room/called" 2>/dev/null)"
refuses "an edit that doesn't fit"

fresh
printf '#!/bin/sh\necho seen; exit 4\n' >checks/kills.py
commit
rm -f "$room/called"
report "a check fails" 1 "$(gate)"
report "it is told, with its status and what it printed" "== kills.py: failed, with status 4 seen" "$(grep -A 1 '^== kills.py' "$room/printed" | tr '\n' ' ' | sed 's/ $//')"
report "the others are called all the same" "$(find checks -type f ! -name kills.py ! -name wrong_bodies.py | wc -l)" "$(lines_of ../called)"
report "they are counted too" "checks: $(find checks -type f ! -name kills.py ! -name wrong_bodies.py | wc -l) passed, 1 failed, 0 passed over" "$(grep ^checks: "$room/printed")"
report "its program is proved" "one $here j run 6 0" "$(start)"
refuses "a check fails"

fresh
gate >"$room/status"
printf '#!/bin/sh\nexit 4\n' >checks/kills.py
gate >"$room/status"
git checkout -q .
refuses "an earlier gate has passed"

fresh
echo "two" >crates/low/src/lib.rt
report "a tree that is no commit" 0 "$(gate)"
report "it is told" 1 "$(grep -c "isn't that of a commit" "$room/said")"
report "its program is proved" "two $here j run 6 0" "$(start)"
commit
refuses "a tree that was no commit"

change() { echo two >crates/low/src/lib.rt; }
change_back() {
    cp crates/low/src/lib.rt "$room/kept"
    change
    cp "$room/kept" crates/low/src/lib.rt
}
touch_check() { touch checks/kills.py; }
fresh
change_during change
report "changed meanwhile" "0 1" "$(cat "$room/status") $(grep -c "has been touched since the gate began, so acquire" "$room/said")"
report "changed meanwhile: it is proved" "two $here j run 6 1" "$(start)"
fresh
change_during change_back
report "changed and back meanwhile" "0 1" "$(cat "$room/status") $(grep -c "has been touched since the gate began, so acquire" "$room/said")"
report "changed and back meanwhile: it is proved" "one $here j run 6 1" "$(start)"
refuses "changed and back meanwhile"
fresh
change_during touch_check
report "a check is touched meanwhile" "0 1" "$(cat "$room/status") $(grep -c "kills.py has been touched .* nothing to release" "$room/said")"
report "a check is touched meanwhile: the program is proved" "one $here j run 6 0" "$(start)"
refuses "a check is touched meanwhile"
fresh
change_during touch "$kit/bin/rt"
report "rt is touched meanwhile: it is proved" "one $here j run 6 1" "$(start)"
fresh
mkdir "$room/few" && ln -s "$(command -v bash)" "$(command -v dirname)" "$(command -v env)" "$room/few"
report "a machine without the kit" "127 gate: rt isn't on the path, so nothing was tried: README.md says what is needed" \
    "$(PATH=$room/few; gate) $(cat "$room/said")"

finish
