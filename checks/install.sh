#!/usr/bin/env bash
# `make install` and `make uninstall` with a stand-in for the kit: what is put where, that it is the proved program alone, and that manual
# and completion are found there.
set -u
top=$(cd "$(dirname "$0")/.." && pwd)
what=install
# shellcheck source=checks/stand_in.sh
. "$top/checks/stand_in.sh"

has make "nothing is tried" || exit 0

install() { make -s "$@" >"$room/printed" 2>"$room/said"; }
files() { (cd "$1" && find . -type f -printf '%m %P ' | tr ' ' '\n' | paste -d ' ' - - | LC_ALL=C sort -k 2 | tr '\n' ' '); }

# The links of the pages in a folder to files that aren't there, but for those into sources, which no installation has.
links_that_lead_nowhere() {
    grep -rnoE '\]\([^)#: ]+' --include='*.md' "$1" | while IFS=: read -r page _ link; do
        link=${link#](}
        [ -e "$(dirname "$page")/$link" ] || echo "${page#"$1"/}: $link"
    done
}

unbuilt
cp -r "$top"/{man,completions,docs,Makefile,README.md,CHANGELOG.md,CITATION.cff,CONTRIBUTING.md,THIRD-PARTY.md,LICENSE-MIT,LICENSE-APACHE} .
rm -r examples && cp -r "$top/examples" .
pages=$(find README.md CHANGELOG.md CITATION.cff CONTRIBUTING.md THIRD-PARTY.md LICENSE-MIT LICENSE-APACHE docs examples -type f -printf '644 share/doc/acquire/%p\n')
report "not built" "2 1" "$(install install PREFIX="$room/to"; echo $?) $(grep -c "isn't built yet: .* proves and builds it" "$room/said")"
./acquire --unproved j run >/dev/null 2>&1
report "only an unproved one" 2 "$(install install PREFIX="$room/to"; echo $?)"
report "nothing is put" "" "$(ls "$room/to" 2>/dev/null)"
./acquire j run >/dev/null 2>&1
# All that is put, where these lines are put besides.
all() {
    printf '%s\n' "$pages" "755 bin/acquire" "755 lib/acquire/acquire" "644 lib/acquire/version" "644 lib/acquire/help" "644 share/man/man1/acquire.1" \
        "644 share/bash-completion/completions/acquire" "644 share/zsh/site-functions/_acquire" "$@" | LC_ALL=C sort -k 2 | tr '\n' ' '
}
report "built" 0 "$(umask 077; install install PREFIX="$room/to"; echo $?)"
report "what is put" "$(all)" "$(files "$room/to")"
report "the proved program" "$(sha256sum <crates/acquire/out/acquire)" "$(sha256sum <"$room/to/lib/acquire/acquire")"
report "others may read it" "" "$(find "$room/to" -type d ! -perm 755)"
report "the manual" "" "$(cmp "$top/man/acquire.1" "$room/to/share/man/man1/acquire.1")"
report "it runs" "one $room/top j run" "$("$room/to/bin/acquire" j run)"
report "words are passed on as they are" "one $room/top a  b --help run" "$("$room/to/bin/acquire" "a  b" --help run)"
for word in --help -h; do
    report "$word" "$(sed -n '/^usage: /p' docs/formats.md) 0" "$("$room/to/bin/acquire" $word | head -n 1) $?"
done
report "the script's own words aren't in its help" 0 "$("$room/to/bin/acquire" --help | grep -c -e --unproved)"
for word in --version -V; do
    report "$word" "$(./acquire --version)" "$("$room/to/bin/acquire" $word)"
done
printf '#!/bin/sh\nulimit -S -s\n' >"$room/to/lib/acquire/acquire"
report "its stacks" 1024 "$("$room/to/bin/acquire" j run)"
if has man "it isn't asked for the manual"; then
    report "man finds it" 1 "$(man -M "$room/to/share/man" acquire 2>/dev/null | grep -c '^EXIT STATUS')"
fi
# As bash-completion does: by the name of the command, from this folder.
report "bash finds it" "complete -F _acquire acquire" "$(bash -c '. "$1/share/bash-completion/completions/acquire" && complete -p acquire' bash "$room/to")"
if has zsh "it isn't asked for its completion"; then
    report "zsh finds it" "_acquire" "$(cd "$room" && zsh -f -c 'fpath=("$1/share/zsh/site-functions" $fpath); autoload -Uz compinit; compinit -u -D; print $_comps[acquire]' zsh "$room/to")"
fi
report "uninstall" "0 " "$(install uninstall PREFIX="$room/to"; echo $?) $(files "$room/to")"
report "a folder in front" 0 "$(install install DESTDIR="$room/dest" PREFIX=/usr; echo $?)"
report "what is put there" "$(all)" "$(files "$room/dest/usr")"
report "a prefix that isn't whole" 2 "$(install install PREFIX=to; echo $?)"
echo two >crates/low/src/lib.rt
report "changed" 2 "$(install install PREFIX="$room/other"; echo $?)"
report "nothing is put" "" "$(ls "$room/other" 2>/dev/null)"
./acquire j run >/dev/null 2>&1

# With desk, which starts the program beside it.
mkdir -p desk/cases desk/planners_desk/program/__pycache__ python/acquire && touch python/acquire/session.py
# shellcheck disable=SC2016 # (these are the words of the program)
printf '#!/bin/sh\necho "desk $(dirname "$0") $DESK_ACQUIRE $*"\n' >desk/desk
chmod +x desk/desk
touch desk/{desk.1,README.md} desk/cases/ward desk/planners_desk/program/{talk.py,__pycache__/talk.pyc}
report "with desk" 0 "$(install install PREFIX="$room/to"; echo $?)"
report "what is put" "$(all "755 bin/desk" "644 lib/acquire/desk/cases/ward" "755 lib/acquire/desk/desk" "644 lib/acquire/desk/planners_desk/program/talk.py" \
    "644 lib/acquire/python/acquire/session.py" \
    "644 share/bash-completion/completions/desk" "644 share/zsh/site-functions/_desk" \
    "644 share/doc/acquire/desk/README.md" "644 share/doc/acquire/desk/cases/ward" "644 share/man/man1/desk.1")" "$(files "$room/to")"
report "desk starts" "desk $room/to/bin/../lib/acquire/desk $room/to/bin/acquire ask x y" "$("$room/to/bin/desk" ask "x y")"
mkdir "$room/few" && ln -s "$(command -v dirname)" "$(command -v readlink)" "$room/few"
report "desk without Python" "desk: it needs Python from 3.11 on, and no python3 is on the path 1" \
    "$(PATH=$room/few /bin/sh "$room/to/bin/desk" ask 2>&1 | tr '\n' ' '; echo "${PIPESTATUS[0]}")"
report "desk with another program" "other" "$(DESK_ACQUIRE=other "$room/to/bin/desk" | cut -d' ' -f3)"
ln -s "$room/to/bin/desk" "$room/elsewhere/desk"
report "desk by a link" "$room/to/bin/acquire" "$("$room/elsewhere/desk" | cut -d' ' -f3)"
report "bash finds the words of desk" "complete -F _desk desk" "$(bash -c '. "$1/share/bash-completion/completions/desk" && complete -p desk' bash "$room/to")"
if has zsh "it isn't asked for the completion of desk"; then
    report "zsh finds the words of desk" "_desk" "$(cd "$room" && zsh -f -c 'fpath=("$1/share/zsh/site-functions" $fpath); autoload -Uz compinit; compinit -u -D; print $_comps[desk]' zsh "$room/to")"
fi
report "uninstall with desk" "0 " "$(install uninstall PREFIX="$room/to"; echo $?) $(files "$room/to")"
rm -r desk python && cp -r "$top/desk" "$top/python" .
report "with desk as it is" 0 "$(install install PREFIX="$room/to"; echo $?)"
report "the version of desk" "$(./acquire --version | sed -n '1s/^acquire/desk/p')" "$("$room/to/bin/desk" --version)"
report "where the cases are" "$(realpath "$room/to")/lib/acquire/desk/cases." "$("$room/to/bin/desk" --help | sed -n 's/^A case is a text; four to begin with are in //p')"
report "copies of the cases" "0 644 ward.case" "$("$room/to/bin/desk" cases "$room/copies" >/dev/null; echo $?) $(files "$room/copies" | grep -o '644 ward.case')"
report "there is no program without proof" "1 desk: --unproved takes the program of a repository, and here $room/to/bin/acquire is named: leave one of the two out" \
    "$("$room/to/bin/desk" --unproved check "$room/copies/ward.case" 2>"$room/said"; echo $?) $(cat "$room/said")"
report "a link to a page leads there" "" "$(links_that_lead_nowhere "$room/to/share/doc/acquire")"
report "uninstall with desk as it is" "0 " "$(install uninstall PREFIX="$room/to"; echo $?) $(files "$room/to")"

finish
