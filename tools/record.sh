#!/bin/sh
# Keeps what the gate has passed, so that the proved program which it leaves needn't be proved again. .ci/run calls it.
#
# usage: tools/record.sh begin ID      before rt ci
#        tools/record.sh proved ID     rt ci has passed: `acquire` takes its program from now on
#        tools/record.sh passed ID     all has passed: so release.sh does
#
# ID tells runs apart, and .ci/out/ID has what rt ci printed. Where a source was touched meanwhile, what was proved isn't known
# for certain, and nothing is recorded. None of this is a verdict: it ends with status 0 and says what it left undone.
set -u
[ $# -eq 2 ] || exit 2
home=$(cd -P -- "$(dirname -- "$0")/.." && pwd) || exit 2
# shellcheck source=tools/stamps.sh
. "$home/tools/stamps.sh"
take proved
kept=$home/.ci/out
mark=$kept/$2.mark
begun=$mark.begun
git() { command git --no-optional-locks -C "$home" "$@" 2>/dev/null; }

leave() {
    echo "record: $*" >&2
    sweep
    exit 0
}

# The commit, where the tree is exactly that of a commit.
commit() { [ -z "$(git status --porcelain || echo none)" ] && git rev-parse HEAD; }

# Names a file of the commit that has been touched since the gate began.
touched_in_commit() {
    # shellcheck disable=SC2016 # (the words are those of the shell that xargs starts)
    git ls-files -z | (cd "$home" && xargs -0 sh -c 'find "$@" -cnewer "$0"' "$begun" 2>&1) | head -n 1
}

command -v sha256sum >/dev/null || leave "sha256sum isn't there"
look
case $1 in
begin)
    # What stood here before says nothing of this run.
    { mkdir -p "$kept" && rm -f "$kept/passed" && make_mark "$begun"; } || leave "nothing can be written in $kept"
    { sum_of_sources; rt version; commit || echo none; } >"$mark.from"
    ;;
proved)
    { read -r sum && read -r kit; } <"$mark.from" || leave "nothing was recorded before"
    make_mark "$mark" || leave "nothing can be written in $kept"
    touched=$(touched_since "$begun")
    [ -z "$touched" ] || leave "$touched has been touched since the gate began, so acquire will prove once more"
    [ "$sum $kit" = "$(sum_of_sources) $(rt version)" ] || leave "the source or the kit has changed, so acquire will prove once more"
    [ -n "$(find "$program" -cnewer "$begun")" ] || leave "rt ci has made no program"
    write_stamp || leave "$stamp can't be written"
    ;;
passed)
    { read -r sum && read -r kit && read -r begun_at; } <"$mark.from" || leave "nothing was recorded before"
    is_built=$(sed -n 3p "$stamp" 2>/dev/null)
    touched=$(touched_in_commit)
    if [ "$begun_at" = none ] || [ "$(commit)" != "$begun_at" ]; then
        leave "the tree isn't that of a commit, so there is nothing to release"
    elif [ -n "$touched" ] || [ "$(sum_of_program)" != "$is_built" ]; then
        leave "${touched:-the program} has been touched since the gate began, so there is nothing to release"
    fi
    printf '%s\n' "$begun_at" "$is_built" "$kit" "$(tail -n 1 "$kept/$2")" >"$kept/passed.new" && mv "$kept/passed.new" "$kept/passed"
    [ "$kit" = "$(cat "$home/tools/kit")" ] || echo "record: tools/kit names another kit than the one that has proved this, $kit" >&2
    sweep
    ;;
*) exit 2 ;;
esac
exit 0
