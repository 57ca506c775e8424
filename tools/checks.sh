#!/bin/sh
# Runs the checks of checks/ on a built program, as many side by side as there are processors; desk.py before the others, since it
# reads terminals while they are drawn, and wrong_bodies.py behind them, since it compiles three programs side by side. What one
# prints comes in one piece when it ends, and the last line counts. .ci/run and check-quick call it.
#
# usage: tools/checks.sh PROGRAM [LEFT-OUT]
#
# Each file of checks/ that can be run is one, so that a new check is in the gate without a line anywhere, but for LEFT-OUT. All are
# run, also where one has failed; the status is 1 then.
set -u
[ $# -eq 1 ] || [ $# -eq 2 ] || { sed -n '2,/^set/s/^#.\{0,1\}//p' "$0"; exit 2; }
home=$(cd -P -- "$(dirname -- "$0")/.." && pwd) || exit 2
program=$1
room=$(mktemp -d) || exit 2
trap 'rm -rf "$room"' EXIT
trap 'exit 130' HUP INT TERM
"$home/tools/needed.sh"

# Those that take longest begin first.
{
    for it in trials.py web.py desk.py must_not_compile.sh demos.py walks.py owners.py threads.sh certs.py kills.py memory.py; do
        [ ! -x "$home/checks/$it" ] || echo "$home/checks/$it"
    done
    find "$home/checks" -maxdepth 1 -type f -perm -u+x | sort
} | awk -v left_out="$home/checks/${2-}" '!seen[$0]++ && $0 != left_out' | tr '\n' '\0' >"$room/checks"

# The words of the shell that runs a check are the folder, the program, what is kept between runs, and the file of the check.
# shellcheck disable=SC2016
side_by_side() {
    xargs -0 -r -n 1 -P "$1" sh -c '
    name=$(basename "$3")
    case $name in
    wrong_bodies.py) "$3" --room "$2" ;;
    *) "$3" "$1" ;;
    esac >"$0/$name.said" 2>&1
    echo "$?" >"$0/$name.status"
    echo "== $name: $(grep -qx 0 "$0/$name.status" && echo passed || echo "failed, with status $(cat "$0/$name.status")")
$(cat "$0/$name.said")"
' "$room" "$program" "$home/.ci/out/wrong_bodies"
}
grep -z '/desk\.py$' <"$room/checks" | side_by_side 1
grep -zv -e '/desk\.py$' -e '/wrong_bodies\.py$' <"$room/checks" | side_by_side "$(nproc)"
grep -z '/wrong_bodies\.py$' <"$room/checks" | side_by_side 1

count=$(tr -cd '\0' <"$room/checks" | wc -c)
passed=$(cat "$room"/*.status 2>/dev/null | grep -cx 0)
over=$(cat "$room"/*.said 2>/dev/null | grep -c '^[a-z_]*: passed over: ')
echo "checks: $passed passed, $((count - passed)) failed, $over passed over"
[ "$passed" -eq "$count" ]
