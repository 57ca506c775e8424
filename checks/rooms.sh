#!/usr/bin/env bash
# The package of desk: its types, and its tests that need no program; that its rooms import downward, and that no line is wider than
# pyproject.toml has it, are two of them.
#
# usage: checks/rooms.sh
set -u
[ $# -le 1 ] || { sed -n '2,/^set/s/^#.\{0,1\}//p' "$0"; exit 2; }
export PYTHONDONTWRITEBYTECODE=1
cd "$(dirname "$0")/../desk" || exit 2
passed=0
failed=0

report() {
    if [ "$1" -eq 0 ]; then
        passed=$((passed + 1))
    else
        failed=$((failed + 1))
        echo "rooms: $2"
    fi
}

if command -v mypy >/dev/null; then
    # mypy looks for libraries where the Python has them that runs it
    python=$(sed -n '1s/^#! *//p' "$(command -v mypy)")
    loose=()
    if ! $python -c 'import flask, waitress, rich' 2>/dev/null; then
        echo "rooms: flask, waitress or rich isn't there, so what is taken from them is of any type"
        loose=(--ignore-missing-imports --allow-untyped-decorators --allow-subclassing-any --no-warn-return-any --no-warn-unused-ignores)
    fi
    said=$(mypy --no-incremental --cache-dir=/dev/null "${loose[@]}" 2>&1)
    report $? "mypy finds a type that doesn't fit: (cd desk && mypy)
$said"
else
    echo "rooms: passed over: mypy isn't there, so no types are tried"
fi
said=$(python3 -W error -m unittest discover -q 2>&1)
report $? "$said"

echo "rooms: $passed passed, $failed failed"
[ "$failed" -eq 0 ]
