#!/usr/bin/env bash
# The client for Python: its types, its tests, the sessions of docs/python.md, and the experiment of examples/, whose table is the page's.
#
# usage: checks/python.sh PROGRAM
set -u
[ $# -eq 1 ] || { sed -n '2,/^set/s/^#.\{0,1\}//p' "$0"; exit 2; }
ACQUIRE=$(realpath "$1") || exit 2
export ACQUIRE PYTHONDONTWRITEBYTECODE=1
cd "$(dirname "$0")/.." || exit 2
passed=0
failed=0

report() {
    if [ "$1" -eq 0 ]; then
        passed=$((passed + 1))
    else
        failed=$((failed + 1))
        echo "python: $2"
    fi
}

if command -v mypy >/dev/null; then
    (cd python && mypy --no-incremental --cache-dir=/dev/null acquire) >/dev/null
    report $? "mypy finds a type that doesn't fit: (cd python && mypy acquire)"
else
    echo "python: passed over: mypy isn't there, so no types are tried"
fi
said=$(cd python && python3 -W error -m unittest discover -q 2>&1)
report $? "$said"
said=$(PYTHONPATH=python python3 -m doctest docs/python.md)
report $? "$said"
cmp <(sed -n '/^| task | plan |/,/^```/p' docs/python.md | sed '/^```/d') <(examples/experiment/experiment.py quacq multi)
report $? "the experiment's table isn't the one of docs/python.md"

echo "python: $passed passed, $failed failed"
[ "$failed" -eq 0 ]
