#!/bin/sh
# Installs what the checks behind the gate use and the machine lacks, where this runs as root and the system has packages: a C
# compiler (memory.py), strace (faults.py), a SAT solver (models.py), mypy (python.sh, rooms.sh), jsonschema (schema.py), the
# libraries of desk (rooms.sh, web.py), clang's runtime (threads.sh), tmux and a reader of PDF (desk.py), a browser and its driver
# (web.py). All of it comes here, since two checks side by side wouldn't get at the packages at once. It says so before, and
# NO_INSTALL=1 forbids it. It never fails: each check says by itself what it passes over.
#
# usage: tools/needed.sh
set -u

missing=
command -v cc >/dev/null || missing="$missing gcc libc6-dev"
command -v strace >/dev/null || missing="$missing strace"
command -v cadical >/dev/null || command -v kissat >/dev/null || command -v minisat >/dev/null || command -v clasp >/dev/null ||
    missing="$missing cadical"
command -v mypy >/dev/null || missing="$missing mypy"
python3 -c 'import jsonschema' 2>/dev/null || missing="$missing python3-jsonschema"
/usr/bin/python3 -c 'import flask, waitress, rich' 2>/dev/null || missing="$missing python3-flask python3-waitress python3-rich"
command -v tmux >/dev/null || missing="$missing tmux"
command -v pdfinfo >/dev/null || missing="$missing poppler-utils"
command -v chromium >/dev/null || missing="$missing chromium"
command -v chromedriver >/dev/null || missing="$missing chromium-driver"
/usr/bin/python3 -c 'import selenium' 2>/dev/null || missing="$missing python3-selenium"
find /usr/lib/llvm-* -name 'libclang_rt.tsan-*.a' 2>/dev/null | grep -q . || missing="$missing libclang-rt-14-dev"
[ -n "$missing" ] || exit 0

if [ -n "${NO_INSTALL-}" ] || [ "$(id -u)" -ne 0 ] || ! command -v apt-get >/dev/null; then
    echo "tools: not installed, and checks that want them pass over what they can't do:$missing"
    exit 0
fi
echo "tools: installing by apt-get, which NO_INSTALL=1 would forbid:$missing"
apt-get update >/dev/null 2>&1
for package in $missing; do
    DEBIAN_FRONTEND=noninteractive apt-get -o DPkg::Lock::Timeout=300 install -y --no-install-recommends "$package" >/dev/null 2>&1 ||
        echo "tools: $package could not be installed, and checks that want it pass over what they can't do"
done
exit 0
