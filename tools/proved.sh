#!/bin/sh
# Prints where the proved program is. Where there is none, or it isn't what would be built now, it says why, and ends with status 70.
set -u
home=$(cd -P -- "$(dirname -- "$0")/.." && pwd) || exit 70
# shellcheck source=tools/stamps.sh
. "$home/tools/stamps.sh"
take proved
look
if ! is_current; then
    echo "$why: $home/acquire :memory: try < $home/examples/first/input proves and builds it" >&2
    exit 70
fi
echo "$program"
