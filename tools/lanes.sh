#!/bin/sh
# How many proofs go side by side: one a processor, and 2.5 GB of free memory for each. What rt plans by itself reckons with up to four
# times what a proof takes, and leaves processors idle.
#
# usage: tools/lanes.sh      prints the number
set -u
processors=$(nproc 2>/dev/null || echo 1)
free=$(awk '/^MemAvailable:/ {print int($2 / 1024)}' /proc/meminfo 2>/dev/null)
# A group of processes may have less than the machine.
most=$(cat /sys/fs/cgroup/memory.max 2>/dev/null)
held=$(cat /sys/fs/cgroup/memory.current 2>/dev/null)
case ${most:-max}${held:-max} in
*[!0-9]*) ;;
*)
    left=$(((most - held) / 1048576))
    [ "$left" -ge "${free:-$left}" ] || free=$left
    ;;
esac
lanes=$((${free:-2500} / 2500))
[ "$lanes" -le "$processors" ] || lanes=$processors
[ "$lanes" -ge 1 ] || lanes=1
echo "$lanes"
