#!/bin/bash
# Builds a program without proof as the proved one is compiled: optimized in full, and without the tests that `rt try` puts at each
# read and write, where a proof says that they can't fail, and with the sources' inline hints, which `rt try` leaves out
# (tools/hints.py). It takes up to 6 in 100 instructions more than that one, or 2 less, to count them while a change isn't proved yet.
# It is for measuring alone: a bug that a proof would find does anything here.
#
# usage: tools/as_proved.sh PROGRAM      the file to write, a few minutes later
set -u
[ $# -eq 1 ] || { sed -n '2,/^set/s/^#.\{0,1\}//p' "$0"; exit 2; }
home=$(cd -P -- "$(dirname -- "$0")/.." && pwd) || exit 2
program=$(realpath -m -- "$1")
room=$(mktemp -d) || exit 2
trap 'rm -rf "$room"' EXIT
# shellcheck source=tools/unproved.sh
. "$home/tools/unproved.sh"
lay_out_kit || { echo "this kit isn't laid out as expected" >&2; exit 1; }

ln -s "$home/tools/hints.py" "$room/hints.py" || exit 1
# The compiler gets the module as text, whose traps are ends that can't come.
cat >"$room/kit/toolchain/bin/clang" <<'END'
#!/bin/bash
room="${0%/*}/../../.."
real=$room/from/toolchain/bin/clang
words=()
for word; do
    case $word in
    -fsanitize=address) continue ;;
    -O0) word=-O3 ;;
    module.bc)
        "$real" -S -emit-llvm -O0 -Xclang -disable-llvm-passes -x ir module.bc -o module.text.ll || exit
        sed -i '/call void @llvm\.\(ubsan\)\?trap/d; s/ sanitize_address / /g; s/ sanitize_address$//' module.text.ll
        python3 "$room/hints.py" "$room/from/rattle" module.text.ll >/dev/null || exit
        word=module.text.ll
        ;;
    esac
    words+=("$word")
done
exec "$real" "${words[@]}"
END
chmod +x "$room/kit/toolchain/bin/clang"
cd "$home/crates/acquire" || exit 2
"$room/kit/bin/rt" try -- :memory: try <"$home/examples/first/input" >"$room/said" 2>&1
[ -f "$room/linked" ] || { tail -n 5 "$room/said" >&2; exit 1; }
cp "$room/linked" "$program" && chmod +x "$program"
