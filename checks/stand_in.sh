# shellcheck shell=bash disable=SC2034,SC2154 # (who reads this in shares the variables)
# A stand-in for the kit, which proves nothing, and a repository of three crates for it. checks/acquire.sh and checks/gate.sh read
# this in.
#
# `rt run` and `rt ci` build a program that prints the text of one source and its words, and `rt try` has the linker make one that
# says `unproved` besides. None of them takes a source with the word BROKEN. A line in `built` is left for each build and one in
# `compiled` for each try. Once rt has read the source it waits while there is a file `slow`. A program that is to run the first
# example prints nothing, as `examples/first/printed` has it.
room=$(mktemp -d)
trap 'rm -rf "$room"' EXIT
passed=0
failed=0
kit=$room/kit
mkdir -p "$kit/bin" "$kit/toolchain/bin" "$kit/toolchain/lib" "$room/elsewhere" "$room/tmp"
export TMPDIR=$room/tmp GIT_CONFIG_GLOBAL=/dev/null GIT_CONFIG_NOSYSTEM=1
cat >"$kit/bin/rt" <<'END'
#!/bin/sh
here=$(cd "$(dirname "$0")" && pwd)
echo "$1" >>"$here/asked"
case $1 in
version) exec cat "$here/kit" ;;
doc) exec echo "$(dirname "$here")/START-HERE.md" ;;
ci) ;;
*) cd ../.. || exit 2 ;;
esac
make_program() {
    printf '#!/bin/sh\n[ "$*" = ":memory: try" ] && exit\necho "%s $(pwd) $*"\nexit 6\n' "$1" >"$2.new"
    chmod +x "$2.new"
    mv "$2.new" "$2"
}
was=$(cat crates/low/src/* crates/acquire/src/*)
text=$(cat crates/low/src/lib.rt)
while [ -e slow ]; do
    touch waits
    sleep 0.1
done
if grep -q BROKEN crates/low/src/lib.rt; then
    echo "1 passed, 1 failed"
    exit 3
fi
program=crates/acquire/out/acquire
case $1 in
run)
    [ "$was $(cksum <$program)" = "$(cat kept 2>/dev/null)" ] && exit
    echo build >>built
    make_program "$text" $program
    echo "$was $(cksum <$program)" >kept
    ;;
ci)
    rm -rf crates/*/out
    mkdir crates/acquire/out
    make_program "$text" $program
    [ ! -e crates/low/must-fail/unfit.edit ] || echo "rt: must-fail low/unfit.edit: BAD EDIT: it did not reach the prover"
    echo "5 passed, 0 failed"
    ;;
try)
    echo try >>compiled
    make_program "unproved $text" "$here/../unlinked"
    cd "$here/.." || exit 2
    toolchain/bin/clang -O0 -fsanitize=address unlinked || exit
    [ ! -e bin/links_another ] || printf '#!/bin/sh\nexit 5\n' >unlinked
    [ -e bin/links_otherwise ] || "$here/../toolchain/bin/ld.lld" -o program unlinked --whole-archive tests --no-whole-archive last
    ;;
esac
END
# The tools of the stand-in note their words in its folder.
cat >"$kit/toolchain/bin/clang" <<'END'
#!/bin/sh
echo "clang $*" >>"$(cd -P "$(dirname "$0")" && pwd)/words"
END
cat >"$kit/toolchain/bin/ld.lld" <<'END'
#!/bin/sh
echo "ld.lld $*" >>"$(cd -P "$(dirname "$0")" && pwd)/words"
cp unlinked "$2"
END
chmod +x "$kit/bin/rt" "$kit"/toolchain/bin/*
PATH=$kit/bin:$PATH

# A repository of three crates, of which the program needs two. Nothing is built there. It has the files that the checks name as journals,
# since no command begins a build to say that there is no file.
unbuilt() {
    cd "$room" && rm -rf "$room/top"
    mkdir -p "$room/top/examples/first" "$room"/top/crates/{low,acquire,beside}/{src,specs,must-fail}
    cp -r "$top/acquire" "$top/tools" "$room/top/"
    cd "$room/top" || exit 1
    printf 'low: # the lowest\nbeside: low\nacquire: low json\n' >crates.txt
    echo 1.2.3 >VERSION
    touch HANDLES j first second during stopped examples/first/{input,printed} crates/beside/src/lib.rt crates/acquire/src/main.rt crates/low/specs/Lib.antt
    echo one >crates/low/src/lib.rt
    echo first kit >"$kit/bin/kit"
    rm -f "$kit/bin/asked" "$kit"/bin/links_* "$kit/toolchain/bin/words"
}

# The tools of a system without a kit.
bare() {
    mkdir -p "$room/bare"
    for it in sh awk sed find head tail sha256sum sort touch mv rm cut dirname readlink mkdir mktemp cat date wc sleep; do
        ln -sf "$(command -v $it)" "$room/bare/"
    done
    PATH=$room/bare "$@"
}

report() {
    if [ "$2" = "$3" ]; then
        passed=$((passed + 1))
    else
        failed=$((failed + 1))
        echo "$what: $1: '$3' and not '$2'"
    fi
}

# Says what is passed over, where a tool isn't there.
has() { command -v "$1" >/dev/null || { echo "$what: passed over: $1 isn't there, so $2" && false; }; }

lines_of() { if [ -e "$1" ]; then wc -l <"$1"; else echo 0; fi; }

await() {
    for _ in {1..1200}; do
        "$@" && return
        sleep 0.1
    done
}

finish() {
    echo "$what: $passed passed, $failed failed"
    [ "$failed" -eq 0 ]
}
