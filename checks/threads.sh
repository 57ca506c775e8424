#!/usr/bin/env bash
# A build of the program that reports races between threads, and one that reports wrong addresses: a hundred sessions and two plays
# with the first, some of them with the second, and no report.
#
# Both come of one `rt try`, over a copy of the kit whose compiler and linker are small scripts, as tools/unproved.sh lays it out. The
# kit marks each function for AddressSanitizer, and links that: this program is kept, since `rt try` runs it for one session alone. The
# compiler takes the module once more as text, marked for ThreadSanitizer, whose runtime the kit lacks: it is Debian's
# (libclang-rt-14-dev). A race is planted in a small program in C first, which has to be reported.
#
# Where the runtime isn't there, or a build of the kit calls its tools in another way, all is passed over, and a line says so.
set -u
top=$(cd "$(dirname "$0")/.." && pwd)
room=$(mktemp -d)
trap 'rm -rf "$room"' EXIT
passed=0
failed=0
# A thread that is reported ends with status 66, so that a check that compares the status fails as well.
export TSAN_OPTIONS="log_path=$room/report exitcode=66" ASAN_OPTIONS="log_path=$room/report" PYTHONDONTWRITEBYTECODE=1

pass_over() {
    echo "threads: passed over: $1"
    echo "threads: 0 passed, 0 failed, 1 passed over"
    exit 0
}

report() {
    if [ "$1" -eq 0 ]; then
        passed=$((passed + 1))
    else
        failed=$((failed + 1))
        echo "threads: $2"
    fi
}

# The newest runtime of ThreadSanitizer that is installed for this machine.
find_runtime() {
    find /usr/lib/llvm-*/lib/clang /usr/lib/clang -name "libclang_rt.tsan-$(uname -m).a" 2>/dev/null | sort -V | tail -n 1
}

# The compiler and the linker do as the kit's do, and then the same once more for threads.
lay_out_tools() {
    cat >"$room/kit/toolchain/bin/clang" <<'END'
#!/bin/bash
room="${0%/*}/../../.."
real=$room/from/toolchain/bin/clang
"$real" "$@" || exit
# Of the modules the one that is marked is the program.
[[ " $* " == *" -fsanitize=address "* && -e module.bc ]] || exit 0
"$real" -S -emit-llvm -O0 -Xclang -disable-llvm-passes -x ir module.bc -o threads.ll || exit
sed -i 's/\<sanitize_address\>/sanitize_thread/g' threads.ll
words=()
last=
for word; do
    [ "$last" != -o ] || { cp "$word" "$room/addresses.o" && word=$room/threads.o; }
    last=$word
    case $word in
    -fsanitize=address) word=-fsanitize=thread ;;
    module.bc) word=threads.ll ;;
    esac
    words+=("$word")
done
exec "$real" "${words[@]}"
END
    cat >"$room/kit/toolchain/bin/ld.lld" <<'END'
#!/bin/bash
room="${0%/*}/../../.."
real=$room/from/toolchain/bin/ld.lld
"$real" "$@" || exit
words=()
last=
marked=
for word; do
    case $last in
    -o) made=$word word=$room/threads ;;
    --whole-archive) word=$room/tsan.a ;;
    esac
    # (each tool is called in a folder of its own, to which what it reads is copied)
    [ -f "$word" ] && cmp -s -- "$word" "$room/addresses.o" && marked=yes word=$room/threads.o
    last=$word
    words+=("$word")
done
[ -n "$marked" ] || exit 0
# The kit's compiler is newer than the runtime, which knows these calls by other names.
for it in memset memcpy memmove; do words+=("--defsym=__tsan_$it=__interceptor_$it"); done
cp "$made" "$room/addresses" && exec "$real" "${words[@]}" --dynamic-list="$room/tsan.a.syms"
END
    chmod +x "$room/kit/toolchain/bin/clang" "$room/kit/toolchain/bin/ld.lld"
}

# Builds $room/threads and $room/addresses.
build() {
    # shellcheck source=tools/unproved.sh
    . "$top/tools/unproved.sh"
    lay_out_kit || return 1
    lay_out_tools
    ln -s "$runtime" "$room/tsan.a" && ln -s "$runtime.syms" "$room/tsan.a.syms" || return 1
    (cd "$top/crates/acquire" && "$room/kit/bin/rt" try -- :memory: try <"$top/examples/first/input") >"$room/said" 2>&1
    [ -x "$room/threads" ] && [ -x "$room/addresses" ]
}

# Two threads that add to one number, compiled and linked as the program is.
plant_race() {
    cat >"$room/race.c" <<'END'
typedef unsigned long thread;
int pthread_create(thread *, const void *, void *(*)(void *), void *);
int pthread_join(thread, void **);
static long number;
static void *add(void *unused) {
    number++;
    return unused;
}
int main(void) {
    thread one, two;
    pthread_create(&one, 0, add, 0);
    pthread_create(&two, 0, add, 0);
    pthread_join(one, 0);
    pthread_join(two, 0);
    return 0;
}
END
    local tools=$kit/toolchain/bin from=$kit/toolchain/lib
    "$tools/clang" -O1 -fPIE -fsanitize=thread -c "$room/race.c" -o "$room/race.o" &&
        "$tools/ld.lld" -pie --eh-frame-hdr -dynamic-linker "$(echo /lib*/ld-linux-*.so.*)" -o "$room/race" \
            "$from/Scrt1.o" "$from/crti.o" "$from/crtbeginS.o" --whole-archive "$runtime" --no-whole-archive \
            --dynamic-list="$runtime.syms" "$room/race.o" "$from/libm.so.6" "$from/libgcc_s.so.1" "$from/libc.so.6" \
            "$from/libc_nonshared.a" "$from/libgcc.a" "$from/crtendS.o" "$from/crtn.o"
}

reports() { cat "$room"/report.* 2>/dev/null; }

# Sessions with a program: how many, and the examples that are played.
sessions() {
    program=$1
    said=$("$top/checks/owners.py" "$program" "$2")
    report $? "$3: $said"
    for it in "${@:4}"; do
        "$program" "$room/$it.$3" new --plan multi <"$top/examples/$it/vocabulary.json" >/dev/null &&
            "$program" "$room/$it.$3" play <"$top/examples/$it/target.json" >/dev/null
        report $? "$3: the example $it isn't played"
    done
    said=$(reports)
    [ -z "$said" ]
    report $? "$3: $(echo "$said" | head -n 20)"
}

runtime=$(find_runtime)
[ -n "$runtime" ] || pass_over "clang's runtime isn't there: apt-get install libclang-rt-14-dev"
page=$(rt doc) && kit=$(dirname -- "$page")
plant_race 2>"$room/said" || pass_over "the kit's tools don't link a program with clang's runtime: $(head -n 1 "$room/said")"
"$room/race" >"$room/said" 2>&1
reports | grep -q "FATAL: ThreadSanitizer" && pass_over "clang's runtime doesn't start here: $(reports | grep FATAL)"
reports | grep -q "ThreadSanitizer: data race"
report $? "a planted race isn't reported"
rm -f "$room"/report.*

build || pass_over "no program is built: $(tail -n 1 "$room/said")"
sessions "$room/threads" 100 threads roster timetable
sessions "$room/addresses" 60 addresses roster
echo "threads: $passed passed, $failed failed"
[ "$failed" -eq 0 ]
