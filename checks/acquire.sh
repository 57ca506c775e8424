#!/usr/bin/env bash
# The script `acquire` with a stand-in for the kit, which proves nothing: when it builds, when it doesn't, what it says then, and that
# it never takes an unproved program for the proved one.
set -u
top=$(cd "$(dirname "$0")/.." && pwd)
what=acquire
# shellcheck source=checks/stand_in.sh
. "$top/checks/stand_in.sh"

fresh() {
    unbuilt
    printed=$(./acquire j run 2>"$room/said")
}

builds() { lines_of "$room/top/built"; }
compiled() { lines_of "$room/top/compiled"; }

# What a start prints, its status, and how many builds there have been.
start() {
    printed=$(./acquire j run 2>"$room/said")
    echo "$printed $? $(builds)"
}

expect() { report "$1" "$2" "$(start)"; }

# The same without proof: how many tries there have been, and how many lines say so.
start_unproved() {
    printed=$(./acquire --unproved j run 2>"$room/said")
    echo "$printed $? $(compiled) $(grep -c "nothing of this program is proved" "$room/said")"
}

expect_unproved() { report "unproved: $1" "$2" "$(start_unproved)"; }

# Starts a run over a journal beside this script, and goes on once its build waits.
start_slow() {
    rm -f waits
    touch slow
    ./acquire "$@" run >"$room/${*: -1}" 2>&1 &
    await [ -e waits ]
}

# (some rows have two words)
# shellcheck disable=SC2086
help_words() {
    for words in --help -h help "--unproved --help" "--unproved help" "--help run" "j --help" "-h j run" "--plan multi --help"; do
        report "$words" "$usage" "$(bare ./acquire $words 2>"$room/said" | head -n 1)"
        report "$words: status, and nothing is said" "0 " "$(bare ./acquire $words >"$room/printed" 2>"$room/said"; echo $?) $(cat "$room/said")"
    done
}

# shellcheck disable=SC2086
no_words() {
    for words in "" --unproved; do
        report "no words: $words" " 1" "$(bare ./acquire $words 2>"$room/said") $?"
        report "no words: $words: usage" "$usage" "$(head -n 1 "$room/said")"
    done
}

# Words that the program wouldn't take: nothing is built for them, and nothing is asked.
# shellcheck disable=SC2086
wrong_words() {
    for words in j "j shwo" run "--unproved j shwo" "j run --help" "j run more" "j run --budget" "j run --budget=0" "j run --budget five" \
        "j show --budget 5" "j new --plan fast" "j new --plan" "j new --plan multi --plan multi" "j try" ":memory: demo" \
        "--fast j run" ":memory: demo --number 4294967296" "j run --budget 1000000001" "j run --number 3" "help help" "help j" \
        "j --unproved run" "--" "-- j" "-- --help" "-- j -- run" "j run -- --budget 5"; do
        report "wrong words: $words" "$usage 1 0 " "$(bare ./acquire $words 2>"$room/said") $? $(builds) $(cat "$room/said")"
    done
}

# Words that the program would take, and a journal that isn't there: nothing is built for them either.
# shellcheck disable=SC2086
no_file() {
    for words in "help run" "nobody run --budget 5" "nobody show" "nobody back" "nobody reduce" "nobody cnf" "--unproved nobody model" \
        "tools/nobody certify" "-- nobody play" "nobody -- show"; do
        report "no file: $words" "refused journal no session 3 0 1" \
            "$(bare ./acquire $words 2>"$room/said") $? $(builds) $(grep -c "^acquire: no file is named [a-z/]*: new makes one" "$room/said")"
    done
    ln -s nothing leads_nowhere
    for words in "nobody new" ":memory: show" ":memory: check" "nowhere/nobody run" "leads_nowhere run" "j show" \
        "$(printf 'long%.0s' {1..64}) run"; do
        report "a build is tried: $words" " 70" "$(bare ./acquire $words 2>"$room/said") $?"
    done
    rm leads_nowhere
}

# shellcheck disable=SC2086
other_words() {
    for words in "help run" "--plan multi j new" "j new --plan=multi" "j run --budget +7" "j run --budget 007" "j run --budget 1000000000" \
        ":memory: demo --number 0 --budget 5" ":memory: check" "j reduce --budget=1" "j play" "-- j run" "j -- run" "nobody run"; do
        report "words for the program: $words" "one $here $words" "$(./acquire $words 2>&1)"
    done
}

here=$room/top
usage=$(sed -n '/^usage: /p' "$top/docs/formats.md")

unbuilt
help_words
for words in --version -V "-V j" "--version run"; do
    # shellcheck disable=SC2086
    report "$words" "proved with $(cat "$top/tools/kit") 0" "$(bare ./acquire $words 2>"$room/said" | tail -n 1) $?"
done
report "version of a folder" "acquire 1.2.3, of a commit that git can't tell here" "$(./acquire --version | head -n 1)"
echo "1a2b3c4 of 2026-11-29" >tools/commit
report "version of an archive" "acquire 1.2.3, commit 1a2b3c4 of 2026-11-29" "$(./acquire --version | head -n 1)"
no_words
wrong_words
no_file
mv "$room/top" "$room/a 'b"
command=$("$room/a 'b/acquire" --help | sed -n 's/^  \(.*acquire.*\) run$/\1/p')
report "a path with blanks can be copied" "$usage" "$(sh -c "$command" 2>&1)"
mv "$room/a 'b" "$room/top"
report "nothing is built by these" "" "$(ls crates/acquire/out 2>/dev/null)"
if has git "the version of a commit isn't tried"; then
    git init -q . && git add -A && git -c user.name=a -c user.email=a@b commit -q -m one
    report "version of a commit" "acquire 1.2.3, commit $(git log -1 --format='%h of %cs')" "$(./acquire --version | head -n 1)"
    echo more >>HANDLES
    report "version with changes" "acquire 1.2.3, commit $(git log -1 --format='%h of %cs'), with changes" "$(./acquire --version | head -n 1)"
fi

fresh
report "first start" "one $here j run 1" "$printed $(builds)"
report "it says how long that takes" 1 "$(grep -c "^acquire: the whole takes 29 minutes" "$room/said")"
printf '#!/bin/sh\nulimit -S -s\n' >"$room/stacks" && chmod +x "$room/stacks"
# shellcheck disable=SC2016 # (these are the words of the script)
sed "s|^exec \"\$program\" |exec $room/stacks |" acquire >with_stacks
report "its stacks" 1024 "$(sh ./with_stacks j run)"
rm with_stacks
rm "$kit/bin/asked"
expect "second start" "one $here j run 6 1"
report "rt isn't asked" "" "$(cat "$kit/bin/asked" 2>/dev/null)"
other_words

touch crates/low/src/lib.rt
expect "touched" "one $here j run 6 1"
cp crates/low/src/lib.rt "$room/kept"
echo two >crates/low/src/lib.rt
cp "$room/kept" crates/low/src/lib.rt
expect "changed and back" "one $here j run 6 1"
for it in crates/low/must-fail/a.edit crates/beside/src/lib.rt crates/acquire/stdin README.md; do
    echo more >>"$it"
    expect "$it" "one $here j run 6 1"
done
echo "other: low" >>crates.txt
expect "another crate" "one $here j run 6 1"

echo two >crates/low/src/lib.rt
expect "changed" "two $here j run 6 2"
cp -p "$room/kept" crates/low/src/lib.rt
expect "an older file" "one $here j run 6 3"
echo more >crates/low/src/more.rt
expect "a new file" "one $here j run 6 4"
rm crates/low/src/more.rt
expect "a file less" "one $here j run 6 5"
mv crates/beside/src crates/low/proofs
report "a new folder" "one $here j run 6" "$(start | cut -d' ' -f1-5)"
mv crates/low/proofs crates/beside/src

echo BROKEN >crates/low/src/lib.rt
report "broken" " 70" "$(start | cut -d' ' -f1-2)"
report "broken again" " 70" "$(start | cut -d' ' -f1-2)"
report "broken, and unproved" " 70" "$(start_unproved | cut -d' ' -f1-2)"
cp "$room/kept" crates/low/src/lib.rt
report "mended" "one $here j run 6" "$(start | cut -d' ' -f1-5)"

fresh
echo second kit >"$kit/bin/kit"
touch "$kit/bin/rt"
expect "another kit, of which the build sees no change" "one $here j run 6 1"
report "it says so" "the program was built with another kit" "$(sed -n 's/^acquire: \(.*\);.*/\1/p' "$room/said")"
printf '#!/bin/sh\necho other\n' >crates/acquire/out/acquire
expect "another program in its place" "one $here j run 6 2"
rm crates/acquire/out/build.stamp
expect "no stamp" "one $here j run 6 2"

ln -s ../top/acquire "$room/elsewhere/first"
ln -s "$room/elsewhere/first" "$room/elsewhere/second"
report "a link to a link" "one $room/elsewhere j run" "$(cd "$room/elsewhere" && ./second j run 2>&1)"
report "nothing beside it" "first second" "$(cd "$room/elsewhere" && echo *)"
report "no rt, and built" "one $here j run" "$(bare ./acquire j run 2>&1)"
report "no rt, and not built unproved" " 70" "$(bare ./acquire --unproved j run 2>"$room/said") $?"
report "no rt, which is told" 1 "$(grep -c "rt, which .* isn't on the path" "$room/said")"
echo two >crates/low/src/lib.rt
report "no rt, and not built" " 70" "$(bare ./acquire j run 2>"$room/said") $?"
report "no rt, which is told" 1 "$(grep -c "rt, which .* isn't on the path" "$room/said")"

# What is told of a build of three crates, of which the first takes three times its share and the second doesn't end.
foretell() (
    # shellcheck source=tools/progress.sh
    . "$top/tools/progress.sh"
    # shellcheck disable=SC2317 # (what is read in calls it)
    date() { echo "$time"; }
    told_at() {
        time=$1
        look_how_far
        echo "$line"
    }
    kind=proved
    home=$here
    names=$(printf '%s\n' low mid acquire)
    printf 'SECONDS 1000\nlow 100\nacquire 800\n' >tools/shares
    mkdir -p crates/mid/src crates/{low,mid}/out/rlib
    yes | head -n 891 >crates/mid/src/lib.rt
    time=10000
    begin_progress
    rmdir crates/low/out/rlib
    told_at 10000
    mkdir crates/low/out/rlib
    touch crates/low/out/rlib/stamp
    told_at 10300
    told_at 12300
    touch crates/mid/out/rlib/stamp
    told_at 12301
)
unbuilt
report "how far a build is" "0 of 3 crates proved in 0 s, some 16 min left; now a look at all sources
1 of 3 crates proved in 5 min 0 s, some 29 min left; now mid
1 of 3 crates proved in 38 min 20 s, some 106 min left; now mid
2 of 3 crates proved in 38 min 21 s, some 106 min left; now acquire" "$(foretell)"

unbuilt
expect_unproved "first start" "unproved one $here j run 6 1 1"
report "nothing is proved for it" 0 "$(builds)"
report "its tools" "clang -O1 unlinked ld.lld -o program unlinked last" "$(tr '\n' ' ' <"$kit/toolchain/bin/words" | sed 's/ $//')"
rm "$kit/bin/asked"
expect_unproved "second start" "unproved one $here j run 6 1 1"
report "unproved by the environment" "unproved one $here j run 1 0" "$(ACQUIRE_UNPROVED=1 ./acquire j run 2>"$room/said") $(grep -c "nothing of this program is proved" "$room/said") $(builds)"
report "unproved: rt isn't asked" "" "$(cat "$kit/bin/asked" 2>/dev/null)"
expect "the proved one isn't there" "one $here j run 6 1"
report "nothing is said of proof" 0 "$(grep -c "nothing of this" "$room/said")"
expect_unproved "with the proved one" "unproved one $here j run 6 1 1"
touch crates/low/src/lib.rt
expect_unproved "touched" "unproved one $here j run 6 1 1"
echo two >crates/low/src/lib.rt
expect_unproved "changed" "unproved two $here j run 6 2 1"
expect "changed for both" "two $here j run 6 2"

# Each in the place of the other, alone and with its stamp.
cd crates/acquire/out || exit 1
for it in acquire acquire-unproved build.stamp unproved.stamp; do cp -p "$it" "$room/$it"; done
cp "$room/acquire-unproved" acquire
cd ../../..
expect "an unproved one in its place" "two $here j run 6 3"
cp "$room/acquire-unproved" crates/acquire/out/acquire
cp "$room/unproved.stamp" crates/acquire/out/build.stamp
expect "with the stamp of that one" "two $here j run 6 4"
cp "$room/acquire" crates/acquire/out/acquire-unproved
expect_unproved "the proved one in its place" "unproved two $here j run 6 3 1"
cp "$room/acquire" crates/acquire/out/acquire-unproved
cp "$room/build.stamp" crates/acquire/out/unproved.stamp
expect_unproved "with the stamp of that one" "unproved two $here j run 6 4 1"
rm crates/acquire/out/acquire
expect "only the unproved one is there" "two $here j run 6 5"

for row in "links_otherwise:nothing is linked" "links_another:another program is linked" "ld.lld:no linker"; do
    unbuilt
    case $row in
    links*) touch "$kit/bin/${row%%:*}" ;;
    *) mv "$kit/toolchain/bin/ld.lld" "$room/ld.lld" ;;
    esac
    report "unproved: ${row#*:}" " 70" "$(start_unproved | cut -d' ' -f1-2)"
    report "unproved: ${row#*:}: what to do is told" 1 "$(grep -c "to run it once: (cd .* rt try" "$room/said")"
    report "unproved: ${row#*:}: nothing is left" "" "$(find crates/acquire/out "$room/tmp" -mindepth 1 ! -name '*.l*')"
done
mv "$room/ld.lld" "$kit/toolchain/bin/"

unbuilt
start_slow --unproved stopped
kill -s TERM "$!"
wait "$!"
report "unproved: stopped" "143" "$?"
rm slow
report "unproved: nothing is left" "" "$(find crates/acquire/out "$room/tmp" -mindepth 1 ! -name '*.l*')"
expect_unproved "started again" "unproved one $here j run 6 1 1"

fresh
echo two >crates/low/src/lib.rt
start_slow first
./acquire second run >"$room/second" 2>&1 &
await grep -qs 'another start' "$room/second"
rm slow
wait
report "the second waits" 1 "$(grep -c 'another start' "$room/second")"
report "two starts" "two $here first run two $here second run 2" "$(tail -n 1 "$room/first") $(tail -n 1 "$room/second") $(builds)"

echo three >crates/low/src/lib.rt
start_slow during
echo four >crates/low/src/lib.rt
rm slow
wait
report "changed during the build" "four $here during run 4" "$(tail -n 1 "$room/during") $(builds)"

echo five >crates/low/src/lib.rt
start_slow stopped
kill -s TERM "$!"
wait "$!"
report "stopped" "143 0" "$? $(pgrep -fc "$kit/bin/rt")"
rm slow
report "no mark is left" "" "$(find crates/acquire/out -name '*mark*')"
expect "started again" "five $here j run 6 5"

finish
