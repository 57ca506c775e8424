#!/usr/bin/env bash
# Each example, run as a page says, prints what is stored with it, and each transcript of a page is what comes, to the byte.
#
# usage: checks/examples.sh PROGRAM
#
# The pages are README.md, docs/guide.md and each example's own README.md. A command there that reads
# `./acquire WORDS < examples/NAME/INPUT`, where INPUT is `input` or ends in `_input`, prints what is stored under the name that
# has `printed` for `input`. An input that no command names is a failure. Where an example has `target.json`, this network
# answers over a new journal, and what `play` prints is stored as `played`.
#
# A block of README.md or docs/guide.md that begins with `$ ` is a transcript: behind each `$ ` stands a command, and under it all
# that it prints, on standard error too. Where it asks, as `run` and `try` do whose answers come from no file, the line under a
# question is typed, and so is the one under `not an answer`. The commands of a page are run in order, in one folder that begins
# with `acquire` and `examples`. The script `acquire` is told by `--unproved` which program to take; here both are PROGRAM.
set -u
[ $# -eq 1 ] || { sed -n '2,/^set/s/^#.\{0,1\}//p' "$0"; exit 2; }
program=$(realpath "$1") || exit 2
cd "$(dirname "$0")/.." || exit 2
passed=0
failed=0

report() {
    if [ "$1" -eq 0 ]; then
        passed=$((passed + 1))
    else
        failed=$((failed + 1))
        echo "examples: $2"
    fi
}

pages=(README.md docs/guide.md)
commands=$(grep -ohE '\./acquire [^<`]*< examples/[a-z_]+/([a-z_]+_)?input' "${pages[@]}" examples/*/README.md |
    sed 's/ --unproved / /' | sort -u)
for input in examples/*/*input; do
    grep -q "< $input$" <<<"$commands" || report 1 "$input: no page says how to run it"
done
set -f
while read -r _ words; do
    input=${words#*< }
    stored=${input%input}printed
    "$program" ${words%<*} <"$input" 2>&1 | cmp - "$stored"
    report $((PIPESTATUS[0] + PIPESTATUS[1])) "./acquire $words: it ends with another status than 0, or doesn't print $stored"
done <<<"$commands"

folder=$(mktemp -d) || exit 2
trap 'rm -rf "$folder"' EXIT
set +f
for target in examples/*/target.json; do
    stored=${target%target.json}played
    "$program" "$folder/journal" new <"${target%target.json}vocabulary.json" >"$folder/made"
    report $? "$target: new ends with another status than 0"
    "$program" "$folder/journal" play <"$target" 2>&1 | cmp - "$stored"
    report $((PIPESTATUS[0] + PIPESTATUS[1])) "play < $target: it ends with another status than 0, or doesn't print $stored"
    rm -f "$folder/journal"
done
set -f

# Runs a transcript's command in the page's folder: with the lines that are typed it prints those that stand under it.
compare_transcript() {
    [ -n "$command" ] || return
    printed=$(cd "$room" && printf '%s' "$typed" | bash -c "$command" 2>&1; echo .)
    [ "$printed" = "$shown." ]
    report $? "$page, line $at: \`$command\` prints"$'\n'"${printed%.}instead of"$'\n'"$shown"
    command=
}

# Whether the transcript's command waits for a line of the person once it has printed this one.
waits_after() {
    [[ $command =~ \ (run|try) && $command != *'<'* ]] && [[ $1 =~ ^q[0-9]+\  || $1 == 'not an answer' ]]
}

for page in "${pages[@]}"; do
    room=$folder/$(basename "$page" .md)
    mkdir "$room"
    ln -s "$PWD/examples" "$room/examples"
    printf '#!/bin/sh\n[ "$1" != --unproved ] || shift\nexec "%s" "$@"\n' "$program" >"$room/acquire"
    chmod +x "$room/acquire"
    before=$((passed + failed))
    place=text
    command=
    number=0
    while IFS= read -r line; do
        number=$((number + 1))
        case $place:$line in
        text:'```'*) place=opened ;;
        *:'```')
            compare_transcript
            place=text
            ;;
        opened:'$ '* | transcript:'$ '*)
            compare_transcript
            place=transcript
            command=${line#'$ '}
            at=$number
            typed=
            shown=
            is_typed=
            ;;
        block:'$ '*) report 1 "$page, line $number: a command in a block that doesn't begin with one" ;;
        opened:*) place=block ;;
        transcript:*)
            if [ -n "$is_typed" ]; then
                typed+=$line$'\n'
                is_typed=
            else
                shown+=$line$'\n'
                ! waits_after "$line" || is_typed=yes
            fi
            ;;
        esac
    done <"$page"
    [ $((passed + failed)) -gt "$before" ]
    report $? "$page: no transcript"
done

# No words, and a word that isn't UTF-8.
usage=$(grep '^usage: ' docs/formats.md)
for words in "" $':memory: try\xff'; do
    [ "$("$program" $words </dev/null; echo $?)" = "$usage"$'\n1' ]
    report $? "'$words': no usage line as in docs/formats.md, or another status than 1"
done

echo "examples: $passed passed, $failed failed"
[ "$failed" -eq 0 ]
