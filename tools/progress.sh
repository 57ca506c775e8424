# shellcheck shell=sh disable=SC2034,SC2154 # (who reads this in shares the variables)
# How far a build is, and about how long it still takes. `acquire` reads this in.

# Finds what share of the whole each crate has: `shares` has for each crate how much is left when its proof begins, and how much
# when it ends.
begin_progress() {
    began=$(date +%s)
    count=$(printf '%s\n' "$names" | wc -l)
    shares=$(
        for crate in $names; do
            share=$(sed -n "s/^$crate //p" "$home/tools/shares")
            [ -n "$share" ] || share=$(($(find "$home/crates/$crate/src" -type f -exec cat {} + | wc -l) / 9 + 1))
            echo "$crate $share"
        done | awk '{ name[NR] = $1; share[NR] = $2 }
            END { for (i = NR; i > 0; i--) { after = left; left += share[i]; print name[i], left, after + 0 } }'
    )
    whole=$(printf '%s\n' "$shares" | awk 'END { print $2 }')
    measured=$(sed -n 's/^SECONDS //p' "$home/tools/shares")
    of_one=$(sed -n 's/^OF_ONE //p' "$home/tools/shares")
    at=
    first=
}

# How long the build has taken so far.
so_far() {
    passed=$(($(date +%s) - began))
    [ "$passed" -lt 60 ] || printf '%s min ' $((passed / 60))
    printf '%s s' $((passed % 60))
}

# Finds how far the build is, as `line`. rt removes a library before it builds it anew, and writes the library's own stamp last.
look_how_far() {
    if [ "$kind" = unproved ]; then
        line="compiling for $(so_far)"
        return
    fi
    proved=0
    for crate in $names; do
        library=$home/crates/$crate/out/rlib
        [ -f "$library/stamp" ] || break
        proved=$((proved + 1))
    done
    now=$crate
    [ "$proved" -gt 0 ] || [ -d "$library" ] || now="a look at all sources"
    look_ahead
    [ "$ahead" -lt 60 ] && ahead="under 1 min" || ahead="some $((ahead / 60)) min"
    line="$proved of $count crates proved in $(so_far), $ahead left; now $now"
}

# Finds how many seconds the build still takes while `crate` is proved, as `ahead`. What was measured elsewhere counts as much as a
# tenth of the whole that is proved here, so after a few crates it is this machine that tells.
look_ahead() {
    passed=$(($(date +%s) - began))
    if [ "$crate" != "$at" ]; then
        at=$crate
        since=$passed
        left=$(printf '%s\n' "$shares" | sed -n "s/^$crate //p")
        after=${left#* }
        left=${left% *}
        first=${first:-$left}
    fi
    tenth=$((whole / 10 + 1))
    spent=$((since + measured * tenth / whole))
    behind=$((first - left + tenth))
    ahead=$((spent * left / behind + since - passed))
    # One that takes longer than its share is nearly done, and what it took tells how slow this machine is.
    after_this=$(((spent + passed - since) * after / (behind + left - after)))
    [ "$ahead" -ge "$after_this" ] || ahead=$after_this
}

# Shows it while the build runs: each second in one line of a terminal, else each half minute.
show_progress() {
    told=0
    while kill -0 "$job" 2>/dev/null; do
        if [ -t 2 ]; then
            look_how_far
            printf '\r%-79.79s' "$line" >&2
        elif [ $((($(date +%s) - began) / 30)) -gt "$told" ]; then
            told=$((($(date +%s) - began) / 30))
            look_how_far
            complain "$line"
        fi
        sleep 1 >/dev/null 2>&1
    done
}

end_progress() {
    kill "$teller" 2>/dev/null
    wait "$teller" 2>/dev/null
    teller=
    [ ! -t 2 ] || printf '\r%79s\r' '' >&2
}
