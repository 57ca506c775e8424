# shellcheck shell=sh disable=SC2034,SC2154 # (who reads this in shares the variables)
# What a built program was made from, and whether it still is what would be built. `acquire` and the scripts beside this one
# read this in; before that `home` is the repository.
#
# There are two programs: the proved one, and one of the same source without proof. Each has a stamp beside it, which says
# which of the two it is and what it was built from. It holds as long as nothing of that has been touched since. Else the
# checksums decide, so that a file which was touched and is as before costs no proof.

# Takes one of the programs, `proved` or `unproved`, for what follows.
take() {
    kind=$1
    out=$home/crates/acquire/out
    case $kind in
    proved) program=$out/acquire name=build ;;
    unproved) program=$out/acquire-unproved name=unproved ;;
    esac
    stamp=$out/$name.stamp
    log=$out/$name.log
    lock=$out/$name.lock
    mark=$out/$name.mark.$$
    begun=$mark.begun
}

# The marks are this start's alone.
sweep() { rm -f "$mark" "$mark".*; }

# Finds what the build reads: `crates` has the line of crates.txt of each crate that the program stands on, lowest first, as
# rt goes through them, and `sources` the other files and the folders, as seen from the top.
look() {
    rt=$(command -v rt)
    crates=$(awk '
        function visit(name, i, count, words) {
            if (!(name in below) || seen[name]++) return
            count = split(below[name], words, " ")
            for (i = 1; i <= count; i++) visit(words[i])
            print name ":" below[name]
        }
        { sub(/#.*/, "") }
        split($0, sides, ":") > 1 { split(sides[1], words, " "); below[words[1]] = sides[2] }
        END { visit("acquire") }
    ' "$home/crates.txt")
    names=$(printf '%s\n' "$crates" | sed 's/:.*//')
    sources=HANDLES
    for crate in $names; do
        for part in src specs proofs; do
            [ -d "$home/crates/$crate/$part" ] && sources="$sources crates/$crate/$part"
        done
    done
    place="$home ${rt:--} $sources"
}

# Names a source, rt or one of some more files, if it has been touched since a file was written. The time that counts is the
# system's and can't be set back. Where a file can't be looked at, that is told instead.
touched_since() {
    since=$1
    shift
    # (the sources are words)
    # shellcheck disable=SC2086
    { cd "$home" && find -L "$rt" crates.txt $sources "$@" -cnewer "$since"; } 2>&1 | head -n 1
}

# Makes a file whose time lies behind all that was done before and before all that is done from now on.
make_mark() {
    touch "$1" || return 1
    until [ -n "$(find "$1.later" -newer "$1" 2>/dev/null)" ]; do
        touch "$1.later" || return 1
    done
    rm "$1.later"
}

sum_of_sources() {
    (
        cd "$home" || exit
        {
            printf '%s\n' "$crates"
            # shellcheck disable=SC2086
            find $sources -type f -exec sha256sum {} + | LC_ALL=C sort
        } | sha256sum
    )
}

sum_of_program() { sha256sum <"$program"; }

# Writes the stamp, with the time of the mark: what is touched from then on counts as new.
write_stamp() {
    printf '%s\n' "$kind" "$sum" "$(sum_of_program)" "$kit" "$place" >"$mark.stamp" &&
        touch -r "$mark" "$mark.stamp" && mv "$mark.stamp" "$stamp"
}

# Whether the program is what would be built now. Else `why` says why it isn't.
is_current() {
    why="the program isn't built yet"
    [ "$kind" = proved ] || why="no unproved program is built yet"
    [ -x "$program" ] || return 1
    why="it isn't known what the program was built from"
    [ -r "$stamp" ] || return 1
    {
        read -r built_as
        read -r built_from
        read -r built
        read -r built_with
        read -r built_at
    } <"$stamp"
    [ "$built_as" = "$kind" ] || return 1
    [ "$place" = "$built_at" ] && [ -z "$(touched_since "$stamp" "$program")" ] && return 0
    make_mark "$mark" 2>/dev/null
    sum=$(sum_of_sources)
    # Without rt no other kit is there to build with.
    kit=$built_with
    [ -n "$rt" ] && kit=$(rt version)
    if [ "$sum" != "$built_from" ]; then
        why="the source has changed since the program was built"
    elif [ "$kit" != "$built_with" ]; then
        why="the program was built with another kit"
    elif [ "$(sum_of_program)" = "$built" ]; then
        [ -n "$rt" ] && write_stamp 2>/dev/null
        why=
    else
        why="another program stands in its place"
    fi
    sweep
    [ -z "$why" ]
}
