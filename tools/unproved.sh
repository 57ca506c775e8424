# shellcheck shell=sh disable=SC2034,SC2154 # (who reads this in shares the variables)
# A program without proof that is kept. `acquire` reads this in.
#
# `rt try` compiles the source without proof, runs it once and keeps no program. So it is called over a copy of the kit, made of
# links, in which three of its tools are small scripts: the compiler optimizes, and leaves out the tests of addresses, which make the
# program many times slower; the linker leaves what it linked; the prover, which would look beside them for names that a proof couldn't
# have, and takes a quarter of a build's processor time for that, does nothing. Where the kit calls the others in another way than these
# scripts expect, its words are passed on as they are.

# Lays the copy out in the folder `room`. What is linked there is left as `linked`.
lay_out_kit() {
    page=$(rt doc) && from=$(dirname -- "$page") || return 1
    [ -x "$from/bin/rt" ] && [ -x "$from/toolchain/bin/ld.lld" ] && [ -x "$from/toolchain/bin/clang" ] || return 1
    to=$room/kit
    mkdir -p "$to/bin" "$to/toolchain/bin" && ln -s "$from" "$room/from" || return 1
    link_all "$from" "$to" && link_all "$from/bin" "$to/bin" &&
        link_all "$from/toolchain" "$to/toolchain" && link_all "$from/toolchain/bin" "$to/toolchain/bin" || return 1
    # rt finds its kit by where it lies itself.
    for it in "$from"/bin/rt*; do
        rm "$to/bin/${it##*/}" && cp -p "$it" "$to/bin/" || return 1
    done
    rm "$to/toolchain/bin/ld.lld" "$to/toolchain/bin/clang" || return 1
    cat >"$to/toolchain/bin/clang" <<'END'
#!/bin/sh
for word; do
    shift
    case $word in
    -fsanitize=address) continue ;;
    -O0) word=-O1 ;;
    esac
    set -- "$@" "$word"
done
exec "${0%/*}/../../../from/toolchain/bin/clang" "$@"
END
    cat >"$to/toolchain/bin/ld.lld" <<'END'
#!/bin/sh
room=${0%/*}/../../..
link() { "$room/from/toolchain/bin/ld.lld" "$@"; }
# The library of the tests of addresses is the one that is taken whole.
link_without() {
    whole=
    for word; do
        shift
        [ "$word" != --whole-archive ] || whole=yes
        [ -n "$whole" ] || set -- "$@" "$word"
        [ "$word" != --no-whole-archive ] || whole=
    done
    link "$@"
}
link_without "$@" 2>/dev/null || link "$@" || exit
last=
for word; do
    [ "$last" != -o ] || [ -e "$room/linked" ] || cp "$word" "$room/linked"
    last=$word
done
END
    chmod +x "$to/toolchain/bin/clang" "$to/toolchain/bin/ld.lld"
    [ -e "$to/bin/rattle" ] || return 0
    rm "$to/bin/rattle" && printf '#!/bin/sh\n' >"$to/bin/rattle" && chmod +x "$to/bin/rattle"
}

# Links what lies in one folder into another one, but for what is there.
link_all() {
    for it in "$1"/*; do
        [ -e "$2/${it##*/}" ] || ln -s "$it" "$2/" || return 1
    done
}
