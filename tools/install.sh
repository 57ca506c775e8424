#!/bin/sh
# Puts the proved program, its manual, the completion of its words and its pages where a system has such files. With desk/ there it puts
# `desk` beside them.
#
# usage: tools/install.sh [--remove] DESTDIR PREFIX
#
# bin/acquire is a small start over lib/acquire/acquire, which is the proved program: it has a help and a version, gives the threads
# small stacks, and passes everything else on as it is. The pages stand as they do in the repository, so that their links lead on.
set -u
umask 022
remove=
if [ "${1-}" = --remove ]; then
    remove=yes
    shift
fi
case $#:${2-} in
2:/*) ;;
*)
    sed -n '2,/^set/s/^#.\{0,1\}//p' "$0" >&2
    echo "PREFIX begins with /." >&2
    exit 2
    ;;
esac
home=$(cd -P -- "$(dirname -- "$0")/.." && pwd) || exit 1
to=$1${2%/}
room=$(mktemp -d) || exit 1
trap 'rm -rf "$room"' EXIT

put() {
    mode=$1 file=$2 place=$3
    if [ -n "$remove" ]; then
        rm -f "$to/$place"
    else
        mkdir -p "$(dirname -- "$to/$place")" && cp "$file" "$to/$place.new" && chmod "$mode" "$to/$place.new" &&
            mv "$to/$place.new" "$to/$place" && echo "$to/$place"
    fi || exit 1
}

# Puts the files of the repository that these names and folders have into a folder, as they stand here.
put_files() {
    into=$1
    shift
    (cd "$home" && find "$@" -type f ! -path '*/__pycache__/*' 2>/dev/null) | LC_ALL=C sort >"$room/files"
    while IFS= read -r it; do
        put 644 "$home/$it" "$into/$it"
    done <"$room/files"
}

program=
[ -n "$remove" ] || program=$("$home/tools/proved.sh") || exit
cat >"$room/start" <<'END'
#!/bin/sh
# Starts the program acquire, with stacks of 1 MB: of larger ones the C library keeps fewer than the threads of a question need.
at=$(dirname -- "$(readlink -f -- "$0")")/../lib/acquire
case $#:${1-} in
1:--help | 1:-h) exec cat "$at/help" ;;
1:--version | 1:-V) exec cat "$at/version" ;;
esac
ulimit -S -s 1024 2>/dev/null
exec "$at/acquire" "$@"
END
if [ -z "$remove" ]; then
    "$home/acquire" --version >"$room/version" || exit 1
    "$home/acquire" --help | sed '/^This script has words/,$d' >"$room/help" || exit 1
    printf '%s\n' "man acquire has each word and format, and share/doc/acquire all pages." >>"$room/help"
fi
put 755 "$room/start" bin/acquire
put 755 "$program" lib/acquire/acquire
put 644 "$room/version" lib/acquire/version
put 644 "$room/help" lib/acquire/help
put 644 "$home/man/acquire.1" share/man/man1/acquire.1
put 644 "$home/completions/acquire.bash" share/bash-completion/completions/acquire
put 644 "$home/completions/_acquire" share/zsh/site-functions/_acquire
put_files share/doc/acquire README.md CHANGELOG.md CITATION.cff CONTRIBUTING.md THIRD-PARTY.md LICENSE-MIT LICENSE-APACHE docs examples desk/README.md desk/cases
put_files lib/acquire python/acquire
if [ -f "$home/desk/desk" ]; then
    cat >"$room/desk" <<'END'
#!/bin/sh
# Starts desk. It takes the program acquire that lies beside this script, unless DESK_ACQUIRE names another one.
at=$(dirname -- "$(readlink -f -- "$0")")
command -v python3 >/dev/null || { echo "desk: it needs Python from 3.11 on, and no python3 is on the path" >&2; exit 1; }
DESK_ACQUIRE=${DESK_ACQUIRE:-$at/acquire} exec "$at/../lib/acquire/desk/desk" "$@"
END
    put 755 "$room/desk" bin/desk
    put 755 "$home/desk/desk" lib/acquire/desk/desk
    put_files lib/acquire desk/planners_desk desk/cases
    [ -f "$home/desk/desk.1" ] && put 644 "$home/desk/desk.1" share/man/man1/desk.1
    put 644 "$home/completions/desk.bash" share/bash-completion/completions/desk
    put 644 "$home/completions/_desk" share/zsh/site-functions/_desk
fi
if [ -n "$remove" ]; then
    for folder in lib/acquire share/doc/acquire; do
        [ ! -d "$to/$folder" ] || find "$to/$folder" -depth -type d -empty -delete
    done
fi
exit 0
