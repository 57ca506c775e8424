#!/bin/sh
# Makes a tar file for those who have no kit, of the proved program of a commit whose gate has passed.
#
# usage: ./release.sh FOLDER
#
# FOLDER gets acquire-VERSION-COMMIT.tar.gz. .ci/run leaves a record of what it has passed. Where the tree isn't that commit any more, to the
# byte, or the program another one than the gate has tried, nothing is made. In the end the file is unpacked in an empty folder, and
# the program runs the first example there.
set -u
umask 022
[ $# -eq 1 ] || { sed -n '2,/^set/s/^#.\{0,1\}//p' "$0" >&2; exit 2; }
home=$(cd -P -- "$(dirname -- "$0")" && pwd) || exit 2
folder=$(cd -- "$1" && pwd) || exit 2
record=$home/.ci/out/passed
room=
trap '[ -z "$room" ] || rm -rf "$room"' EXIT

refuse() {
    echo "release: $*" >&2
    exit 1
}

git() { command git --no-optional-locks -C "$home" "$@"; }

[ -r "$record" ] || refuse "no gate has passed here since the sources were last proved: run .ci/run"
{ read -r commit && read -r sum && read -r kit && read -r said; } <"$record" || refuse "$record isn't whole: run .ci/run"
head=$(git rev-parse HEAD) || refuse "git doesn't tell which commit this is"
[ "$head" = "$commit" ] || refuse "the gate has passed $commit, and this is $head: run .ci/run"
changed=$(git status --porcelain) || refuse "git doesn't tell what has changed"
[ -z "$changed" ] || refuse "the tree has changes since the gate: $(printf '%s\n' "$changed" | head -n 1)"
program=$("$home/tools/proved.sh") || exit 1
[ "$(sha256sum <"$program")" = "$sum" ] || refuse "$program is another program than the one that the gate has tried: run .ci/run"
case $said in
*[1-9]*" passed, 0 failed") ;;
*) refuse "the gate's last line says '$said'" ;;
esac

name=acquire-$(cat "$home/VERSION")-$(git rev-parse --short HEAD)
room=$(mktemp -d) || exit 1
to=$room/$name
"$home/tools/install.sh" "$to" / >/dev/null || exit 1
"$home/tools/third_party.py" --texts "$to/share/doc/acquire/licences" || refuse "the licences of the libraries can't be read in the kit"
mkdir "$to/example" && cp "$home/examples/first/input" "$home/examples/first/printed" "$to/example/" && chmod 644 "$to"/example/* || exit 1
cat >"$to/VERSION" <<END
version $(cat "$home/VERSION")
commit $commit
kit $kit
gate $said
sha256 ${sum%% *}
END
cat >"$to/README" <<END
acquire finds the constraints that you have in mind: it shows small examples,
you answer yes or no, and it prints the constraints that your answers follow.

This is version $(cat "$home/VERSION") for Linux on x86-64, with the GNU C library from 2.34
on (Debian 12, Ubuntu 22.04). It was proved and built by
$kit
from commit $commit.
The gate's last line was: $said

Run the first example here, and compare with example/printed:

    bin/acquire :memory: try < example/input

Check the program, and put it where your system looks for it:

    sha256sum -c SHA256
    cp -r bin lib share /usr/local/

Then \`man acquire\` has its words and formats, and share/doc/acquire all pages,
examples and licences. Who judges plans and would rather see tables and
sentences begins with \`desk\`, which is beside it and not proved. It needs
Python from 3.11 on, at a terminal python3-rich, for its page in the browser
python3-flask and python3-waitress, and for sample plans a SAT solver:
share/doc/acquire/desk/README.md.
Who wants the proof done again takes the sources of that commit and the kit,
and runs .ci/run there.
END
(cd "$to" && find . -type f -exec sha256sum {} +) | LC_ALL=C sort -k 2 >"$room/sums" && mv "$room/sums" "$to/SHA256" || exit 1
(cd "$room" && find "$name" | LC_ALL=C sort | tar -cf - --no-recursion -T - --owner=0 --group=0 --numeric-owner \
    --mtime="$(git log -1 --format=%cI)" | gzip -n) >"$folder/$name.tar.gz.new" || refuse "the tar file can't be made"

runs_unpacked() {
    mkdir "$room/empty" && cd "$room/empty" && tar -xzf "$folder/$name.tar.gz.new" && cd "$name" && sha256sum --quiet -c SHA256 &&
        env -i bin/acquire :memory: try <example/input | cmp - example/printed
}
if ! runs_unpacked; then
    rm -f "$folder/$name.tar.gz.new"
    refuse "what is unpacked doesn't run the first example"
fi
mv "$folder/$name.tar.gz.new" "$folder/$name.tar.gz" && echo "$folder/$name.tar.gz"
