#!/usr/bin/env bash
# Installs the program below a folder of its own and removes it again, and looks at what came with it: the manual
# page has no fault, each completion can be read by its shell, if that is here, and all name the words of `--help`.
#
# usage: tools/try_install.sh
set -u
cd "$(dirname "$0")/.."
room=$(mktemp -d)
trap 'rm -rf "$room"' EXIT
faults=0

fault() {
    echo "try_install: $1" >&2
    faults=$((faults + 1))
}

make -s install DESTDIR="$room" PREFIX=/usr > "$room.log" 2>&1 || { cat "$room.log" >&2; rm -f "$room.log"; exit 1; }
rm -f "$room.log"
program=$room/usr/bin/cc_player
"$program" --version | grep -qx 'cc_player [0-9.]* (rattle-kit-[0-9a-z]*)' || fault 'the version names no kit'
if command -v man > /dev/null; then
    said=$(man --warnings -l "$room/usr/share/man/man1/cc_player.1" 2>&1 > /dev/null)
    [ -z "$said" ] || fault "the manual page: $said"
fi
bash -n "$room/usr/share/bash-completion/completions/cc_player" || fault 'the completion for bash'
if command -v zsh > /dev/null; then
    zsh -n "$room/usr/share/zsh/site-functions/_cc_player" || fault 'the completion for zsh'
fi
if command -v fish > /dev/null; then
    fish -n "$room/usr/share/fish/vendor_completions.d/cc_player.fish" || fault 'the completion for fish'
fi
# The words of the usage lines stand in each.
for word in $("$program" --help | sed -n 's/^.* cc_player \([a-z]*\) *.*$/\1/p' | sort -u); do
    grep -q "^\.BI $word \|^\.B $word\$" man/cc_player.1 || fault "the manual page has no word $word"
    for file in completions/*; do
        grep -qw "$word" "$file" || fault "$file has no word $word"
    done
done
make -s uninstall DESTDIR="$room" PREFIX=/usr
left=$(find "$room" -type f)
[ -z "$left" ] || fault "make uninstall leaves $left"
[ "$faults" = 0 ] && echo 'installed, looked at and removed'
exit "$faults"
