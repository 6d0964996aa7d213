#!/usr/bin/env bash
# Installs a program and libraries that were built elsewhere and copied into build/, without the kit on the PATH and
# without sources to prove: they are taken as they are. One that was built here of another text is not.
#
# usage: tools/try_copied.sh
set -u
cd "$(dirname "$0")/.."
room=$(mktemp -d)
trap 'rm -rf "$room"' EXIT
faults=0

fault() {
    echo "try_copied: $1" >&2
    faults=$((faults + 1))
}

# `make` with this target where only Debian's programs are found.
made() {
    PATH=/usr/bin:/bin make -s -C "$room" "$@" DESTDIR="$room/root" PREFIX=/usr > "$room/log" 2>&1
}

if PATH=/usr/bin:/bin command -v rt > /dev/null; then echo 'try_copied: a kit is in /usr/bin' >&2; exit 1; fi
PATH=/usr/bin:/bin command -v python3 > /dev/null || { echo 'skipped: copies (no python3 in /usr/bin)'; exit 0; }
cp -r Makefile include man completions tools clients "$room"
mkdir "$room/build"
# What is copied need not run: nothing looks into it.
echo 'a program' > "$room/build/cc_player"
number=$(sed -n 's/^#define CC_VERSION //p' include/cc.h)
for library in libcc.a libcc.so "libcc.so.$number"; do echo "$library" > "$room/build/$library"; done

made install install-lib LIBDIR=lib/some || fault "a copy is not installed: $(cat "$room/log")"
grep -q 'cc_player was not built here' "$room/log" || fault 'a copy is not told'
cmp -s "$room/build/cc_player" "$room/root/usr/bin/cc_player" || fault 'another program is installed'
cmp -s "$room/build/libcc.a" "$room/root/usr/lib/some/libcc.a" || fault 'another library is installed'
if command -v pkg-config > /dev/null; then
    mv "$room/root" "$room/moved"
    told=$(PKG_CONFIG_PATH="$room/moved/usr/lib/some/pkgconfig" pkg-config --cflags --libs cc)
    for folder in $(echo "$told" | tr ' ' '\n' | sed -n 's/^-[IL]//p'); do
        [ -d "$folder" ] || fault "cc.pc names $folder, which is not there after a move"
    done
    [ "$(echo "$told" | grep -c "$room/moved")" = 1 ] || fault "cc.pc names $told"
    mv "$room/moved" "$room/root"
fi
made uninstall LIBDIR=lib/some
[ -z "$(find "$room/root" -type f -o -type l)" ] || fault "make uninstall leaves $(find "$room/root" -type f -o -type l)"

# What was built here has a note; of another text, it has to be proved anew, which needs the kit.
echo 'another text' > "$room/build/cc_player.text"
made install && fault 'a program of another text is installed'
grep -q 'rt is missing' "$room/log" || fault "no word of the kit: $(cat "$room/log")"
echo 'another text' > "$room/build/libcc.a.text"
made lib && fault 'a library of another text is taken'
[ "$faults" = 0 ] && echo 'copies are installed as they are, and move with their folder'
exit "$faults"
