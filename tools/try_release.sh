#!/usr/bin/env bash
# Installs a release in a root that has no kit, and uses it: README's first example, a C program by pkg-config and by
# CMake, a Python program, the wheel, the manual pages; then the package, the same, and its removal.
#
# usage: tools/try_release.sh [FOLDER [ROOT]]
#
# FOLDER is build/release, as `make release` or `make deb` left it. ROOT is a root of Debian with gcc, make, cmake,
# pkgconf, python3 and python3-venv, as of
#     debootstrap --variant=minbase --include=gcc,libc6-dev,make,cmake,pkgconf,python3,python3-venv,man-db bookworm ROOT
# Nothing is written to it: the trial sees a copy on write. Without it the trial sees this machine's own root in that
# way, with the kit, homes and this tree taken out. It needs the right to mount (root, or user namespaces).
set -u

fault() {
    echo "try_release: $1" >&2
    faults=$((faults + 1))
}

# README's first example of the program, and the picture of its recording.
use_program() {
    local share=$1
    ( cd "$share" && cc_player step 1 < examples/first.json > "$room/first.rec" ) || fault "$2: the first example"
    cc_player check < "$room/first.rec" || fault "$2: the recording of the first example"
    cc_player frames < "$room/first.rec" > "$room/frames.ppm" && [ -s "$room/frames.ppm" ] \
        && ( cd "$share" && cc_player film 1 < examples/first.json ) | cmp -s - "$room/frames.ppm" \
        || fault "$2: the pictures of the first example"
    cc_player shot 1 < "$share/examples/page.json" | head -c 8 | grep -q PNG || fault "$2: no picture of a page"
    python3 "$share/tools/explain.py" "$share/examples/first.json" > /dev/null || fault "$2: explain.py"
    python3 "$share/tools/recording.py" pictures "$room/first.rec" "$room/first_pictures" > /dev/null || fault "$2: recording.py"
}

# The C program of EMBEDDING, linked with each library as pkg-config tells, and as CMake does.
use_library() {
    local share=$1 source=$1/examples/embed/first.c flags
    flags=$(pkg-config --cflags --libs cc) || fault "$2: pkg-config does not know cc"
    # shellcheck disable=SC2086
    gcc -std=c11 -Wall -Werror "$source" $flags -o "$room/shared" && "$room/shared" > "$room/shared.ppm" \
        && cmp -s "$room/shared.ppm" /given/embed.ppm || fault "$2: the C program with the shared library"
    ldd "$room/shared" | grep -q 'libcc\.so\.[0-9]* => /' || fault "$2: the C program has no libcc.so"
    # shellcheck disable=SC2046
    gcc -std=c11 -static-pie "$source" $(pkg-config --cflags cc) "$(pkg-config --variable=libdir cc)/libcc.a" -o "$room/static" \
        && env -i "$room/static" | cmp -s - /given/embed.ppm || fault "$2: the C program with the archive"
    rm -rf "$room/shell" && mkdir "$room/shell"
    cat > "$room/shell/CMakeLists.txt" << END
cmake_minimum_required(VERSION 3.16)
project(shell C)
find_package(cc_compositor 0.1 REQUIRED)
find_package(cc_compositor 0.2 QUIET)
if(cc_compositor_FOUND)
  message(FATAL_ERROR "0.2 is found, which is not here")
endif()
find_package(cc_compositor REQUIRED)
add_executable(with_shared $source)
target_link_libraries(with_shared PRIVATE cc_compositor::shared)
add_executable(with_static $source)
target_link_libraries(with_static PRIVATE cc_compositor::static)
END
    cmake -S "$room/shell" -B "$room/shell/build" ${3:+-DCMAKE_PREFIX_PATH=$3} > "$room/cmake.log" 2>&1 \
        && cmake --build "$room/shell/build" >> "$room/cmake.log" 2>&1 || { fault "$2: CMake"; cat "$room/cmake.log" >&2; }
    for kind in shared static; do
        "$room/shell/build/with_$kind" | cmp -s - /given/embed.ppm || fault "$2: the C program of CMake, $kind"
    done
}

# The Python programs: the page of EMBEDDING through the library, a script through the service.
use_python() {
    local python=$1 share=$2
    mkdir -p "$room/drawn"
    "$python" "$share/clients/python/demo.py" "$room/drawn" > /dev/null || fault "$3: the Python program"
    [ -s "$room/drawn/rebuilt.ppm" ] || fault "$3: the Python program left no picture"
    "$python" - "$share/examples/first.json" << 'END' || fault "$3: the service from Python"
import sys
import cc_serve
with cc_serve.Server(["cc_player", "serve", "4"]) as server:
    answer = server.play(open(sys.argv[1]).read())
    assert answer.status == 0 and answer.recording.startswith(b"cc1\n"), answer.note
END
}

# Runs inside of the root, in which the release lies in /release.
inside() {
    faults=0 room=/tmp/trial
    mkdir -p "$room"
    command -v rt > /dev/null && fault 'the kit is on the PATH'
    [ -e /opt/rattle ] && fault 'the kit is here'
    cd /release && sha256sum --quiet -c SHA256SUMS || fault 'the checksums'
    mkdir -p /opt/one && tar -xzf cc-*.tar.gz -C /opt/one || fault 'the archive'
    mv /opt/one "/opt/another place" && local home
    home=$(echo "/opt/another place"/cc-*)
    grep -rlE '/work/|/root/' "$home/lib" "$home/include" "$home/share/man" && fault 'the archive names folders of the builder'
    ln -sfn "$home" /opt/cc
    (
        faults=0
        export PATH=/opt/cc/bin:$PATH PKG_CONFIG_PATH=/opt/cc/lib/pkgconfig LD_LIBRARY_PATH=/opt/cc/lib
        use_program /opt/cc/share/cc_compositor archive
        use_library /opt/cc/share/cc_compositor archive /opt/cc
        PYTHONPATH=/opt/cc/share/cc_compositor/clients/python use_python python3 /opt/cc/share/cc_compositor archive
        if command -v man > /dev/null; then
            for page in man1/cc_player.1 man3/cc.3; do
                [ -z "$(man --warnings -l "/opt/cc/share/man/$page" 2>&1 > /dev/null)" ] || fault "the manual page $page"
            done
        fi
        exit "$faults"
    )
    faults=$((faults + $?))
    if python3 -m venv "$room/venv" > /dev/null 2>&1; then
        "$room/venv/bin/pip" install --quiet --no-index /release/*.whl || fault 'the wheel'
        mkdir -p "$room/alone/clients/python" && cp "$home/share/cc_compositor/clients/python/demo.py" "$room/alone/clients/python"
        cp -r "$home/share/cc_compositor/examples" "$room/alone"
        PATH="$room/venv/bin:$PATH" use_python "$room/venv/bin/python" "$room/alone" wheel
    else
        echo 'skipped: the wheel (no python3-venv is here)'
    fi
    rm -rf "/opt/another place" /opt/cc
    if ls /release/*.deb > /dev/null 2>&1; then
        dpkg -i /release/*.deb > "$room/dpkg.log" 2>&1 || { fault 'the package'; cat "$room/dpkg.log" >&2; }
        use_program /usr/share/cc_compositor package
        use_library /usr/share/cc_compositor package ''
        mkdir -p "$room/lone" && cp /usr/share/cc_compositor/clients/python/demo.py "$room/lone"
        mkdir -p "$room/apart/clients/python" && cp "$room/lone/demo.py" "$room/apart/clients/python"
        cp -r /usr/share/cc_compositor/examples "$room/apart"
        use_python /usr/bin/python3 "$room/apart" package
        dpkg -L cc-compositor > "$room/files"
        dpkg -P cc-compositor > /dev/null 2>&1 || fault 'the package is not removed'
        while read -r file; do [ -f "$file" ] && fault "the package left $file"; done < "$room/files"
    else
        echo 'skipped: the package (make deb makes it)'
    fi
    exit "$faults"
}

# The root as a copy on write, in a mount namespace of its own.
outside() {
    local folder=$1 room=$2 given=$3 base=$4
    mount -t tmpfs none "$room" && mkdir "$room/upper" "$room/work" "$room/root" || exit 1
    mount -t overlay overlay -o "lowerdir=$base,upperdir=$room/upper,workdir=$room/work" "$room/root" || exit 1
    # Taken out by covering: nothing is walked through.
    for hidden in opt root home work tmp; do
        [ -d "$room/root/$hidden" ] && mount -t tmpfs none "$room/root/$hidden"
    done
    mkdir -p "$room/root/release" "$room/root/given" && cp "$folder"/* "$room/root/release" && cp "$given"/* "$room/root/given" || exit 1
    mount -t proc proc "$room/root/proc" 2> /dev/null || mount --rbind /proc "$room/root/proc"
    mount --rbind /dev "$room/root/dev"
    exec env -i PATH=/usr/sbin:/usr/bin:/sbin:/bin HOME=/tmp LC_ALL=C.UTF-8 PYTHONDONTWRITEBYTECODE=1 \
        chroot "$room/root" /bin/bash /given/try_release.sh --inside
}

case ${1:-} in
    --inside) inside ;;
    --outside) outside "${@:2}" ;;
esac

here=$(cd "$(dirname "$0")/.." && pwd)
folder=$(cd "${1:-$here/build/release}" && pwd) || exit 1
[ -f "$folder/SHA256SUMS" ] || { echo "try_release: $folder has no release: make release, make deb" >&2; exit 1; }
room=$(mktemp -d) given=$(mktemp -d)
trap 'rmdir "$room"; rm -rf "$given"' EXIT
cp "$here/tools/try_release.sh" "$given"
# The picture that the C program has to write, as the sources have it.
PYTHONDONTWRITEBYTECODE=1 PYTHONPATH=$here/tools python3 - "$here/examples/embed/first.png" > "$given/embed.ppm" << 'END' || exit 1
import pathlib
import sys
from png_chunks import picture_of
w, h, pixels = picture_of(pathlib.Path(sys.argv[1]).read_bytes())
sys.stdout.buffer.write(b"P6 %d %d 255\n" % (w, h) + pixels)
END
user=
[ "$(id -u)" = 0 ] || user=-r
unshare $user -m --propagation private -- bash "$given/try_release.sh" --outside "$folder" "$room" "$given" "${2:-/}"
faults=$?
[ "$faults" = 0 ] && echo 'the release is installed without the kit, used, and removed'
exit "$faults"
