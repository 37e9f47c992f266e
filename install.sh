#!/bin/sh
# install.sh install    puts the library and the programs under $DESTDIR$PREFIX (PREFIX is /usr/local, if not set)
# install.sh uninstall  takes away exactly what it put there
#
# Installed are the header, the archive, a shared object made of the archive, a pkg-config file, the program `ask`, the Python package
# under share/mill/python and, where they are built, the tool `mill`, stripped, with
# its man pages and its completions for bash, zsh and fish, and the library for 64-bit Arm under lib/aarch64-linux-gnu.
# share/mill/installed lists them, and the folders that were made for them; it is there first, so that what an install leaves that was
# stopped can be taken away, or installed again. A file that is there and is not on that list is another's: then nothing is installed.
set -eu
umask 022
cd "$(dirname "$0")"
fail() { echo "install.sh: $1" >&2; exit 1; }

prefix=${PREFIX:-/usr/local}
case $prefix in
    /) fail "PREFIX is /" ;;
    /*) ;;
    *) fail "PREFIX '$prefix' does not begin with /" ;;
esac
# A pkg-config file can't name others in all programs that read it.
case $prefix in *[!A-Za-z0-9/._+-]*) fail "PREFIX '$prefix' has other characters than letters, digits and / . _ + -" ;; esac
root=${DESTDIR:-}
case $root in
    '' | /*) ;;
    *) fail "DESTDIR '$root' does not begin with /" ;;
esac
list=$prefix/share/mill/installed

version=$(sed -n 's/^#define MILL_VERSION "\([0-9.]*\)"$/\1/p' include/mill.h)
soname=libmill.so.${version%%.*}

# folder NAME: makes it and those above it, and lists those that were not there.
folder() {
    [ ! -d "$root$1" ] || return 0
    case $1 in */*) folder "${1%/*}" ;; esac
    mkdir -p "$root$1"
    [ -z "$1" ] || echo "folder $1" >>"$made/list"
}

# put MODE FILE PLACE: a copy of the file, whole or not at all.
put() {
    cp "$2" "$root$prefix/$3.new"
    chmod "$1" "$root$prefix/$3.new"
    mv -f "$root$prefix/$3.new" "$root$prefix/$3"
}

# put_libraries FOLDER PLACE: a copy of the archive and of the shared object with its links, and a pkg-config file.
put_libraries() {
    put 644 "$made/$1/libmill.a" "$2/libmill.a"
    put 755 "$made/$1/libmill.so.$version" "$2/libmill.so.$version"
    ln -sf "libmill.so.$version" "$root$prefix/$2/$soname"
    ln -sf "$soname" "$root$prefix/$2/libmill.so"
    cat >"$made/mill.pc" <<END
prefix=$prefix
libdir=\${prefix}/$2
includedir=\${prefix}/include

Name: mill
Description: Questions about recordings of bead mills, and their thinning
Version: $version
Libs: -L\${libdir} -lmill
Cflags: -I\${includedir}
END
    put 644 "$made/mill.pc" "$2/pkgconfig/mill.pc"
}

# The places of put_libraries.
libraries() {
    for file in libmill.a "libmill.so.$version" "$soname" libmill.so pkgconfig/mill.pc; do echo "$1/$file"; done
}

# away PLACE: takes a file away, and what Python has compiled of it.
away() {
    rm -f "$root$1"
    case $1 in
        *.py)
            name=${1##*/}
            rm -f "$root${1%/*}/__pycache__/${name%.py}".cpython-*.pyc
            rmdir "$root${1%/*}/__pycache__" 2>/dev/null || true
            ;;
    esac
}

uninstall() {
    [ -f "$root$list" ] || fail "nothing is installed under $root$prefix"
    folders=$(sed -n 's/^folder //p' "$root$list" | sort -r)
    sed -n 's/^file //p' "$root$list" | while IFS= read -r place; do
        away "$place"
    done
    # A folder in which others have put something since stays.
    for place in $folders; do
        rmdir "$root$place" 2>/dev/null || true
    done
}

install() {
    [ -n "$version" ] || fail "include/mill.h has no version"
    [ -f target/staticlib/libmill.a ] || fail "target/staticlib/libmill.a is missing: run 'sh built.sh mill' first"
    [ -x target/bin/ask ] || fail "target/bin/ask is missing: run 'sh built.sh ask' first"
    made=$(mktemp -d)
    trap 'rm -r "$made"' EXIT

    mkdir "$made/staticlib"
    cp target/staticlib/libmill.a "$made/staticlib/libmill.a"
    sh shared.sh target/staticlib/libmill.a "$made/staticlib"

    python=$(cd python && echo pyproject.toml README.md build_backend/backend.py mill/py.typed mill/*.py)
    places="include/mill.h $(libraries lib) bin/ask"
    man='share/man/man1/mill.1 share/man/man5/mill.5'
    completions='share/bash-completion/completions/mill share/zsh/site-functions/_mill share/fish/vendor_completions.d/mill.fish'
    [ ! -x rust/target/release/mill ] || places="$places bin/mill $man $completions"
    if [ -f target/aarch64/libmill.a ]; then
        [ -f "target/aarch64/libmill.so.$version" ] ||
            fail "target/aarch64 has no libmill.so.$version: run 'make build TARGET=aarch64' again"
        mkdir "$made/aarch64"
        cp target/aarch64/libmill.a "target/aarch64/libmill.so.$version" "$made/aarch64/"
        places="$places $(libraries lib/aarch64-linux-gnu)"
    fi
    for file in $python; do places="$places share/mill/python/$file"; done
    places="$places share/mill/installed"

    # What an earlier install put there, and what it made.
    : >"$made/before"
    [ ! -f "$root$list" ] || cp "$root$list" "$made/before"
    for place in $places; do
        if [ -e "$root$prefix/$place" ] || [ -L "$root$prefix/$place" ]; then
            grep -qxF "file $prefix/$place" "$made/before" ||
                fail "$root$prefix/$place is there already, and is not of this library"
        fi
    done

    sed -n '/^folder /p' "$made/before" >"$made/list"
    for place in $places; do folder "$prefix/${place%/*}"; done
    for place in $places; do echo "file $prefix/$place"; done >>"$made/list"
    cat "$made/before" "$made/list" >"$root$list"

    put 644 include/mill.h include/mill.h
    put_libraries staticlib lib
    put 755 target/bin/ask bin/ask
    case $places in
        *bin/mill*)
            strip -o "$made/mill" rust/target/release/mill
            put 755 "$made/mill" bin/mill
            put 644 rust/tool/man/mill.1 share/man/man1/mill.1
            put 644 rust/tool/man/mill.5 share/man/man5/mill.5
            put 644 rust/tool/completions/mill.bash share/bash-completion/completions/mill
            put 644 rust/tool/completions/_mill share/zsh/site-functions/_mill
            put 644 rust/tool/completions/mill.fish share/fish/vendor_completions.d/mill.fish
            ;;
        *) echo "install.sh: the tool mill is not built, and is left out" >&2 ;;
    esac
    [ ! -d "$made/aarch64" ] || put_libraries aarch64 lib/aarch64-linux-gnu
    for file in $python; do put 644 "python/$file" "share/mill/python/$file"; done

    # What was installed before, and is no more.
    grep -vxF -f "$made/list" "$made/before" | sed -n 's/^file //p' | while IFS= read -r place; do
        away "$place"
    done
    put 644 "$made/list" share/mill/installed
    sed -n "s|^file |$root|p" "$made/list"
}

case ${1:-} in
    install | uninstall) "$1" ;;
    *) fail "say install or uninstall" ;;
esac
