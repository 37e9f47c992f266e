#!/bin/sh
# built.sh NAME..               proves what changed of each of these crates, builds it and puts it where the tests and the installation look:
#                               a static library as target/staticlib/libNAME.a, a program as target/bin/NAME
# built.sh --after FILE NAME..  the same over what an `rt ci` proved and built that began when FILE was written; what it proved isn't proved again
# built.sh --arm NAME..         a static library for 64-bit Arm, of the same proved sources, as target/aarch64/libNAME.a; after `built.sh NAME`
set -eu
cd "$(dirname "$0")"
fail() { echo "built.sh: $1" >&2; exit 1; }
since=
arm=
case ${1:-} in
    --after) since=${2:-} && [ -f "$since" ] || fail "--after wants a file"; shift 2 ;;
    --arm) arm=1; shift ;;
esac
[ $# != 0 ] || fail "say which crates"
kit=$(dirname "$(rt doc)")

# The crates that a crate names in crates.txt.
named() { sed -n "s/^$1 *\(staticlib\)\{0,1\} *:\(.*\)/\2/p" crates.txt; }

# fresh NAME: whether the library of each crate that NAME names is one that this `rt ci` put there. (It puts back what the checks of a
# checkout had made before, and only what it built itself is newer than the file.)
fresh() {
    for below in $(named "$1"); do
        [ ! -d "crates/$below" ] || [ -n "$(find "crates/$below/out/rlib/$below.rlib" -maxdepth 0 -newer "$since" 2>/dev/null)" ] || return 1
    done
}

# archive NAME FILE WORD..: the archive over the built libraries that stand below crates/.
archive() {
    name=$1
    file=$PWD/$2
    shift 2
    set -- "$@" --extern "std=$kit/rlibs/std.rlib" -L "dependency=$kit/rlibs"
    for below in $(named "$name"); do
        if [ -d "crates/$below" ]; then set -- "$@" --extern "$below=../$below/out/rlib/$below.rlib"
        else set -- "$@" --extern "$below=$kit/rlibs/$below.rlib"
        fi
    done
    for folder in crates/*/out/rlib; do set -- "$@" -L "dependency=../../$folder"; done
    (cd "crates/$name" && mkdir -p out && "$kit/bin/rattle" build --crate-name "$name" src/lib.rt "$@" --crate-type staticlib --links "$name=" \
        --antt-project "$kit/rattle/logic/antt-project.json" --logic-built "$kit/logic_built" --toolchain "$kit/toolchain" --backend llvm -o "$file")
}

mkdir -p target/staticlib target/bin target/aarch64
for name; do
    [ -d "crates/$name" ] || fail "there is no crate $name"
    if [ -n "$arm" ]; then
        archive "$name" "target/aarch64/lib$name.a" --target aarch64-unknown-linux-gnu
    elif [ -f "crates/$name/src/main.rt" ]; then
        # To build a program is to run it; here it gets no input, and what it prints of that is not asked.
        [ -n "$since" ] && [ -n "$(find "crates/$name/out/$name" -newer "$since" 2>/dev/null)" ] ||
            (cd "crates/$name" && rt run </dev/null)
        cp "crates/$name/out/$name" "target/bin/$name"
    elif [ -n "$since" ] && fresh "$name"; then
        archive "$name" "target/staticlib/lib$name.a"
    else
        (cd "crates/$name" && rt lib)
        cp "crates/$name/out/lib$name.a" "target/staticlib/lib$name.a"
    fi
done
rmdir target/staticlib target/bin target/aarch64 2>/dev/null || true
