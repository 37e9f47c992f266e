#!/bin/sh
# shared.sh ARCHIVE FOLDER: makes of libmill.a the shared object libmill.so.VERSION in the folder, with the two links to it by which
# programs find it. CC is the compiler that links it (gcc, if not set).
#
# It gives the calls that include/mill.h declares, each of which must be in the archive, and no other name. Each call carries the
# version in which it came, so that a program that needs a later call is told so when it starts, and not when it calls.
set -eu
fail() { echo "shared.sh: $1" >&2; exit 1; }
[ $# = 2 ] || fail "say shared.sh ARCHIVE FOLDER"
archive=$1
folder=$2
header=$(dirname "$0")/include/mill.h
[ -f "$archive" ] || fail "$archive is missing"

version=$(sed -n 's/^#define MILL_VERSION "\([0-9]*\.[0-9]*\.[0-9]*\)"$/\1/p' "$header")
[ -n "$version" ] || fail "include/mill.h has no version"
soname=libmill.so.${version%%.*}

# The calls of version 1.0; those that the header has beside them came with 1.1. A later version gets a list of its own.
first='mill_question mill_degree mill_pair mill_thin mill_band mill_order mill_lab_question mill_lab_degree mill_lab_pair
    mill_report_start mill_report_add mill_live_start mill_live_add mill_live_save mill_live_restore mill_live_kept mill_entry mill_find
    mill_live_entry'
calls=$(sed -n 's/^uint64_t \(mill_[a-z_]*\)(.*/\1/p' "$header")
later=$(for call in $calls; do
    case " $(echo $first) " in *" $call "*) ;; *) echo "$call" ;; esac
done)

made=$(mktemp -d)
trap 'rm -r "$made"' EXIT
{
    echo 'MILL_1.0 { global:'
    for call in $first; do echo "$call;"; done
    echo 'local: *; };'
    if [ -n "$later" ]; then
        echo 'MILL_1.1 { global:'
        for call in $later; do echo "$call;"; done
        echo '} MILL_1.0;'
    fi
} >"$made/calls"

"${CC:-gcc}" -shared -o "$made/libmill.so" -Wl,--whole-archive "$archive" -Wl,--no-whole-archive -Wl,-soname,"$soname" \
    -Wl,--version-script="$made/calls" -Wl,--no-undefined-version -Wl,-z,defs -Wl,-z,relro,-z,now
mkdir -p "$folder"
mv "$made/libmill.so" "$folder/libmill.so.$version"
ln -sf "libmill.so.$version" "$folder/$soname"
ln -sf "$soname" "$folder/libmill.so"
