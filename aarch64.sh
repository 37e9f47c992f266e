#!/bin/sh
# aarch64.sh: the library for 64-bit Arm Linux, of the same proved sources: target/aarch64/libmill.a, and libmill.so with its links.
#
# Run after `sh built.sh mill`, which proves the crates. The kit builds the archive for Arm itself. It links programs for x86-64 alone, so
# the shared object is linked here, by the kit's clang and linker. No other tool is needed.
set -eu
cd "$(dirname "$0")"
fail() { echo "aarch64.sh: $1" >&2; exit 1; }
[ -f target/staticlib/libmill.a ] || fail "target/staticlib/libmill.a is missing: run 'sh built.sh mill' first"
tools=$(dirname "$(rt doc)")/toolchain/bin
[ -x "$tools/clang" ] || fail "$tools/clang is missing"
out=target/aarch64
made=$(mktemp -d)
trap 'rm -r "$made"' EXIT

sh built.sh --arm mill

# memcpy and memset are those of the machine's C library, which is named here and not at hand.
arm="$tools/clang --target=aarch64-unknown-linux-gnu -march=armv8-a -fuse-ld=lld -nostdlib"
printf '.globl memcpy, memset\n.type memcpy, %%function\n.type memset, %%function\nmemcpy:\nmemset:\n' >"$made/libc.s"
PATH=$tools:$PATH
$arm -shared -o "$made/libc.so" "$made/libc.s" -Wl,-soname,libc.so.6
printf '#!/bin/sh\nexec %s "$@" "%s"\n' "$arm" "$made/libc.so" >"$made/cc"
chmod +x "$made/cc"
CC=$made/cc sh shared.sh "$out/libmill.a" "$out"
echo "aarch64.sh: $out/libmill.a and $out/libmill.so are for 64-bit Arm"
