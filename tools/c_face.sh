#!/bin/sh
# c_face.sh [--built]: proves and builds target/staticlib/libingleskip.a, links examples-c/example.c with it by the kit's own compiler and linker, runs that, and
# holds its lines to the example of 01 "The player's run"; --built takes the archive that was built before.
set -eu
top=$(cd "$(dirname "$0")/.." && pwd)
cd "$top"
archive=target/staticlib/libingleskip.a
work=$(mktemp -d)
trap 'rm -rf "$work"' EXIT
# the crate that C's face is built of is named otherwise than the library that it hands on
if [ "${1-}" != --built ]; then
    (cd crates/ingleskip_c && rt lib) >"$work/said" 2>&1 || { cat "$work/said" >&2; exit 1; }
    mkdir -p "$(dirname "$archive")"
    cp crates/ingleskip_c/out/libingleskip_c.a "$archive"
fi
tools=$(dirname "$(rt doc)")/toolchain
lib=$tools/lib
# the kit has no headers of C's: the names that ours takes from two of them
echo 'typedef __SIZE_TYPE__ size_t;' >"$work/stddef.h"
echo 'typedef __UINT8_TYPE__ uint8_t; typedef __UINT32_TYPE__ uint32_t;' >"$work/stdint.h"
"$tools/bin/clang" --target=x86_64-linux-gnu -std=c99 -Wall -Wextra -Werror -O2 -fPIE -nostdinc -isystem "$work" -I include -c examples-c/example.c -o "$work/example.o"
"$tools/bin/ld.lld" -pie --dynamic-linker=/lib64/ld-linux-x86-64.so.2 "$lib/Scrt1.o" "$lib/crti.o" "$lib/crtbeginS.o" "$work/example.o" "$archive" \
    "$lib/libc.so.6" "$lib/libc_nonshared.a" "$lib/libgcc.a" "$lib/crtendS.o" "$lib/crtn.o" -o "$work/example"
cat >"$work/expected" <<'END'
(1:21:1(10:DNSResolve1:5(3:dns2:32)))
(1:91:1(7:HTTPReq(7:request2:31)3:GET1:51:7()((6:Cookie()))()))
END
status=0
"$lib/ld-linux-x86-64.so.2" --library-path "$lib" "$work/example" >"$work/lines" || status=$?
diff "$work/expected" "$work/lines"
[ "$status" -eq 0 ] || { echo "c_face: a refusal said something else, or left its mark" >&2; exit 1; }
echo "c_face: the example of 01, and five refusals that leave memory and buffer as they were"
