#!/usr/bin/env bash
# Makes build/libpclmin.a of crates/pcl_library, of the C in front of it and of the kit's allocator, so that programs link one file,
# with build/pclmin.h, and build/pclmin.pc.in with the program's version; with `shared` also build/libpclmin.so. Only the calls of
# pclmin.h are visible in either. Proves the crate and all that it stands on where that isn't done. Needs `rt`, Python 3, a C compiler
# and binutils.
set -euo pipefail
cd "$(dirname "$0")/.."
cc=${CC:-cc}
kit=$(dirname "$(rt doc)")
version=$(sed -n 's/^pub const VERSION: &str = "\(.*\)";$/\1/p' crates/pcl_arguments/src/command_line.rt)
[ -n "$version" ] || { echo "no line of pcl_arguments has the version" >&2; exit 1; }
mkdir -p build/lib
tools/build.py pcl_library
"$cc" -std=c11 -O2 -fPIC -Wall -Wextra -DPCLMIN_VERSION="\"$version\"" ${CFLAGS:-} -c lib/pclmin.c -o build/lib/shell.o
# One object, whose other names no program can meet.
ld -r -o build/lib/pclmin.o build/lib/shell.o --whole-archive build/libpcl_library.a "$kit/c/liblibc_c.a"
objcopy --wildcard --keep-global-symbol='pclmin_*' build/lib/pclmin.o
rm -f build/libpclmin.a
ar rcs build/libpclmin.a build/lib/pclmin.o
cp lib/pclmin.h build/pclmin.h
sed "s|@VERSION@|$version|" lib/pclmin.pc.in > build/pclmin.pc.in
echo "build/libpclmin.a has the calls of build/pclmin.h"
if [ "${1:-}" = shared ]; then
    "$cc" -shared -Wl,-soname,libpclmin.so ${LDFLAGS:-} -o build/libpclmin.so build/lib/pclmin.o
    echo "build/libpclmin.so has them too"
fi
