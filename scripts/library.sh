#!/usr/bin/env bash
# Makes the library for C, C++, Python and Rust of the archive of the proved calls, in the folder TO: include/, lib/ with its pkg-config
# file, python/ and the wheel: library.sh ARCHIVE TO
# With TARGET=aarch64 it is made for ARM64.
set -euo pipefail
archive=$1 to=$2
top=$(realpath "$(dirname "$0")/..")

# the newest version of the C library that these files ask for: newest_glibc FILE..
newest_glibc() { "${cross}objdump" -T "$@" | grep -o 'GLIBC_[0-9.]*' | sort -V | tail -n 1 | sed s/GLIBC_//; }

# the toolchain's first page stands at its top
kit=$(dirname "$(rt doc)")
cross=${TARGET:+$TARGET-linux-gnu-}
# the calls of malloc, realloc and free, which the toolchain brings for x86-64 alone
heap=$kit/c/liblibc_c.a
[[ -z $cross ]] || heap=$top/library/$TARGET/heap.c
rm -rf "$to"
mkdir -p "$to"/{include,lib/pkgconfig,python}
cp "$top"/library/c/rt1553.{h,hpp} "$to/include"
# one object file with the calls of the header and no other name for the linker
"${cross}gcc" -r -O2 -fPIC -Wall -Wextra -Werror -o "$to/rt1553.o" -Wl,--whole-archive "$archive" "$heap" "$top/library/c/rt1553_batch.c"
"${cross}objcopy" --wildcard --keep-global-symbol='rt1553_*' "$to/rt1553.o"
"${cross}ar" rcs "$to/lib/librt1553.a" "$to/rt1553.o"
"${cross}gcc" -shared -o "$to/lib/librt1553.so.0" -Wl,-soname,librt1553.so.0 -Wl,--version-script="$top/library/c/rt1553.map" \
    -Wl,-z,defs,-z,text "$to/rt1553.o"
ln -s librt1553.so.0 "$to/lib/librt1553.so"
rm "$to/rt1553.o"

cp -r "$top/library/python/rt1553" "$to/python"
rm -rf "$to/python/rt1553/__pycache__"
cp "$to/lib/librt1553.so.0" "$to/python/rt1553/librt1553.so"
version=$(python3 "$top/scripts/manual.py" version)
sed "s/@VERSION@/$version/" "$top/library/c/rt1553.pc.in" >"$to/lib/pkgconfig/rt1553.pc"
# the wheel says which C library it needs
[[ $(printf '%s\n2.17\n' "$(newest_glibc "$to/lib/librt1553.so.0")" | sort -V | tail -n 1) == 2.17 ]] \
    || { echo "scripts/library.sh: the shared library needs a newer C library than its wheel says" >&2; exit 1; }
python3 "$top/library/python/wheel.py" "$to/python" "$to" "$version" "manylinux_2_17_${TARGET:-x86_64}"
