#!/usr/bin/env bash
# Links a program of the object that a proof leaves: link.sh OBJECT TO
# The program holds the C library, where gcc can link it so, and then runs on any Linux on x86-64; beside it, TO.o is all of it but
# the C library, as one object, with which `gcc -static-pie` links it again. Else the toolchain links it for the C library of this
# machine, and there is no TO.o. With TARGET=aarch64 it is linked for ARM64 by Debian's gcc for it, with library/aarch64 in place of
# what the toolchain brings for x86-64 alone.
set -euo pipefail
object=$1 to=$2
# the toolchain's first page stands at its top
kit=$(dirname "$(rt doc)")
cross=${TARGET:+$TARGET-linux-gnu-}
helpers=("$kit/c/libos_c.a" "$kit/c/liblibc_c.a")
[[ -z $cross ]] || helpers=("$(dirname "$0")/../library/$TARGET"/{os,heap}.c)
new=$(mktemp -d)
trap 'rm -rf "$new"' EXIT

if "${cross}gcc" -r -O2 -fPIC -o "$new/program.o" "$object" "${helpers[@]}" &&
    "${cross}gcc" -static-pie -Wl,-z,relro,-z,now -o "$new/program" "$new/program.o"; then
    install -m 644 "$new/program.o" "$to.o"
elif [[ -n $cross ]]; then
    exit 1
else
    echo "gcc can't link it with the C library (Debian package libc6-dev): this program runs with the C library of this machine, or a later one"
    "$kit/bin/rattle-link" --target x86_64-unknown-linux-gnu --toolchain "$kit/toolchain" -o "$new/program" "$object" "${helpers[@]}"
    rm -f "$to.o"
fi
# in one step, also where a program of this name runs
install -m 755 "$new/program" "$to.new"
mv "$to.new" "$to"
