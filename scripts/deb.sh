#!/usr/bin/env bash
# Makes a Debian package of what was built: deb.sh [FOLDER], which it is left in; else in bin/. It prints the package's name.
# All that `make install` copies: the C library too, if bin/library is there. With TARGET=aarch64 it is the package for ARM64.
set -euo pipefail
cd "$(dirname "$0")/.."
folder=${1:-bin}
work=$(mktemp -d)
trap 'rm -rf "$work"' EXIT
root=$work/root
version=$(python3 scripts/manual.py version)
[[ -z ${TARGET:-} ]] || export DEB_HOST_ARCH=arm64
architecture=${DEB_HOST_ARCH:-$(dpkg --print-architecture)}

DESTDIR=$root PREFIX=/usr ZSH_FUNCTIONS=share/zsh/vendor-completions bash scripts/install.sh install >/dev/null
# the names and the form that Debian's packages have
gzip -9n "$root"/usr/share/man/man[15]/* "$root/usr/share/doc/rt1553/CHANGELOG.md"
mv "$root"/usr/share/doc/rt1553/{CHANGELOG.md,changelog}.gz

# on which packages the programs and the library depend is asked of them
mkdir -p "$work/debian" "$root/DEBIAN"
printf 'Source: rt1553\n\nPackage: rt1553\nArchitecture: any\n' >"$work/debian/control"
# of the C library for ARM64 each version will do (scripts/library.sh), while the package of the cross compiler names its own
depends=$(cd "$work" && find "$root/usr" -path '*/share' -prune -o -type f -perm -u=x -exec \
    dpkg-shlibdeps ${TARGET:+"-l/usr/$TARGET-linux-gnu/lib"} -O {} + 2>/dev/null | sed -n 's/:arm64 ([^)]*)//; s/^shlibs:Depends=//p')
# programs that hold the C library depend on nothing
sed '/^Depends: $/d' >"$root/DEBIAN/control" <<END
Package: rt1553
Version: $version
Architecture: $architecture
Maintainer: Kebdrax maintainers <maintainers@users.noreply.kebdrax.example>
Installed-Size: $(du -sk --exclude=DEBIAN "$root" | cut -f 1)
Depends: $depends
Section: devel
Priority: optional
Description: remote terminal of MIL-STD-1553B with Notice 2, over words
 It plays scripts of bus traffic to the terminal of a profile, and compares
 profiles: rt1553 and rt1553-tool.
END
mkdir -p "$folder"
name=$folder/rt1553_${version}_$architecture.deb
dpkg-deb --root-owner-group --build "$root" "$name" >/dev/null
echo "$name"
