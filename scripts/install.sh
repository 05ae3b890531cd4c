#!/usr/bin/env bash
# Copies what was built, and its pages, to $DESTDIR$PREFIX, or removes them: install.sh install|uninstall
# PREFIX is /usr/local if it isn't set. The library goes with them if `make library` has built it. The archive of `make dist`
# has this script too, and the same folders. With TARGET=aarch64 it is what was built for ARM64, in bin/aarch64.
set -euo pipefail
cd "$(dirname "$0")/.."
prefix=${PREFIX:-/usr/local}
to=${DESTDIR:-}$prefix
bin=bin${TARGET:+/$TARGET}
# zsh looks here in /usr/local, and elsewhere in what Debian's packages bring
zsh=${ZSH_FUNCTIONS:-share/zsh/site-functions}

# what goes where: a file, its mode, and its place below the prefix
files() {
    local name
    for name in rt1553 rt1553-tool; do
        echo "$bin/$name 755 bin/$name"
        echo "manual/$name.1 644 share/man/man1/$name.1"
        echo "manual/$name.bash 644 share/bash-completion/completions/$name"
        echo "manual/$name.zsh 644 $zsh/_$name"
        echo "manual/$name.fish 644 share/fish/vendor_completions.d/$name.fish"
    done
    find manual/*.5 -printf '%p 644 share/man/man5/%f\n' | sort
    echo "editors/profile.schema.json 644 share/rt1553/profile.schema.json"
    find docs/*.schema.json -printf '%p 644 share/rt1553/%f\n' | sort
    find editors/vim editors/vscode -type f -printf '%p 644 share/rt1553/%p\n' | sort
    find README.md CHANGELOG.md SECURITY.md docs/*.md editors/README.md examples -type f -printf '%p 644 share/doc/rt1553/%p\n' | sort
}

# the same of the library
library_files() {
    local name
    for name in include/rt1553.h include/rt1553.hpp lib/librt1553.a lib/pkgconfig/rt1553.pc; do
        echo "$bin/library/$name 644 $name"
    done
    echo "$bin/library/lib/librt1553.so.0 755 lib/librt1553.so.0"
    for name in "$bin"/library/rt1553-*.whl; do echo "$name 644 share/rt1553/${name##*/}"; done
}

# copies the files that are told to their places
copy() {
    local file mode place
    while read -r file mode place; do install -D -m "$mode" "$file" "$to/$place"; done
}

case ${1:-} in
install)
    if [[ ! -x $bin/rt1553 || ! -x $bin/rt1553-tool ]]; then
        echo "$bin/rt1553 and $bin/rt1553-tool aren't there: run 'make tool' first" >&2
        exit 1
    fi
    files | copy
    # the schema stands elsewhere here: as seen from share/doc/rt1553
    find "$to/share/doc/rt1553/examples" -name '*.toml' -exec sed -i '1s|^\(#:schema [./]*\)editors/|\1../../rt1553/|' {} +
    if [[ -d $bin/library ]]; then
        library_files | copy
        ln -sf librt1553.so.0 "$to/lib/librt1553.so"
        sed -i "s|@PREFIX@|$prefix|" "$to/lib/pkgconfig/rt1553.pc"
    fi
    echo "rt1553 and rt1553-tool are installed in $to, their man pages in $to/share/man, the other pages in $to/share/doc/rt1553"
    ;;
uninstall)
    { files; library_files; } | while read -r _ _ place; do rm -f "$to/$place"; done
    rm -f "$to/lib/librt1553.so" "$to"/share/rt1553/rt1553-*.whl
    for folder in "$to"/share/{,doc/}rt1553; do
        if [[ -d $folder ]]; then find "$folder" -type d -empty -delete; fi
    done
    echo "rt1553 and rt1553-tool are removed from $to"
    ;;
*)
    echo "install.sh install|uninstall" >&2
    exit 1
    ;;
esac
