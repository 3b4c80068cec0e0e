#!/bin/sh
# Makes the archives of a release, for x86-64 Linux, and their sums: release.sh [FOLDER], which is `out` at the top else.
# One has the pager, the other the library for C, Python and Rust. Neither needs `rt`. The same builds and files give the
# same bytes.
set -e
case $0 in */*) top=${0%/*}/.. ;; *) top=.. ;; esac
fail() {
    echo "release.sh: $1" >&2
    exit 1
}
[ "$(uname -sm)" = 'Linux x86_64' ] || fail 'this is no x86-64 Linux'
archive=$top/crates/minus_c/out/libminus_c.a
[ -f "$archive" ] || fail 'the library is not built: cd crates/minus_c && rt lib'
folder=${1:-$top/out}
work=$(mktemp -d)
trap 'rm -rf "$work"' EXIT
trap 'exit 1' HUP INT TERM
umask 022
mkdir -p "$folder"

copy() { # FOLDER FILE..: copies files and folders there, whatever links and modes they have here
    mkdir -p "$work/$1"
    (
        to=$1
        shift
        cp -RL "$@" "$work/$to"
    )
}
pack() { # NAME: makes the archive of the folder of that name, and its sum
    find "$work/$1" \( -type d -o -perm -100 \) -exec chmod 755 {} +
    find "$work/$1" -type f ! -perm -100 -exec chmod 644 {} +
    (
        cd "$work"
        tar --sort=name --mtime=@0 --owner=0 --group=0 --numeric-owner --format=ustar -cf "$1.tar" "$1"
        gzip -9 -n "$1.tar"
        sha256sum "$1.tar.gz" >"$1.tar.gz.sha256"
    )
    mv -f "$work/$1.tar.gz" "$work/$1.tar.gz.sha256" "$folder"
}

sh "$top/tools/install.sh" "$work/tree"
version=$("$work/tree/libexec/minus/minus_pager" --version)
version=${version##* }
name=minus-$version-x86_64-linux
mv "$work/tree" "$work/$name"
copy "$name/share/doc/minus" "$top"/LICENSE-* "$top/CHANGELOG.md"
pack "$name"

name=libminus-$version-x86_64-linux
copy "$name" "$top"/LICENSE-* "$top/CHANGELOG.md"
copy "$name/include" "$top/include/minus.h"
copy "$name/lib" "$archive"
copy "$name/examples" "$top/examples/c/page.c" "$top/examples/c/heap.c" "$top/examples/c/page.py"
package=$name/rust/minus
for part in Cargo.toml README.md build.rs src examples; do copy "$package" "$top/rust/minus/$part"; done
copy "$package" "$top"/LICENSE-*
mkdir "$work/$package/lib" "$work/$name/lib/pkgconfig"
ln "$work/$name/lib/libminus_c.a" "$work/$package/lib"
cat >"$work/$name/lib/pkgconfig/minus.pc" <<END
prefix=\${pcfiledir}/../..

Name: minus
Description: A terminal pager as a library
Version: $version
Cflags: -I\${prefix}/include
Libs: -L\${prefix}/lib -lminus_c
END
cat >"$work/$name/README" <<END
minus $version as a library, for x86-64 Linux

C       include/minus.h says what each call does. In examples, with this folder's lib/pkgconfig in PKG_CONFIG_PATH:
            cc page.c heap.c \$(pkg-config --cflags --libs minus) -o page
Python  examples/page.py calls a shared object of the same:
            cc -shared -fPIC -I../include heap.c -Wl,--whole-archive ../lib/libminus_c.a -Wl,--no-whole-archive -o libminus.so
            python3 page.py ./libminus.so FILE
Rust    in Cargo.toml, with crates.io for what the package needs:
            minus = { path = "PATH/rust/minus", features = ["dynamic_output", "search"] }
END
pack "$name"
