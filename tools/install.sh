#!/bin/sh
# Installs the pager: install.sh PREFIX puts the scripts into bin, the program into libexec/minus and the manual page
# into share/man/man1.
set -e
if [ $# -ne 1 ] || [ -z "$1" ]; then
    echo 'usage: sh tools/install.sh PREFIX' >&2
    exit 2
fi
case $1 in /*) prefix=$1 ;; *) prefix=./$1 ;; esac
case $0 in */*) top=${0%/*}/.. ;; *) top=.. ;; esac
program=$top/crates/minus_pager/out/minus_pager
if [ ! -x "$program" ]; then
    echo 'install.sh: the program is not built: cd crates/minus_pager && rt run' >&2
    exit 1
fi

put() { # MODE FILE FOLDER: under a new name first, so that a file that is in use is replaced, and never half there
    mkdir -p "$prefix/$3"
    cp "$2" "$prefix/$3/${2##*/}.new"
    chmod "$1" "$prefix/$3/${2##*/}.new"
    mv -f "$prefix/$3/${2##*/}.new" "$prefix/$3/${2##*/}"
}
umask 022
put 755 "$program" libexec/minus
put 755 "$top/bin/minus-run" bin
put 755 "$top/bin/minus" bin
put 644 "$top/docs/minus.1" share/man/man1
