#!/bin/sh
# Installs Bootkeep, or takes out what was installed.
#
#     ./install.sh [uninstall]
#
# It goes below PREFIX, or /usr/local if that isn't set, into bin, lib, libexec, include and share. With DESTDIR, which
# is put in front of that, nothing else of the system is touched. What an earlier release has put below the same PREFIX,
# and this one doesn't have, is taken out. share/bootkeep/installed lists what is there.

set -eu
umask 022
export LC_ALL=C

top=$(cd -P -- "$(dirname -- "$0")" && pwd)
prefix=${PREFIX:-/usr/local}
destdir=${DESTDIR:-}
below=$destdir$prefix
list=share/bootkeep/installed

give_up() {
    echo "install.sh: $1" >&2
    exit 1
}

# Whether the running system is the one that is changed.
is_this_system() {
    [ -z "$destdir" ] && [ "$(id -u)" = 0 ]
}

# What is installed, and the folders that were made for it, which end in a slash.
installed() {
    [ ! -f "$below/$list" ] || cat -- "$below/$list"
}

# Makes a folder and those above it, and notes those that weren't there.
make_folder() {
    [ ! -d "$below/$1" ] || return 0
    case $1 in
        */*) make_folder "${1%/*}" ;;
    esac
    mkdir -- "$below/$1"
    echo "$1/" >>"$work/made"
}

# Puts a file in the place of the one that is there, which may be in use.
put_file() {
    from=$top/files/$1
    to=$below/$1
    rm -f -- "$to.new"
    if [ -L "$from" ]; then
        cp -P -- "$from" "$to.new"
    elif grep -q '@prefix@' "$from"; then
        sed "s|@prefix@|$prefix|g" "$from" >"$to.new"
    else
        cp -- "$from" "$to.new"
    fi
    if [ ! -L "$from" ]; then
        if [ -x "$from" ]; then chmod 755 "$to.new"; else chmod 644 "$to.new"; fi
    fi
    mv -fT -- "$to.new" "$to"
}

# Takes out the files, and then the folders that are empty, of a list.
take_out() {
    grep -v '/$' "$1" | while read -r file; do
        rm -f -- "$below/$file"
    done
    grep '/$' "$1" | sort -r | while read -r folder; do
        rmdir -- "$below/$folder" 2>/dev/null || :
    done
}

do_install() {
    [ -n "$destdir" ] || "$top/files/bin/bootvars" --version >/dev/null ||
        give_up 'the programs do not run here: they need glibc 2.34 and a processor of the level x86-64-v2'
    (cd -- "$top/files" && find . ! -type d) | sed 's|^\./||' | sort >"$work/files"
    echo "$list" >>"$work/files"
    installed >"$work/before"
    grep '/$' "$work/before" >"$work/made" || :
    mkdir -p -- "$below"
    sed 's|/[^/]*$||' "$work/files" | sort -u | while read -r folder; do
        make_folder "$folder"
    done
    # If this is cut off, what is listed is all that may be there.
    cat "$work/files" "$work/before" "$work/made" | sort -u >"$below/$list"
    grep -Fvx "$list" "$work/files" | while read -r file; do
        put_file "$file"
    done
    sort "$work/files" "$work/made" >"$work/now"
    sort "$work/before" | comm -23 - "$work/now" >"$work/gone"
    take_out "$work/gone"
    cp -- "$work/now" "$below/$list"
}

do_uninstall() {
    [ -f "$below/$list" ] || give_up "nothing is installed below $below: there is no $below/$list"
    installed >"$work/before"
    take_out "$work/before"
}

# Has the running system see what is new or gone.
tell_system() {
    ! command -v ldconfig >/dev/null || ldconfig || true
    [ ! -d /run/systemd/system ] || systemctl daemon-reload || true
}

case $prefix in
    /*) ;;
    *) give_up "PREFIX has to begin with a slash: $prefix" ;;
esac
case $prefix in
    *[!A-Za-z0-9/._+-]*) give_up "PREFIX may have letters, digits and /._+- alone: $prefix" ;;
esac
work=$(mktemp -d)
trap 'rm -rf -- "$work"' EXIT
case $#${1:+" $1"} in
    0)
        do_install
        ! is_this_system || tell_system
        echo "install.sh: $(wc -l <"$work/files") files are below $below; './install.sh uninstall' takes them out"
        ;;
    '1 uninstall')
        if is_this_system && [ -d /run/systemd/system ]; then
            systemctl disable bootkeep-settle.service bootkeep-confirm.service >/dev/null 2>&1 || :
        fi
        do_uninstall
        ! is_this_system || tell_system
        [ ! -d "$destdir/var/lib/bootkeep" ] || echo "install.sh: $destdir/var/lib/bootkeep stays: it has the journal"
        ;;
    *) give_up 'takes the word uninstall, or none' ;;
esac
