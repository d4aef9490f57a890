#!/bin/sh
# install.sh PREFIX               installs msrepack below the folder PREFIX, as /usr/local or ~/.local: what this folder
#                                 holds, or in a clone, where this is release/install.sh, what release/tree makes of it.
#                                 Units of systemd get the name of PREFIX; they are not enabled
# install.sh --uninstall PREFIX   removes what was installed there, all or the part to which a killed install.sh came, and
#                                 the folders that were made for it, PREFIX too
# install.sh --help               prints these lines
#
# At its end it tells what was installed, and where.
# Status 0: done; 1: a file is not what SHA256SUMS says, there is no program of these sources, nothing was installed
# there, or a file cannot be read or written, and what had its name stays; 2: wrong call.
set -eu
usage() { printf '%s\n' "usage: install.sh [--uninstall] PREFIX" >&2; exit 2; }
case ${1-} in -h | --help) exec sed -n '2,/^[^#]/s/^# \{0,1\}//p' "$0" ;; esac
what=install
if [ "${1-}" = --uninstall ]; then what=uninstall; shift; fi
[ $# = 1 ] || usage
case $1 in '' | -*) usage ;; esac
umask 022
export LC_ALL=C
prefix=$(realpath -m -- "$1")
here=$(readlink -f "$0")
cd "${here%/*}"
# The folders that were made, of PREFIX and those above it the whole paths, and the files, for uninstall. They stand in
# $begun before the first folder is made, and while they are removed: in PREFIX, or while that is made or removed, beside
# the first folder that is made for it, as FOLDER$begun.
note=share/msrepack/installed begun=.msrepack-begun
tree= new= part= place= first=
# Lists have a line for each name.
IFS='
'
set -f
case $prefix in *"$IFS"*) usage ;; esac

fail() { printf '%s\n' "install.sh: $*" >&2; exit 1; }

# path_of NAME: where a folder or a file of the list stands.
path_of() { case $1 in /*) printf '%s\n' "$1" ;; *) printf '%s\n' "$prefix/$1" ;; esac }

# Removes what is not noted: the file that is not whole, and the folders that were made, of which the next try would not
# know. A tool that failed may have another status than 1.
finish() {
    status=$?
    [ -z "$tree" ] || rm -rf "$tree"
    [ -z "$part" ] || rm -f "$part"
    [ -z "$first" ] || rm -f "$place" "$prefix/$begun"
    for folder in $(printf '%s\n' $new | sort -r); do
        [ ! -d "$(path_of "$folder")" ] || rmdir "$(path_of "$folder")" || :
    done
    [ $status = 0 ] || exit 1
}
trap finish EXIT
trap 'exit 1' HUP INT TERM

# Enters the folder with bin, lib and share.
enter_tree() {
    if [ -d bin ]; then
        sha256sum --check --quiet SHA256SUMS
    else
        program=$(../tools/program --ready)
        tree=$(mktemp -d)
        ./tree "$program" "$tree"
        cd "$tree"
    fi
    folders=$(find bin lib share -type d)
    files=$(find bin lib share -type f)
}

# PREFIX as it stands in a unit, and as sed puts it in the place of a text. (systemd runs no program of which the name has
# a quote or a backslash.)
quoted() { printf '%s\n' "$prefix" | sed 's/%/%%/g; s/[\\&|]/\\&/g'; }

# copy MODE FILE TO
copy() {
    case $2 in
        lib/systemd/*.service) sed "s|@PREFIX@|$(quoted)|g" "$2" >"$3" && chmod "$1" "$3" ;;
        *) install -m "$1" "$2" "$3" ;;
    esac
}

# The names that $begun may have: in PREFIX, and beside it and each folder above it.
begun_names() {
    printf '%s\n' "$prefix/$begun"
    above=$prefix
    while [ "$above" != / ]; do
        printf '%s\n' "$above$begun"
        above=$(dirname "$above")
    done
}

# What is there of it, in $found. What stands beside a folder for another PREFIX does not have this one.
find_begun() {
    found=
    for list in $(begun_names); do
        [ -f "$list" ] || continue
        if [ "$list" != "$prefix/$begun" ]; then grep -qxF -e "$prefix" "$list" || [ $? != 1 ] || continue; fi
        found=$found$list$IFS
    done
}

# Makes the folders that are not there, and notes them, with all files, before the first one.
make_folders() {
    find_begun
    [ -n "$found" ] || first=yes
    old=
    for list in $found "$prefix/$note"; do
        [ ! -e "$list" ] || old=$old$(cat "$list")$IFS || fail "cannot read $list"
    done
    place=$prefix/$begun above=$prefix
    while [ ! -d "$above" ]; do new=$new$above$IFS place=$above$begun above=$(dirname "$above"); done
    for folder in $folders; do [ -d "$prefix/$folder" ] || new=$new$folder$IFS; done
    part=$place.part
    printf '%s\n' $old $new $files | sort -u >"$part" && mv -f "$part" "$place" || fail "cannot write $place"
    part=
    for list in $found; do [ "$list" = "$place" ] || rm -f "$list"; done
    mkdir -p "$prefix"
    [ "$place" = "$prefix/$begun" ] || mv -f "$place" "$prefix/$begun" || fail "cannot write $prefix/$begun"
    # Those above others come first.
    for folder in $new; do [ -d "$(path_of "$folder")" ] || mkdir "$(path_of "$folder")"; done
    mv -f "$prefix/$begun" "$prefix/$note" || fail "cannot write $prefix/$note"
    new= first=
}

install_all() {
    enter_tree
    make_folders
    for file in $files; do
        if [ -x "$file" ]; then mode=755; else mode=644; fi
        part=$prefix/$file.part
        copy $mode "$file" "$part" && mv -f "$part" "$prefix/$file" || fail "cannot write $prefix/$file"
        part=
    done
    # All is installed, whether or not that can be told.
    tell_installed || :
}

tell_installed() {
    version=$("$prefix/bin/msrepack" --version 2>/dev/null) || version=msrepack
    cat <<TOLD
$version is installed below $prefix:
  bin/msrepack             the program
  share/man                its manual pages
  share/msrepack/cluster   scripts for all processors, Slurm and replace
  share/msrepack/nightly   settings of a nightly service, which is not enabled; its units are in lib/systemd/system
  share/doc/msrepack       documents and examples
and completions for bash, zsh and fish. To remove all: install.sh --uninstall $prefix
TOLD
    case :$PATH: in *:"$prefix/bin":*) ;; *) printf '%s\n' "Not on the path: $prefix/bin" ;; esac
}

# Of a list that is not whole nothing was made yet.
remove_parts() { for list in $(begun_names); do [ ! -f "$list.part" ] || { rm "$list.part"; removed=yes; }; done; }

uninstall_all() {
    removed=
    remove_parts
    # What has begun last has all names.
    if [ -f "$prefix/$begun" ]; then
        rm -f "$prefix/$note"
    elif [ -f "$prefix/$note" ]; then
        mv "$prefix/$note" "$prefix/$begun"
    fi
    find_begun
    [ -n "$found" ] || [ -n "$removed" ] || fail "nothing was installed below $prefix"
    [ -n "$found" ] || exit 0
    installed=$(sort -ru $found)
    top=
    for name in $installed; do
        path=$(path_of "$name")
        [ -d "$path" ] || rm -f "$path" "$path.part"
        # The first one comes last.
        case $name in /*) top=$name ;; esac
    done
    for name in $installed; do
        # The whole paths are the last ones.
        case $name in
            /*) [ ! -f "$prefix/$begun" ] || mv -f "$prefix/$begun" "$top$begun" 2>/dev/null || rm -f "$prefix/$begun" ;;
        esac
        path=$(path_of "$name")
        [ ! -d "$path" ] || rmdir --ignore-fail-on-non-empty "$path"
    done
    rm -f $found ${top:+"$top$begun"}
}

${what}_all
