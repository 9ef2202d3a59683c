#!/bin/sh
# Builds the program and the library for C, and installs them under a folder, or takes them away again.
set -eu
CDPATH=

usage() {
    cat << 'END'
usage: sh install.sh PREFIX
       sh install.sh --uninstall PREFIX

Proves and builds the program xns and the library for C, and installs under the folder PREFIX:

    bin/xns, bin/xns-net
    include/xns.h
    lib/libxns.a, lib/libxns.so and its versions, lib/pkgconfig/xns.pc
    share/man/man1/xns.1, share/man/man1/xns-net.1
    share/doc/xns       the pages that help, manual page and header name, those that they link to, and the examples
    share/xns           the module for Python, and the list of what was installed

The Rattle kit (rt), a C compiler and ar are needed. Building takes half an hour or more the first
time, then seconds. PREFIX may have letters, digits and the signs / . _ + , @ = ~ - in it.

With DESTDIR in the environment, all of it is put under the folder DESTDIR, and works once it is
moved from there to PREFIX.

--uninstall removes what is in the list, and the folders that were made for it, if they are empty.
END
}

stop() {
    echo "install.sh: $1" >&2
    exit 1
}

refuse() {
    echo "install.sh: $1; try 'sh install.sh --help'" >&2
    exit 2
}

# A path without doubled slashes, without a point between two, and without a slash at its end.
plain() {
    printf '%s/\n' "$1" | sed 's|/\(\.\{0,1\}/\)*|/|g; s|/$||'
}

# Makes a folder, and those above it that are missing, for all to read, and notes each that it made.
make_folder() {
    if [ ! -d "$1" ]; then
        make_folder "$(dirname "$1")"
        mkdir -m 755 "$1" 2> /dev/null || stop "$1 cannot be made"
        echo "$1" >> "$work/made"
    fi
}

# Removes each folder of the list, the inner ones first, if it is empty.
remove_empty() {
    sort -r | while IFS= read -r folder; do rmdir "$folder" 2> /dev/null || :; done
}

# Removes the files that the list names, and what Python keeps beside its module.
remove_files() {
    sed -n 's/^file //p' "$1" | while read -r file; do rm -f "$root/$file"; done
    rm -f "$root"/share/xns/python/__pycache__/xns.*.pyc "$root"/share/xns/python/xns/__pycache__/*.pyc
    rmdir "$root/share/xns/python/__pycache__" "$root/share/xns/python/xns/__pycache__" 2> /dev/null || :
}

uninstall() {
    [ -f "$list" ] || stop "nothing was installed under $root"
    cp "$list" "$work/list"
    remove_files "$work/list"
    sed -n "s|^folder ||p" "$work/list" | while IFS= read -r folder; do echo "$root/$folder"; done | remove_empty
    folder=$root
    sed -n 's/^above //p' "$work/list" | while read -r _; do
        rmdir "$folder" 2> /dev/null || :
        folder=$(dirname "$folder")
    done
}

# What is removed at the end: always the work, and where nothing was installed also the folders that were made.
clean() {
    if [ $installed = no ] && [ -f "$work/made" ]; then remove_empty < "$work/made"; fi
    rm -rf "$work"
}

# ---- the command line

action=install
case ${1-} in
--help | -h)
    usage
    exit
    ;;
--uninstall)
    action=uninstall
    shift
    ;;
esac
[ $# -eq 1 ] || refuse 'one folder is wanted'
case $1 in
'') refuse 'one folder is wanted' ;;
-*) refuse "there is no option $1" ;;
/*) prefix=$1 ;;
*)
    [ -z "${DESTDIR-}" ] || refuse 'with DESTDIR the folder has to begin with /'
    prefix=$PWD/$1
    ;;
esac
case ${DESTDIR-} in
'' | /*) ;;
*) DESTDIR=$PWD/$DESTDIR ;;
esac
LC_ALL=C
export LC_ALL
case $prefix in
*[!A-Za-z0-9/._+,@=~-]*) refuse "pkg-config does not take the folder $prefix" ;;
esac
prefix=$(plain "$prefix")
root=$(plain "${DESTDIR-}")$prefix
list=$root/share/xns/installed
installed=no
work=$(mktemp -d)
trap clean EXIT
trap 'exit 1' HUP INT TERM
if [ $action = uninstall ]; then
    uninstall
    exit
fi

# ---- what is needed

cd "$(dirname "$0")"
command -v rt > /dev/null || stop 'there is no rt: the Rattle kit is needed to build'
# The compiler may have words behind it, and stand behind another program, as in CC='ccache gcc'.
compiler=${CC-}
for one in gcc cc clang; do
    if [ -z "$compiler" ] && command -v $one > /dev/null; then compiler=$one; fi
done
[ -n "$compiler" ] || stop 'there is no C compiler'
echo 'int tried;' > "$work/tried.c"
# shellcheck disable=SC2086
$compiler -shared "$work/tried.c" -o "$work/tried.so" || stop "the C compiler $compiler makes no shared library"
command -v ar > /dev/null || stop 'there is no ar'
heap=
kit=$(dirname "$(rt doc)")
for folder in "$kit" "$kit/.." "$(dirname "$(readlink -f "$(command -v rt)")")/.."; do
    if [ -z "$heap" ] && [ -f "$folder/c/liblibc_c.a" ]; then heap=$(cd "$folder/c" && pwd)/liblibc_c.a; fi
done
[ -n "$heap" ] || stop 'the kit has no c/liblibc_c.a'

# ---- the folders, which are there and can be written in before anything is proved

version=$(cat VERSION)
soname=libxns.so.${version%%.*}
pages='C C-REFERENCE CAPTURES COURIER ENDPOINT FORMATS GLOSSARY NETWORKS NOTATION PROMISES PROOF PYTHON WORLD'
for page in courier_calls courier_sessions host_world xns_agenda xns_connection xns_host; do pages="$pages crates/$page"; done
examples=$(cd examples && echo *.hex c/*.[ch] courier/*.courier python/*.py)
files="bin/xns bin/xns-net include/xns.h lib/libxns.a lib/libxns.so.$version lib/$soname lib/libxns.so lib/pkgconfig/xns.pc share/man/man1/xns.1 share/man/man1/xns-net.1"
for page in $pages; do files="$files share/doc/xns/$page.md"; done
for example in $examples; do files="$files share/doc/xns/examples/$example"; done
files="$files share/xns/installed"
modules=$(cd python/xns && echo *.py)
for module in $modules; do files="$files share/xns/python/xns/$module"; done
for file in $files; do
    folder=$root/$(dirname "$file")
    make_folder "$folder"
    [ ! -d "$root/$file" ] || stop "$root/$file is a folder"
    touch "$folder/.xns.$$" 2> /dev/null || stop "$folder cannot be written in"
    rm "$folder/.xns.$$"
done
if [ -z "${DESTDIR-}" ]; then prefix=$(cd "$root/" && pwd); fi

# ---- building

echo 'The program and the library are proved and built: half an hour or more the first time, then seconds. What follows is the log of the proofs.' >&2
(cd crates/xns && rt run -- dump < /dev/null > /dev/null)
(cd crates/xns_c && rt lib --cpu x86-64 > /dev/null)

# One archive: the library, and the kit's three functions over malloc, realloc and free.
mkdir "$work/archive"
cp crates/xns_c/out/libxns_c.a "$work/archive/libxns.a"
(cd "$work/archive" && ar x "$heap" && ar qDs libxns.a ./*.o)

echo '{ global: xns_*; local: *; };' > "$work/exports"
# shellcheck disable=SC2086
$compiler -shared -Wl,-soname,"$soname" -Xlinker --version-script="$work/exports" \
    -Wl,--whole-archive "$work/archive/libxns.a" -Wl,--no-whole-archive -o "$work/libxns.so"

cat > "$work/xns.pc" << END
prefix=$prefix
libdir=\${prefix}/lib
includedir=\${prefix}/include

Name: xns
Description: Xerox Network Systems: internet packets, sequenced packets and Courier
Version: $version
Cflags: -I\${includedir}
Libs: -L\${libdir} -lxns
END
for page in xns xns-net; do sed "s/@VERSION@/$version/" "docs/$page.1" > "$work/$page.1"; done

# The pages' links lead to where the examples, the header and the module are installed.
mkdir "$work/crates"
for page in $pages; do
    sed 's|](\.\./examples|](examples|g; s|](\.\./include/|](../../../include/|g; s|](\.\./python/|](../../xns/python/|g' "docs/$page.md" > "$work/$page.md"
done

# ---- the list: the files, the folders that were made here or by an earlier installation, and how many from PREFIX up were made

: > "$work/old"
if [ -f "$list" ]; then cp "$list" "$work/old"; fi
{
    for file in $files; do echo "file $file"; done
    grep -E '^(folder|above) ' "$work/old" || :
    if [ -f "$work/made" ]; then
        while IFS= read -r folder; do
            case $folder in
            "$root"/*) echo "folder ${folder#"$root"/}" ;;
            *) echo "above ." ;;
            esac
        done < "$work/made"
    fi
} > "$work/list"

# ---- installing

installed=yes
remove_files "$work/old"
install -m 644 "$work/list" "$root/share/xns/installed"
install -m 755 crates/xns/out/xns "$root/bin/xns"
install -m 755 python/xns-net "$root/bin/xns-net"
install -m 644 include/xns.h "$root/include/xns.h"
install -m 644 "$work/archive/libxns.a" "$root/lib/libxns.a"
install -m 755 "$work/libxns.so" "$root/lib/libxns.so.$version"
ln -sf "libxns.so.$version" "$root/lib/$soname"
ln -sf "$soname" "$root/lib/libxns.so"
install -m 644 "$work/xns.pc" "$root/lib/pkgconfig/xns.pc"
for page in xns xns-net; do install -m 644 "$work/$page.1" "$root/share/man/man1/$page.1"; done
for page in $pages; do install -m 644 "$work/$page.md" "$root/share/doc/xns/$page.md"; done
for example in $examples; do install -m 644 "examples/$example" "$root/share/doc/xns/examples/$example"; done
for module in $modules; do install -m 644 "python/xns/$module" "$root/share/xns/python/xns/$module"; done
for file in $files; do echo "$root/$file"; done
