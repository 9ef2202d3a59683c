#!/bin/sh
# Makes an archive of what install.sh installs, and its sha256 sum beside it, for those who have no Rattle kit:
#
#     sh release.sh [FOLDER]
#
# The archive is FOLDER/xns-VERSION-x86_64-linux.tar.gz, with FOLDER where one stands if it is not given. What is the same is archived by
# the same bytes: dates, owners, rights and order are fixed.
set -eu
CDPATH=

folder=${1:-.}
if [ $# -gt 1 ] || [ "$folder" != "${folder#-}" ]; then
    echo 'usage: sh release.sh [FOLDER]' >&2
    exit 2
fi
folder=$(cd "$folder" && pwd)
if [ ! -w "$folder" ]; then
    echo "release.sh: $folder cannot be written in" >&2
    exit 1
fi
cd "$(dirname "$0")"
version=$(cat VERSION)
name=xns-$version-x86_64-linux
work=$(mktemp -d)
trap 'rm -rf "$work"' EXIT
trap 'exit 1' HUP INT TERM

DESTDIR=$work sh install.sh "/$name" > /dev/null
tree=$work/$name
rm "$tree/share/xns/installed"

# The archive serves wherever it is unpacked.
sed "s|^prefix=.*|prefix=\${pcfiledir}/../..|" "$tree/lib/pkgconfig/xns.pc" > "$work/xns.pc"
cat "$work/xns.pc" > "$tree/lib/pkgconfig/xns.pc"

cat > "$tree/README" << END
xns $version: packets of the Xerox Network Systems, and calls of Courier. For x86-64 Linux.

Below, DIR is this folder. Nothing has to be installed.

The program:               DIR/bin/xns --help          man DIR/share/man/man1/xns.1
Calls of a capture:        DIR/bin/xns calls x.pcap
Of packets in hex:         DIR/bin/xns calls DIR/share/doc/xns/examples/six-calls.hex
A program in C:            gcc program.c -IDIR/include DIR/lib/libxns.a
The same by pkg-config:    PKG_CONFIG_PATH=DIR/lib/pkgconfig pkg-config --cflags --libs xns
A program in Python:       PYTHONPATH=DIR/share/xns/python python3 program.py
Hosts of a network:        DIR/bin/xns-net --help      man DIR/share/man/man1/xns-net.1
The pages, and examples:   DIR/share/doc/xns

The program needs the C library (glibc), and a processor of x86-64-v2 (since about 2009). The
library runs on every x86-64 processor. What is proved of them is in DIR/share/doc/xns/PROMISES.md.
END

archive=$folder/$name.tar.gz
tar --create --format=ustar --sort=name --mtime=@315532800 --owner=0 --group=0 --numeric-owner --mode='u=rwX,go=rX' \
    --directory="$work" --file="$work/$name.tar" "$name"
gzip -9n "$work/$name.tar"
cp "$work/$name.tar.gz" "$archive"
(cd "$folder" && sha256sum "$name.tar.gz" > "$name.tar.gz.sha256")
echo "$archive"
echo "$archive.sha256"
