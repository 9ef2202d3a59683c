#!/bin/sh
# Tries install.sh: first with a kit that builds nothing, in seconds, and then with the real one, under a fresh folder. The installed
# files are used, and removed again. It says which tests it leaves out because a tool is missing.
set -u
CDPATH=
cd "$(dirname "$0")/.."
. tests/lib.sh
prefix=$work/installed

find_compiler
if [ -z "$compiler" ] || ! has ar; then
    left_out 'a C compiler or ar' 'installing'
    finish
fi

# ---- the script itself, in a copy of the repository, with a kit that proves nothing and builds little

# Runs the words: they must end with the status, and the last line on standard error is the one that is given.
ends_with() {
    name=$1 status=$2 line=$3
    shift 3
    "$@" > "$work/out" 2> "$work/err"
    ended=$?
    if [ $ended -eq "$status" ] && [ "$(tail -n 1 "$work/err")" = "$line" ]; then pass; else fail "$name: $ended and not $status"; fi
}

# Under a folder stand the folders, files and links that are given, and nothing else.
holds() {
    name=$1 folder=$2
    shift 2
    printf '%s\n' "$@" | sort > "$work/expected"
    (cd "$folder" && find . ! -name . | sed 's|^\./||' | sort) > "$work/there" 2> "$work/err"
    if diff "$work/expected" "$work/there" > "$work/err"; then pass; else fail "$name"; fi
}

# Under a folder each relative link of an installed page leads to a file, or a folder, that is installed there too.
links_lead() {
    name=$1 top=$(readlink -f "$2")
    find "$top/share/doc/xns" -name '*.md' | while read -r page; do
        sed '/^```/,/^```/d' "$page" | grep -o '](\([^)#:]*\)[)#]' | sed "s|^](\(.*\).$|${page%/*} \1|"
    done | sort -u > "$work/links"
    while read -r folder link; do
        target=$(readlink -f "$folder/$link")
        case $target in "$top"/*) if [ -e "$target" ]; then continue; fi ;; esac
        echo "a page of ${folder#"$top"/} links to $link"
    done < "$work/links" > "$work/lost"
    if [ -s "$work/links" ] && [ ! -s "$work/lost" ]; then pass; else fail "$name" "$work/lost"; fi
}

version=$(cat VERSION)
pages='C C-REFERENCE CAPTURES COURIER ENDPOINT FORMATS GLOSSARY NETWORKS NOTATION PROMISES PROOF PYTHON WORLD'
folders='bin include lib lib/pkgconfig share share/doc share/doc/xns share/doc/xns/crates share/doc/xns/examples share/doc/xns/examples/c share/doc/xns/examples/courier share/doc/xns/examples/python share/man share/man/man1 share/xns share/xns/python share/xns/python/xns'
files="bin/xns bin/xns-net include/xns.h lib/libxns.a lib/libxns.so lib/libxns.so.0 lib/libxns.so.$version lib/pkgconfig/xns.pc share/man/man1/xns.1 share/man/man1/xns-net.1"
for page in $pages; do files="$files share/doc/xns/$page.md"; done
for page in courier_calls courier_sessions host_world xns_agenda xns_connection xns_host; do files="$files share/doc/xns/crates/$page.md"; done
examples=$(find examples -type f ! -name '*.pyc')
for example in $examples; do files="$files share/doc/xns/$example"; done
files="$files share/xns/installed"
for module in python/xns/*.py; do files="$files share/xns/$module"; done

mkdir -p "$work/kit/bin" "$work/kit/c" "$work/copy/crates/xns" "$work/copy/crates/xns_c"
cp -r install.sh release.sh VERSION docs include python examples "$work/copy/"
echo 'int xns_there(void) { return 1; }' > "$work/kit/there.c"
"$compiler" -fPIC -c "$work/kit/there.c" -o "$work/kit/there.o"
for archive in libxns_c.a c/liblibc_c.a; do (cd "$work/kit" && ar qcs $archive there.o); done
cat > "$work/kit/bin/rt" << 'END'
#!/bin/sh
kit=$(dirname "$0")/..
case $1 in
doc)
    echo "$kit/START-HERE.md"
    exit
    ;;
run)
    [ ! -e "$kit/refuses" ] || exit 1
    mkdir -p out
    echo '#!/bin/sh' > out/xns
    ;;
lib)
    mkdir -p out
    cp "$kit/libxns_c.a" out/libxns_c.a
    ;;
esac
echo "$*" >> "$kit/commands"
END
chmod +x "$work/kit/bin/rt"
plain_path=$PATH
script=$work/copy/install.sh
notice='The program and the library are proved and built: half an hour or more the first time, then seconds. What follows is the log of the proofs.'

without=
for folder in $(echo "$plain_path" | tr : ' '); do
    if [ ! -x "$folder/rt" ]; then without=$without${without:+:}$folder; fi
done
PATH=$without
ends_with 'without the kit' 1 'install.sh: there is no rt: the Rattle kit is needed to build' sh "$script" "$work/none/deep"
[ ! -e "$work/none" ] || fail 'without the kit a folder is left'

PATH=$work/kit/bin:$plain_path
ends_with 'a compiler that is not there' 1 'install.sh: the C compiler nowhere -O1 makes no shared library' env CC='nowhere -O1' sh "$script" "$work/none/deep"
[ ! -e "$work/none" ] || fail 'without the compiler a folder is left'
for words in '' --uninstall 'one two' '--uninstall one two'; do
    # shellcheck disable=SC2086
    ends_with "the words '$words'" 2 "install.sh: one folder is wanted; try 'sh install.sh --help'" sh "$script" $words
done
ends_with 'another option' 2 "install.sh: there is no option --prefix=x; try 'sh install.sh --help'" sh "$script" --prefix=x
ends_with 'no name' 2 "install.sh: one folder is wanted; try 'sh install.sh --help'" sh "$script" ''
for folder in "$work/a blank" "$work/a\$sign" "$work/ü" "$work/a;sign" "$work/a:b"; do
    ends_with 'a folder that pkg-config does not take' 2 "install.sh: pkg-config does not take the folder $folder; try 'sh install.sh --help'" sh "$script" "$folder"
    [ ! -e "$folder" ] || fail 'it is left'
done
ends_with 'a folder that pkg-config does not take, from where one stands' 2 "install.sh: pkg-config does not take the folder $work/a b/c; try 'sh install.sh --help'" \
    sh -c "mkdir '$work/a b' && cd '$work/a b' && sh '$script' c"
ends_with 'DESTDIR with a folder from where one stands' 2 "install.sh: with DESTDIR the folder has to begin with /; try 'sh install.sh --help'" env DESTDIR="$work/stage" sh "$script" usr
for option in --help -h; do
    expect "$option" sh "$script" $option
    expect 'tells how it is called' grep -qx 'usage: sh install.sh PREFIX' "$work/out"
done

# A folder that can't be written in is found before anything is proved, and nothing is left there.
mkdir "$work/way"
touch "$work/way/share"
ends_with 'a file in the place of a folder' 1 "install.sh: $work/way/share cannot be made" sh "$script" "$work/way"
holds 'and nothing else is left' "$work/way" share
rm "$work/way/share"
mkdir -p "$work/way/lib/libxns.a"
ends_with 'a folder in the place of a file' 1 "install.sh: $work/way/lib/libxns.a is a folder" sh "$script" "$work/way"
holds 'and nothing else is left there' "$work/way" lib lib/libxns.a
other=
if [ "$(id -u)" -eq 0 ]; then other='setpriv --reuid=65534 --regid=65534 --clear-groups'; fi
if [ -z "$other" ] || has setpriv; then
    chmod -R a+rX "$work"
    mkdir "$work/closed" "$work/way/bin"
    chmod 555 "$work/closed" "$work/way" "$work/way/bin"
    # shellcheck disable=SC2086
    ends_with 'a folder that is closed' 1 "install.sh: $work/closed/bin cannot be made" $other sh "$script" "$work/closed"
    # shellcheck disable=SC2086
    ends_with 'a closed folder in it' 1 "install.sh: $work/way/bin cannot be written in" $other sh "$script" "$work/way"
    chmod 755 "$work/closed" "$work/way" "$work/way/bin"
else left_out setpriv 'folders that are closed'; fi
ends_with 'and the folder of all processes' 1 'install.sh: /proc/xns cannot be made' sh "$script" /proc/xns
[ ! -e "$work/kit/commands" ] || fail 'something was built before'
touch "$work/kit/refuses"
ends_with 'a proof that fails' 1 "$notice" sh "$script" "$work/none/deep"
[ ! -e "$work/none" ] || fail 'after a proof that fails a folder is left'
rm "$work/kit/refuses"

# The installed files, and that they are removed with the folders that were made.
ends_with 'installing' 0 "$notice" sh "$script" "$work/made/deep"
# shellcheck disable=SC2086
holds 'what is there' "$work/made/deep" $folders $files
links_lead 'the links of its pages' "$work/made/deep"
ends_with 'and again' 0 "$notice" sh "$script" "$work/made/deep"
expect 'taking it away' sh "$script" --uninstall "$work/made/deep"
[ ! -e "$work/made" ] || fail 'a folder that was made is left'
mkdir -p "$work/kept/lib" "$work/kept/share/doc"
ends_with 'installing in a folder that is there' 0 "$notice" sh -c "cd '$work' && sh '$script' ./kept/"
expect 'its folder for pkg-config' grep -qx "prefix=$work/kept" "$work/kept/lib/pkgconfig/xns.pc"
touch "$work/kept/bin/another"
mkdir "$work/kept/share/xns/python/xns/__pycache__"
touch "$work/kept/share/xns/python/xns/__pycache__/_told.cpython-311.pyc"
expect 'taking it away there' sh "$script" --uninstall "$work/kept"
holds 'leaves what was there, and what another put there' "$work/kept" bin bin/another lib share share/doc
ends_with 'taking it away twice' 1 "install.sh: nothing was installed under $work/kept" sh "$script" --uninstall "$work/kept"

echo 0.0.9 > "$work/copy/VERSION"
ends_with 'an older version' 0 "$notice" sh "$script" "$work/versions"
cp VERSION "$work/copy/VERSION"
ends_with 'a newer one over it' 0 "$notice" sh "$script" "$work/versions"
# shellcheck disable=SC2086
holds 'leaves nothing of the older' "$work/versions" $folders $files

# A compiler behind another program, and a CDPATH that has a folder of the script's name.
printf '#!/bin/sh\nexec "$@"\n' > "$work/kit/bin/behind"
chmod +x "$work/kit/bin/behind"
ends_with 'a compiler of several words' 0 "$notice" env CC="behind $compiler -O1" sh "$script" "$work/versions"
mkdir -p "$work/elsewhere/copy" "$work/elsewhere/one"
ends_with 'a CDPATH' 0 "$notice" sh -c "cd '$work' && CDPATH='$work/elsewhere' && export CDPATH && sh copy/install.sh '$work/versions'"

mkdir "$work/a,comma"
ends_with 'a folder for the work with a comma' 0 "$notice" env TMPDIR="$work/a,comma" sh "$script" "$work/versions"

# A path with points, and new files that by themselves are for nobody else.
ends_with 'a new folder that ends in a point' 0 "$notice" sh -c "umask 077 && sh '$script' '$work/pointed/./deep//.'"
expect 'its name for pkg-config' grep -qx "prefix=$work/pointed/deep" "$work/pointed/deep/lib/pkgconfig/xns.pc"
find "$work/pointed" ! -type l ! -perm 755 ! -perm 644 > "$work/out"
expect 'all may read it' cmp /dev/null "$work/out"
expect 'taking it away by its points' sh "$script" --uninstall "$work/pointed/./deep/."
[ ! -e "$work/pointed" ] || fail 'a folder with points is left'

# Installing under another folder, whose name may have a blank.
ends_with 'installing under DESTDIR' 0 "$notice" env DESTDIR="$work/a stage" sh "$script" /opt/xns/
# shellcheck disable=SC2046,SC2086
holds 'what is there under DESTDIR' "$work/a stage" opt opt/xns $(printf 'opt/xns/%s\n' $folders $files)
expect 'PREFIX for pkg-config' grep -qx 'prefix=/opt/xns' "$work/a stage/opt/xns/lib/pkgconfig/xns.pc"
expect 'taking it away from DESTDIR' env DESTDIR="$work/a stage" sh "$script" --uninstall /opt/xns
[ ! -e "$work/a stage" ] || fail 'a folder under DESTDIR is left'
for words in '' --uninstall; do
    # shellcheck disable=SC2086
    expect "a DESTDIR that ends in a point, $words" sh -c "DESTDIR='$work/a stage/.' sh '$script' $words /opt/xns 2> '$work/log'"
done
[ ! -e "$work/a stage" ] || fail 'a folder under DESTDIR with a point is left'

# The archive: the same bytes each time, whatever rights new files get, and nothing else than what is installed.
for place in one two; do mkdir "$work/$place"; done
ends_with 'an archive' 0 "$notice" sh "$work/copy/release.sh" "$work/one"
printf '%s\n' "$work/one/xns-$version-x86_64-linux.tar.gz" "$work/one/xns-$version-x86_64-linux.tar.gz.sha256" > "$work/names"
expect 'its name, and that of its sum' cmp "$work/names" "$work/out"
sleep 1
ends_with 'an archive for where one stands' 0 "$notice" sh -c "umask 077 && cd '$work/two' && sh '$work/copy/release.sh'"
expect 'has the same bytes' cmp "$work/one/xns-$version-x86_64-linux.tar.gz" "$work/two/xns-$version-x86_64-linux.tar.gz"
expect 'and sum' cmp "$work/one/xns-$version-x86_64-linux.tar.gz.sha256" "$work/two/xns-$version-x86_64-linux.tar.gz.sha256"
ends_with 'an archive under a CDPATH' 0 "$notice" sh -c "cd '$work' && CDPATH='$work/elsewhere' && export CDPATH && sh copy/release.sh one"
expect 'is told where it is' cmp "$work/names" "$work/out"
ends_with 'an archive with an option' 2 'usage: sh release.sh [FOLDER]' sh "$work/copy/release.sh" --all
ends_with 'an archive in two folders' 2 'usage: sh release.sh [FOLDER]' sh "$work/copy/release.sh" "$work/one" "$work/two"
if [ -n "$other" ] || [ "$(id -u)" -ne 0 ]; then
    chmod 555 "$work/elsewhere"
    # shellcheck disable=SC2086
    ends_with 'an archive in a folder that is closed' 1 "release.sh: $work/elsewhere cannot be written in" $other sh "$work/copy/release.sh" "$work/elsewhere"
    chmod 755 "$work/elsewhere"
fi

PATH=$plain_path

# ---- what is installed by the real kit, and nothing else

# Where `rt ci` has just proved and built the program, `rt run` takes it as it is.
if [ -n "${BUILT_BY_GATE-}" ] && [ -x crates/xns/out/xns ]; then
    mkdir "$work/gate"
    cat > "$work/gate/rt" << END
#!/bin/sh
if [ "\$1" = run ]; then exit; fi
exec $(command -v rt) "\$@"
END
    chmod +x "$work/gate/rt"
    PATH=$work/gate:$plain_path
fi
if ! sh install.sh "$prefix" > "$work/said" 2> "$work/err"; then
    fail 'install.sh'
    finish
fi
# shellcheck disable=SC2086
holds 'the files' "$prefix" $folders $files
# shellcheck disable=SC2086
printf '%s\n' $files | sort > "$work/expected"
sed "s|^$prefix/||" "$work/said" | sort > "$work/names"
expect 'their names are printed' cmp "$work/expected" "$work/names"
{
    for words in --help 'dump --help' 'calls --help' 'sim --help'; do
        # shellcheck disable=SC2086
        "$prefix/bin/xns" $words
    done
    cat "$prefix/share/man/man1/xns.1" "$prefix/include/xns.h" "$prefix"/share/xns/python/xns/*.py "$prefix"/share/doc/xns/C*.md
} | grep -o '[A-Z][A-Z-]*\.md' | sort -u > "$work/pages"
[ -s "$work/pages" ] || fail 'no page is named'
while read -r page; do
    expect "the page $page, which is named" test -s "$prefix/share/doc/xns/$page"
done < "$work/pages"

echo 532300220002000000010000aa0001020002000000010000aa000304040000014869 > "$work/request"
expect 'the program' sh -c "'$prefix/bin/xns' dump < '$work/request'"
expect 'reads a packet' grep -q '^1 echo request 4869$' "$work/out"
sed -n '/^    \$ xns calls/,/^$/p' README.md | sed '1d; /^$/d; s/^    //' > "$work/shown"
expect 'the calls that the README shows' sh -c "[ -s '$work/shown' ] && '$prefix/bin/xns' calls --programs examples/courier/tally.courier examples/six-calls.hex | head -6 | cmp - '$work/shown'"

# The file VERSION has the version; all other places repeat it.
expect 'the version of the header' grep -qx "#define XNS_VERSION \"$(cat VERSION)\"" include/xns.h
expect 'help' "$prefix/bin/xns" --help
head -1 "$work/out" > "$work/first"
expect 'its version' grep -q "^xns $(cat VERSION): " "$work/first"

# ---- the library, by pkg-config

if has nm; then
    nm -D --defined-only "$prefix/lib/libxns.so" 2> "$work/err" | awk '{print $3}' | sort > "$work/exported"
    sed -n '/^static/d; s/^[a-z].*[ *]\(xns_[a-z_]*\)(.*[,;]$/\1/p' include/xns.h | sort > "$work/declared"
    [ -s "$work/declared" ] || echo nothing >> "$work/declared"
    expect 'the shared library exports the calls of the header, and no other name' cmp "$work/declared" "$work/exported"
else left_out nm 'what the shared library exports'; fi

flags='-Wall -Wextra -Wpedantic -Werror -O2'
PKG_CONFIG_PATH=$prefix/lib/pkgconfig
LD_LIBRARY_PATH=$prefix/lib
export PKG_CONFIG_PATH LD_LIBRARY_PATH
if has pkg-config; then
    expect 'its version' pkg-config --modversion xns
    expect 'is that of VERSION' cmp VERSION "$work/out"
    from=$(pkg-config --cflags --libs xns)
    find_plus
    for example in endpoints fields echo courier server client ping epoll; do
        # shellcheck disable=SC2086
        expect "$example against the shared library" "$compiler" $flags -std=c99 examples/c/$example.c $from -o "$work/$example"
    done
    if [ -n "$plus" ]; then
        sed -n '/^```c$/,/^```$/p' docs/C.md | sed '/^```/d' > "$work/example.cc"
        # shellcheck disable=SC2086
        expect 'the example of docs/C.md as C++' "$plus" -Wall -Wextra -Werror -std=c++11 "$work/example.cc" $from -o "$work/plus"
        expect 'runs' "$work/plus"
        expect 'and says hello' grep -qx hello "$work/out"
    else left_out 'a C++ compiler' 'the example of docs/C.md as C++'; fi
    # shellcheck disable=SC2086
    expect 'what tells the version' "$compiler" $flags -std=c99 tests/c/texts.c $from -o "$work/texts"
    expect 'the version of the library' "$work/texts"
    expect 'is that of VERSION too' cmp VERSION "$work/out"
    expect 'a call between two hosts' "$work/courier"
    expect 'is answered' grep -qx 42 "$work/out"
    expect 'the fields of a packet' sh -c "'$work/fields' < '$work/request'"
    expect 'are printed' grep -q '^data 00014869$' "$work/out"
else left_out pkg-config 'what it says of the library, and the examples'; fi

# One archive serves, with nothing besides but the C library.
expect 'an example against the archive' "$compiler" $flags -std=c99 -I"$prefix/include" examples/c/courier.c "$prefix/lib/libxns.a" -o "$work/courier"
expect 'runs' env -u LD_LIBRARY_PATH "$work/courier"
expect 'and is answered' grep -qx 42 "$work/out"
words=$(sed -n 's|^    gcc \(.* ~/xns/lib/libxns.a\) -o server$|\1|p' README.md | sed "s|~/xns|$prefix|g")
expect 'the line of README.md that compiles a program' sh -c "[ -n '$words' ] && '$compiler' $words -o '$work/server'"
ends_with 'that program, of no words' 2 'usage: server PORT, -i INTERFACE or -n PORT STATION' "$work/server"

# The archive is for every x86-64 processor: here for one without SSSE3 and SSE4.
if has qemu-x86_64; then
    expect 'an example without shared libraries' "$compiler" $flags -std=c99 -static -I"$prefix/include" examples/c/courier.c "$prefix/lib/libxns.a" -o "$work/courier"
    expect 'runs on the first x86-64 processors' qemu-x86_64 -cpu qemu64,-ssse3,-sse4.1,-sse4.2 "$work/courier"
    expect 'and is answered there' grep -qx 42 "$work/out"
else left_out qemu-x86_64 'the archive on the first x86-64 processors'; fi

# ---- the command of the module

if has python3; then
    echo "xns-net $(cat VERSION)" > "$work/named"
    ln -s "$prefix/bin/xns-net" "$work/linked-net"
    for command in "$prefix/bin/xns-net" "$work/linked-net"; do
        expect 'xns-net' env -u XNS_LIBRARY -u PYTHONPATH -u LD_LIBRARY_PATH PYTHONDONTWRITEBYTECODE=1 "$command" --version
        expect 'has its version' cmp "$work/named" "$work/out"
    done
else left_out python3 xns-net; fi

# ---- the manual pages

if has man && man --version 2> /dev/null | grep -q '^man [0-9]'; then
    expect 'the manual page' env LC_ALL=C MANWIDTH=80 man --warnings -l "$prefix/share/man/man1/xns.1"
    cp "$work/out" "$work/page"
    expect 'has the version' grep -q "xns $(cat VERSION)" "$work/page"
    expect 'has the commands' sh -c "grep -q 'xns dump' '$work/page' && grep -q 'xns calls' '$work/page' && grep -q 'xns sim' '$work/page'"
    expect 'that of xns-net' env LC_ALL=C MANWIDTH=80 man --warnings -l "$prefix/share/man/man1/xns-net.1"
    expect 'has the version too' grep -q "xns $(cat VERSION)" "$work/out"
else left_out man 'the manual page'; fi

# ---- the archive for those who have no kit

archived=xns-$version-x86_64-linux
if sh release.sh "$work/one" > "$work/said" 2> "$work/err"; then
    expect 'its sum' sh -c "cd '$work/one' && sha256sum -c '$archived.tar.gz.sha256'"
    expect 'another' sh -c "sh release.sh '$work/two' 2> '$work/log'"
    expect 'is the same' cmp "$work/one/$archived.tar.gz" "$work/two/$archived.tar.gz"
    expect 'unpacking' tar -xzf "$work/one/$archived.tar.gz" -C "$work"
    unpacked=$work/$archived
    # shellcheck disable=SC2046,SC2086
    holds 'what is in it' "$unpacked" README $folders $(echo $files | sed 's|share/xns/installed||')
    for file in bin/xns include/xns.h lib/libxns.a lib/libxns.so; do expect "$file" cmp "$prefix/$file" "$unpacked/$file"; done
    if has pkg-config; then
        from=$(PKG_CONFIG_PATH=$unpacked/lib/pkgconfig pkg-config --cflags --libs xns)
        # shellcheck disable=SC2086
        expect 'a program in C' "$compiler" $flags -std=c99 examples/c/courier.c $from -o "$work/courier"
        expect 'runs with it' env LD_LIBRARY_PATH="$unpacked/lib" "$work/courier"
        expect 'and is answered by it' grep -qx 42 "$work/out"
    fi
    # shellcheck disable=SC2086
    expect 'a program in C against its archive' "$compiler" $flags -std=c99 -I"$unpacked/include" examples/c/courier.c "$unpacked/lib/libxns.a" -o "$work/courier"
    expect 'runs' env -u LD_LIBRARY_PATH "$work/courier"
    expect 'and is answered' grep -qx 42 "$work/out"
    if has python3; then
        expect 'an example in Python' env -u XNS_LIBRARY PYTHONPATH="$unpacked/share/xns/python" python3 -B examples/python/endpoint.py
        expect 'has its item' grep -qx world "$work/out"
        expect 'its xns-net' env -u XNS_LIBRARY -u PYTHONPATH PYTHONDONTWRITEBYTECODE=1 "$unpacked/bin/xns-net" --version
        expect 'has its version too' cmp "$work/named" "$work/out"
    else left_out python3 'the module for Python'; fi
else fail 'release.sh'; fi

# ---- taking it away

touch "$prefix/lib/another"
expect 'taking it away' sh install.sh --uninstall "$prefix"
holds 'leaves nothing of it, and all else' "$prefix" lib lib/another

finish
