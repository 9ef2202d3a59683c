# shellcheck shell=sh
# What the scripts of this folder share. Each goes to the top of the clone and reads this file. It then has a folder $work, which is
# removed when the script ends, by a signal too, and counts the tests that pass and those that fail. Its last line is
# 'N passed, M failed', and it ends with 1 where a test failed.

# What is preloaded, and the PREFIX of install.sh, stand in a folder whose name has no blank.
case ${TMPDIR-} in *[!A-Za-z0-9/._+,@=~-]*) TMPDIR=/tmp ;; esac
work=$(mktemp -d)
trap 'rm -rf "$work"' EXIT
trap 'exit 1' HUP INT TERM
passed=0
failed=0
# What scripts in Python assert is looked at.
unset PYTHONOPTIMIZE

# Whether there is a command of this name.
has() {
    command -v "$1" > "$work/path" 2>&1
}

pass() {
    passed=$((passed + 1))
}

# Counts a failure, and prints its name and a file: the one that is named, or else what the last run said on standard error.
fail() {
    failed=$((failed + 1))
    echo "FAILED $1"
    if [ -s "${2:-$work/err}" ]; then cat "${2:-$work/err}"; fi
}

# Runs the words: they must end with 0, and write nothing on standard error. What they write is then in $work/out.
expect() {
    name=$1
    shift
    if "$@" > "$work/new" 2> "$work/err" && [ ! -s "$work/err" ]; then pass; else fail "$name"; fi
    mv "$work/new" "$work/out"
}

# Runs the program that was built: with the words, and with $work/in as standard input.
run() {
    "$program" "$@" < "$work/in" > "$work/out" 2> "$work/err"
    ended=$?
}

# The last run ended with the status, said the line (empty: nothing), and wrote the file (-: any).
ends() {
    if [ -n "$3" ]; then printf '%s\n' "$3"; fi > "$work/said"
    if [ "$ended" -eq "$2" ] && cmp -s "$work/said" "$work/err" && { [ "$4" = - ] || cmp -s "$4" "$work/out"; }; then
        pass
    else
        fail "$1: status $ended and not $2, standard error:"
    fi
}

# The file is what was expected, which is not empty.
same() {
    if [ -s "$2" ] && cmp -s "$2" "$3"; then
        pass
    else
        diff "$2" "$3" | head -5 > "$work/differs"
        fail "$1:" "$work/differs"
    fi
}

left_out() {
    echo "left out, for want of $1: $2"
}

# Prints the counts, and ends the script: with 1 where something failed.
finish() {
    echo "$passed passed, $failed failed"
    [ "$failed" -eq 0 ]
    exit
}

# The C compiler: $compiler, empty where there is none.
find_compiler() {
    compiler=
    for one in "${CC:-gcc}" gcc cc clang; do
        if [ -z "$compiler" ] && has "$one"; then compiler=$one; fi
    done
}

# The C++ compiler: $plus, empty where there is none.
find_plus() {
    plus=
    for one in "${CXX:-g++}" g++ c++ clang++; do
        if [ -z "$plus" ] && has "$one"; then plus=$one; fi
    done
}

# Proves, builds and runs the program of a crate once, with the words. It is then $program, and its folder $crate. A program that is not
# built ends the script. Where $BUILT_BY_GATE is set, `rt ci` has just proved and built the program, and it is taken as it is.
build_program() {
    name=$1
    crate=crates/$name
    program=$PWD/$crate/out/$name
    shift
    if [ -n "${BUILT_BY_GATE-}" ] && [ -x "$program" ]; then return; fi
    rm -f "$program"
    given=/dev/null
    if [ -e "$crate/stdin" ]; then given=$crate/stdin; fi
    if ! (cd "$crate" && rt run "$@") < "$given" > "$work/build" 2>&1 || [ ! -x "$program" ]; then
        cat "$work/build"
        echo "the program $name was not built"
        exit 1
    fi
}

# Builds what `refuse_growth` puts before a program.
build_refusing() {
    gcc -O1 -shared -fPIC -o "$work/refuse_growth.so" tests/refuse_growth.c
}

# Runs the words with the growth of this number refused, for at most a minute. What they write is then in $work/out, their status is
# $ended, and $work/refused is there if they asked for so many.
refuse_growth() {
    number=$1
    shift
    rm -f "$work/refused"
    timeout 60 env REFUSE_AT="$number" REFUSED="$work/refused" LD_PRELOAD="$work/refuse_growth.so" "$@" > "$work/out" 2> "$work/err"
    ended=$?
}
