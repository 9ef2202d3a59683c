#!/bin/sh
# Builds the program `test_refusals`, and refuses each growth of it in turn. Each of its lines calls a function that can take memory. Each
# function is refused memory at least once, leaves all as it was, and returns its result when it is called again. Three lines call
# functions that must take none: they return in every run in which their shape was made. The record with a choice of a text is refused
# three times, once for each of its parts, and an early item twice, for its body and for the reply. Then the script refuses each growth of
# a whole conversation between two hosts of `test_hosts`, which ends the same each time.
set -u
CDPATH=
cd "$(dirname "$0")/.."
. tests/lib.sh

# Runs a program with each growth refused in turn, until a run asks for fewer. `$1` judges the output of a run.
refuse_each() {
    judge=$1
    shift
    : > "$work/all"
    growth=1
    while [ $growth -le 3000 ]; do
        refuse_growth $growth "$@"
        [ -e "$work/refused" ] || break
        if $judge; then pass; else fail "with growth $growth refused:" "$work/out"; fi
        cat "$work/out" >> "$work/all"
        growth=$((growth + 1))
    done
    echo "$((growth - 1)) growths were refused"
}

# All functions but the refused one return their results.
stands() {
    [ $ended -eq 0 ] && ! grep -q 'broken$' "$work/out" && [ "$(grep -vc 'done$' "$work/out")" -le 1 ]
}

# The conversation ends as ever; a run that is refused the memory for its own words has none.
comes_to_its_end() {
    [ "$(cat "$work/out")" = 'a whole conversation: done' ] || { [ $ended -ne 0 ] && [ ! -s "$work/out" ] && [ $growth -le 8 ]; }
}

build_program test_hosts
hosts=$program
build_program test_refusals
build_refusing
refuse_each stands "$program"

# The last run was refused nothing.
if cmp -s "$work/out" "$crate/stdout"; then pass; else fail 'with nothing refused:' "$work/out"; fi

# A function that takes no memory returns in all runs but so many, in which its arguments were refused memory.
takes_none() {
    if [ "$(grep -cxF "$1: done" "$work/all")" -eq $((growth - 1 - $2)) ] && [ "$(grep -cxF "$1: not called" "$work/all")" -eq "$2" ]; then
        pass
    else
        fail "$1: it took memory"
    fi
}

# A function is refused so often, and then returns.
takes() {
    if [ "$(grep -cxF "$1: refused, then done" "$work/all")" "$2" "$3" ]; then
        pass
    else
        fail "$1: it was not refused so many growths as it takes"
    fi
}

sed 's/: done$//' "$crate/stdout" > "$work/names"
while read -r name; do
    case $name in
    'read: a count with no bytes') takes_none "$name" 0 ;;
    'read: a count with no cardinals' | 'read: a count with no long cardinals') takes_none "$name" 1 ;;
    'read: a record with a choice of a text') takes "$name" -eq 3 ;;
    'receive: an early item') takes "$name" -eq 2 ;;
    *) takes "$name" -ge 1 ;;
    esac
done < "$work/names"

refuse_each comes_to_its_end "$hosts" refused
# The last run was refused nothing. A conversation takes far more growths than the words of the program.
if [ "$(cat "$work/out")" = 'a whole conversation: done' ] && [ "$growth" -gt 100 ]; then pass; else fail 'a whole conversation with nothing refused'; fi

finish
