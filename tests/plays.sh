#!/bin/sh
# Builds the program `test_plays`, and compares its text with a second account, tests/plays.py, which was written from the documents.
# Then it refuses each growth in turn, while items are played, while calls are, and while a server is given packets. Each run must end by
# itself, and print the whole text, or that memory was refused and nothing else; the same play must then run whole when it comes next.
set -u
CDPATH=
cd "$(dirname "$0")/.."
. tests/lib.sh
build_program test_plays
build_refusing
echo 'no memory' > "$work/none"

# ---- a second account

if python3 tests/plays.py < "$crate/stdin" > "$work/account" && cmp "$work/account" "$crate/stdout"; then
    pass
else
    fail 'the stored text is not what the documents say'
fi
"$program" < "$crate/stdin" > "$work/out"
if cmp "$work/out" "$crate/stdout"; then pass; else fail 'the program prints another text'; fi

# ---- each growth refused in turn

# First it checks the text of the line where nothing is refused. Then it gives the program the line twice, and refuses each growth up to
# the first one of the second play: a play that was refused memory runs whole the next time.
refuse_each() {
    name=$1
    printf '%s\n' "$2" > "$work/in"
    timeout 20 "$program" < "$work/in" > "$work/whole" || fail "$name, nothing refused"
    python3 tests/plays.py < "$work/in" | cmp - "$work/whole" || fail "$name, another text"
    printf '%s\n' "$2" >> "$work/in"
    cat "$work/whole" "$work/whole" > "$work/twice"
    cat "$work/none" "$work/whole" > "$work/again"
    cat "$work/whole" "$work/none" > "$work/second"
    growth=1
    wanted=0
    is_first=yes
    while [ $is_first = yes ] && [ $growth -le 5000 ]; do
        refuse_growth $growth "$program" < "$work/in"
        [ -e "$work/refused" ] || break
        if [ $ended -eq 0 ] && cmp -s "$work/out" "$work/twice"; then
            pass
        elif [ $ended -eq 0 ] && cmp -s "$work/out" "$work/again"; then
            wanted=$((wanted + 1))
            pass
        elif [ $ended -eq 0 ] && cmp -s "$work/out" "$work/second"; then
            is_first=no
        elif [ $ended -eq 1 ] && cmp -s "$work/out" "$work/whole"; then
            is_first=no
        elif [ $ended -eq 1 ] && [ ! -s "$work/out" ]; then
            pass
        else
            fail "$name, growth $growth refused: it ended with $ended and printed" "$work/out"
        fi
        growth=$((growth + 1))
    done
    echo "$name: $((growth - 2)) growths, of which $wanted were told as want of memory and then played"
    if [ $is_first = no ] && [ $wanted -gt 0 ]; then pass; else fail "$name, growths"; fi
}

versions='5000 1234 5678 0000 0000 0064 00030003'
add='0000 0001 0000 0007 0002 0001 0005'
refuse_each 'items' 'items 4 16, tick a, deliver 0, deliver 1, send a 01, send a 02, deliver 3, deliver 2, take b, tick a, rest, take b'
refuse_each 'calls' 'calls 4 16, call add 5, call raw 7 9 1 0005, tick a, deliver 0, deliver 1, deliver 4, deliver 3, 6* rest'
refuse_each 'a server' "serve 4 16, $versions, 5000 1234 5678 0002 0000 0064 $add, 5000 1234 5678 0001 0000 0064 $add, 50fe 1234 5678 0003 0000 0064 00"

finish
