#!/bin/sh
# Builds the program `test_conversations`, and refuses each growth of it in turn, while a caller calls and while a server is fed a call.
# It looks at what each side then does.
set -u
CDPATH=
cd "$(dirname "$0")/.."
. tests/lib.sh
build_program test_conversations
build_refusing

add=0000000100000007000200010005
versions='<00030003|'

# Runs the line with each growth refused in turn: the program ends with 1 and prints nothing, or prints one of the lines of the file
# `allowed`. The first of them is printed where no growth is refused; at least one of the others is seen.
refuse_each() {
    name=$1
    printf '%s\n' "$2" > "$work/in"
    growth=1
    wanted=0
    while [ $growth -le 1000 ]; do
        refuse_growth $growth "$program" < "$work/in"
        [ -e "$work/refused" ] || break
        if [ $ended -eq 1 ] && [ ! -s "$work/out" ]; then
            pass
        elif [ $ended -eq 0 ] && [ "$(wc -l < "$work/out")" -eq 1 ] && grep -qxF -f "$work/allowed" "$work/out"; then
            if grep -q NoMemory "$work/out"; then wanted=$((wanted + 1)); fi
            pass
        else
            fail "$name, growth $growth refused: it ended with $ended and printed" "$work/out"
        fi
        growth=$((growth + 1))
    done
    echo "$name: $((growth - 1)) growths, of which $wanted were told as want of memory"
    if [ $wanted -gt 0 ] && [ $ended -eq 0 ] && [ "$(head -n 1 "$work/allowed")" = "$(cat "$work/out")" ]; then
        pass
    else
        fail "$name, nothing refused:" "$work/out"
    fi
}

# A call that was refused memory left nothing out but the versions; the same call goes out with transaction 1.
cat > "$work/allowed" <<END
$versions <$add| Busy returned 5
NoMemory $versions <$add| returned 5
$versions <$add| Busy NoMemory Failed none
$versions <$add| Busy NoMemory none
END
refuse_each 'a call' 'caller add add 00030003| 0002000100000005| outcome'

# A server that was refused memory has failed, puts nothing more out, and its total is that before or after the call.
cat > "$work/allowed" <<END
$versions call 7 2 1 0005 <0002000100000005| call 7 2 2 <0002000200000005| total 5
$versions NoMemory Failed Failed total 0
$versions NoMemory Failed total 0
$versions NoMemory Failed total 5
$versions call 7 2 1 0005 <0002000100000005| NoMemory total 5
END
refuse_each 'a server' "server 00030003| $add| 000000020000000700020002|"

finish
