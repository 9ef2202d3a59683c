#!/bin/sh
# Compares what `test_programs` answers, what `xns programs` prints, and how `xns calls` names calls, with a second account,
# tests/notation_account.py: over the descriptions of examples/courier, over a case for each reason and limit, and over random programs,
# half of them with a fault. Then it refuses each growth in turn: of `test_programs` with a call, of `xns programs`, and of `xns calls`
# with a description. It builds both programs first. Its last line is 'N passed, M failed', and it ends with 1 where one failed. A first
# word is the number of random cases.
set -u
CDPATH=
cd "$(dirname "$0")/.."
. tests/lib.sh
count=${1:-60}
build_program xns -- sim
xns=$program
build_program test_programs
PYTHONDONTWRITEBYTECODE=1
export PYTHONDONTWRITEBYTECODE

# What the program answers in the folder is what the account answers there.
answers_as() {
    (cd "$2" && "$program" a.courier b.courier < lines) > "$work/out" 2> "$work/err"
    if cmp -s "$work/out" "$2/answers"; then
        pass
    else
        diff "$work/out" "$2/answers" | head -5 > "$work/differs"
        fail "$1" "$work/differs"
    fi
}

account=$PWD/tests/notation_account.py

# In the folder `xns programs` prints of the files what the account prints, says on standard error what it says, and ends as it ends.
lists_as() {
    name=$1
    folder=$2
    shift 2
    (cd "$folder" && "$xns" programs "$@") > "$work/out" 2> "$work/err"
    ended=$?
    (cd "$folder" && python3 "$account" --list "$@") > "$work/listed" 2> "$work/refused_at"
    wanted=$?
    if [ $ended -eq $wanted ] && cmp -s "$work/out" "$work/listed" && cmp -s "$work/err" "$work/refused_at"; then
        pass
    else
        diff "$work/out" "$work/listed" > "$work/differs"
        diff "$work/err" "$work/refused_at" >> "$work/differs"
        fail "xns programs, $name: status $ended and not $wanted" "$work/differs"
    fi
}

named=$PWD/tests/named_calls.py

# In the folder `xns calls` with the words names the calls of a file by the programs as the account names what it prints without them. Where
# a description is refused, it says where, ends with 2, and prints nothing.
names_one() {
    name=$1
    folder=$2
    file=$3
    shift 3
    "$xns" calls ${times:+"$times"} "$file" > "$work/plain"
    (cd "$folder" && python3 "$named" --name "$@") < "$work/plain" > "$work/named" 2> "$work/refused_at"
    wanted=$?
    for one; do
        set -- "$@" --programs "$one"
        shift
    done
    (cd "$folder" && "$xns" calls ${times:+"$times"} "$@" "$file") > "$work/out" 2> "$work/err"
    ended=$?
    if [ $ended -eq $wanted ] && cmp -s "$work/out" "$work/named" && cmp -s "$work/err" "$work/refused_at"; then
        pass
    else
        diff "$work/out" "$work/named" | cut -c1-400 > "$work/differs"
        diff "$work/err" "$work/refused_at" >> "$work/differs"
        fail "xns calls, $name: status $ended and not $wanted" "$work/differs"
    fi
}

# Names the calls that the lines of a case make, as names_one does, in hex and in a capture with times.
names_as() {
    name_of=$1
    folder_of=$2
    shift 2
    python3 "$named" --lines < "$folder_of/lines" > "$work/hex"
    python3 "$named" --capture < "$folder_of/lines" > "$work/pcap"
    times=
    names_one "$name_of" "$folder_of" "$work/hex" "$@"
    times=--times
    names_one "$name_of, with times" "$folder_of" "$work/pcap" "$@"
}

python3 tests/random_notation.py --directed "$work/directed" || exit 1
for folder in "$work"/directed/*; do
    answers_as "$(basename "$folder")" "$folder"
    lists_as "$(basename "$folder")" "$folder" a.courier b.courier
    names_as "$(basename "$folder")" "$folder" a.courier b.courier
done
python3 tests/random_notation.py "$work/random" 0 "$count" || exit 1
for folder in "$work"/random/*; do
    answers_as "random case $(basename "$folder")" "$folder"
    lists_as "random case $(basename "$folder")" "$folder" a.courier b.courier
    names_as "random case $(basename "$folder")" "$folder" a.courier b.courier
done

# ---- the descriptions that are there

cat > "$work/lines" << 'END'
call 7 2 1 0005
return 7 2 1 0000 0005
call 7 2 2 -
abort 7 2 1 000f 423b
call 7 2 1 0005 0006
call 7 2 1 -
call 9 1 1 0005
call 7 1 1 0005
call 2 3 0 -
return 2 3 0 0001 0000 0001 0000 aa00 0102 0005
call 2 3 20 0003 4142 4300 0001 5c22 0002 0922 0000 0000 0001 ffff
abort 2 3 2 0010 0002
abort 2 3 1 0009
return 2 3 16 0000 0000 0000 01f5
END
set -- examples/courier/tally.courier examples/courier/time.courier examples/courier/authentication.courier examples/courier/clearinghouse.courier
python3 tests/notation_account.py "$@" < "$work/lines" > "$work/account"
"$program" "$@" < "$work/lines" > "$work/out" 2> "$work/err"
if cmp -s "$work/out" "$work/account"; then pass; else fail 'the descriptions of examples/courier' "$work/out"; fi
lists_as 'the descriptions of examples/courier' . "$@"
mkdir "$work/there"
cp "$work/lines" "$@" "$work/there"
names_as 'the descriptions of examples/courier' "$work/there" tally.courier time.courier authentication.courier clearinghouse.courier

# ---- `xns programs`

run_programs() {
    "$xns" programs "$@" < "$work/in" > "$work/out" 2> "$work/err"
    ended=$?
}

tally=examples/courier/tally.courier
: > "$work/in"
run_programs $tally
cp "$work/out" "$work/tally"
cat $tally > "$work/in"
run_programs -
ends 'standard input' 0 '' "$work/tally"
run_programs $tally "$work/none"
ends 'no such file' 3 "xns: $work/none: No such file or directory (os error 2)" "$work/tally"
run_programs $tally "$work"
ends 'a folder' 3 "xns: $work: Is a directory (os error 21)" "$work/tally"
run_programs $tally $tally
ends 'a program that was read before' 2 "$tally:2:1 DoubledProgram" "$work/tally"
run_programs
ends 'no file' 2 "error: the following required arguments were not provided; programs reads one FILE or more, as in 'xns programs x.courier'; try 'xns --help'" /dev/null
"$xns" programs $tally > /dev/full 2> "$work/err"
ended=$?
: > "$work/out"
ends 'a full device' 3 "xns: $tally: write fault" /dev/null
# A text of as many bytes as there may be, and one of more, which is refused though more of it were to come.
{ cat $tally && head -c 262144 /dev/zero | tr '\0' ' '; } > "$work/padded"
head -c 262144 "$work/padded" > "$work/most"
run_programs "$work/most"
ends 'a text of 262,144 bytes' 0 '' "$work/tally"
run_programs "$work/padded"
lines=$(grep -c '' $tally)
ends 'a text that is too long' 2 "$work/padded:$((lines + 1)):$((262145 - $(wc -c < $tally))) TooLong" /dev/null
run_programs /dev/zero
ends 'a text without an end' 2 '/dev/zero:1:262145 TooLong' /dev/null

# ---- `xns calls --programs`

run_calls() {
    "$xns" calls "$@" < "$work/in" > "$work/out" 2> "$work/err"
    ended=$?
}

calls=examples/six-calls.hex
"$xns" calls $calls > "$work/plain"
python3 "$named" --name $tally < "$work/plain" > "$work/named"
run_calls --programs $tally $calls
ends 'a description and a file' 0 '' "$work/named"
cat $calls > "$work/in"
run_calls --programs $tally
ends 'a description, and lines on standard input' 0 '' "$work/named"
cat $tally > "$work/in"
run_calls $calls --programs -
ends 'a description on standard input' 0 '' "$work/named"
run_calls --programs "$work/none" $calls
ends 'no such description' 3 "xns: $work/none: No such file or directory (os error 2)" /dev/null
run_calls --programs $tally --programs $tally $calls
ends 'a description that is read again' 2 "$tally:2:1 DoubledProgram" /dev/null
run_calls --programs $calls "$work/none"
ends 'what is no description, before the file is opened' 2 "$calls:27:1 HugeNumber" /dev/null
run_calls --programs
ends 'no description' 2 "error: a value is required for '--programs <FILE>' but none was supplied; try 'xns --help'" /dev/null

# ---- each growth refused in turn

# A growth was refused before, and the last run, which was refused none, printed the file.
comes_through() {
    if [ $growth -gt 1 ] && [ $ended -eq 0 ] && cmp -s "$work/out" "$2"; then pass; else fail "$1, with nothing refused: status $ended"; fi
    echo "$1: $((growth - 1)) growths"
}

# The program ends with 0 and all that it prints else, or that a file wanted memory; or with 1 and the beginning of what it prints else.
build_refusing
printf '%s\n' 'call 7 2 1 0005' > "$work/line"
"$program" $tally < "$work/line" > "$work/whole"
echo "$tally: no memory" > "$work/none"
growth=1
while [ $growth -le 2000 ]; do
    refuse_growth $growth "$program" $tally < "$work/line"
    [ -e "$work/refused" ] || break
    if { [ $ended -eq 0 ] && { cmp -s "$work/out" "$work/none" || cmp -s "$work/out" "$work/whole"; }; } ||
        { [ $ended -eq 1 ] && cmp -s -n "$(wc -c < "$work/out")" "$work/out" "$work/whole"; }; then
        pass
    else
        fail "growth $growth refused: it ended with $ended and printed" "$work/out"
    fi
    growth=$((growth + 1))
done
comes_through 'a description and a call' "$work/whole"

# `xns programs` prints its lines, or ends for want of memory and prints nothing.
growth=1
while [ $growth -le 2000 ]; do
    refuse_growth $growth "$xns" programs $tally
    [ -e "$work/refused" ] || break
    if { [ $ended -eq 3 ] && [ ! -s "$work/out" ] && grep -q 'no memory' "$work/err"; } || { [ $ended -eq 0 ] && cmp -s "$work/out" "$work/tally"; }; then
        pass
    else
        fail "xns programs, growth $growth refused: status $ended"
    fi
    growth=$((growth + 1))
done
comes_through 'xns programs' "$work/tally"

# `xns calls` prints its lines, or ends for want of memory and prints what stands before a line.
growth=1
while [ $growth -le 4000 ]; do
    refuse_growth $growth "$xns" calls --programs $tally $calls
    [ -e "$work/refused" ] || break
    if { [ $ended -eq 3 ] && cmp -s -n "$(wc -c < "$work/out")" "$work/out" "$work/named" && grep -q 'no memory' "$work/err"; } ||
        { [ $ended -eq 0 ] && cmp -s "$work/out" "$work/named"; }; then
        pass
    else
        fail "xns calls, growth $growth refused: status $ended"
    fi
    growth=$((growth + 1))
done
comes_through 'xns calls' "$work/named"

finish
