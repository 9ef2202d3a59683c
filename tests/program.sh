#!/bin/sh
# Builds the program `xns`, and checks its exit statuses, its output, and that it writes one line to standard error where it ends with 2
# or 3.
set -u
CDPATH=
cd "$(dirname "$0")/.."
. tests/lib.sh
if ! has gcc; then
    echo "gcc is wanted: it builds what refuses the program memory"
    exit 1
fi
build_program xns -- sim

# A test ended with the status; if that is not 0, the line says what is wrong.
saw() {
    if [ "$2" -eq 0 ]; then pass; else fail "$1"; fi
}

# A command whose text of $work/in goes to a full device, and one that is to read a directory.
writes_nowhere_and_reads_a_directory() {
    "$program" "$1" < "$work/in" > /dev/full 2> "$work/err"
    ended=$?
    ends "$1 for a full device" 3 'xns: write fault' -
    "$program" "$1" < / > "$work/out" 2> "$work/err"
    ended=$?
    ends "$1 of a directory" 3 'xns: read fault' "$work/nothing"
}

# As many bytes of one kind as asked.
repeat() {
    head -c "$1" /dev/zero | tr '\0' "$2"
}

# An Echo request, and what `dump` prints of it.
echo 532300220002000000010000aa0001020002000000010000aa000304040000014869 > "$work/packet"
printf '%s\n' '1 idp length 34 sum 5323 control 0 type 2 to 00000001.0000aa000102.0002 from 00000001.0000aa000304.0400' '1 echo request 4869' > "$work/packet.text"
: > "$work/nothing"

# ---- what is printed, with 0 and 1

cat "$work/packet" > "$work/in"
run dump
ends 'a packet' 0 '' "$work/packet.text"

: > "$work/in"
: > "$work/text"
run dump
ends 'no input' 0 '' "$work/text"

# Two version ranges, the answer 0000 0005 to call 1, and then the call. The packet of the answer acknowledges the item of the call (0002), so it waits
# for that. Where it acknowledges only the caller's version range (0001), it does not.
openings='ffff002e0005000000010000aa0001020005000000010000aa000304040010001234567800000000000300030003
ffff002e0005000000010000aa0003040400000000010000aa000102000510005678123400000001000300030003'
call=ffff00380005000000010000aa0001020005000000010000aa00030404001000123456780001000100040000000100000007000200010005
cat > "$work/flows" <<'END'
1 1a flow to 00000001.0000aa000102.0005 id 5678 from 00000001.0000aa000304.0400 id 1234
2 1b flow to 00000001.0000aa000304.0400 id 1234 from 00000001.0000aa000102.0005 id 5678
END
for acknowledged in 2 1; do
    printf '%s\n' "$openings" "ffff00320005000000010000aa0003040400000000010000aa00010200051000567812340001000${acknowledged}00030002000100000005" "$call" > "$work/in"
    if [ $acknowledged -eq 2 ]; then
        printf '%s\n' '4 1a call 1 program 7 version 2 procedure 1 args 0005' '4 1b return 1 of 4 results 0000 0005'
    else
        printf '%s\n' '3 1b return 1 of - results 0000 0005' '4 1a call 1 program 7 version 2 procedure 1 args 0005'
    fi | cat "$work/flows" - > "$work/text"
    run calls
    ends "an answer that is captured before its call, and acknowledges $acknowledged items" 0 '' "$work/text"
done

echo 5g > "$work/in"
echo '1 hex refused Digit 1' > "$work/text"
run dump
ends 'a refused line' 1 '' "$work/text"

# A flow whose numbers wrap.
front=ffff002c0005000000010000aa0001020005000000010000aa0003040400400012345678
for sequence in ffff 0000 fffe 0001; do echo "$front${sequence}000000030005"; done > "$work/in"
run dump
grep item "$work/out" > "$work/items"
cp "$work/items" "$work/out"
printf '%s\n' '1 item 65535' '2 item 65536' '3 item 65534' '4 item 65537' > "$work/text"
ends 'a flow that wraps' 0 '' "$work/text"

repeat 65536 '\n' > "$work/in"
run dump
ends '65,536 lines' 1 '' -

repeat 4096 ' ' > "$work/in"
echo '1 idp refused Short 0' > "$work/text"
run dump
ends 'a line of 4,096 bytes' 1 '' "$work/text"

# The echo request cut to each length.
echo=$(head -n 1 "$work/packet")
for length in $(seq 0 33); do
    printf '%s\n' "$(printf %s "$echo" | head -c $((2 * length)))" > "$work/in"
    if [ "$length" -lt 30 ]; then reason="Short $length"; else reason="Cut 34 $length"; fi
    echo "1 idp refused $reason" > "$work/text"
    run dump
    ends "an echo request cut to $length bytes" 1 '' "$work/text"
done

# What the examples print: each line of hex that is long enough for a header is a packet, and none is refused.
grep -x '[0-9a-f]\{60,\}' crates/examples/stdout > "$work/in"
run dump
ends 'the packets of the examples' 0 '' -
[ "$(grep -c '^[0-9]* idp length ' "$work/out")" -eq 8 ] && ! grep -q ' refused ' "$work/out"
saw 'the examples have not 8 packets' $?

# ---- calls of a capture

# What stands behind the name of a capture. Of the input that is a line with the capture's text, in which \n is a newline.
behind() {
    awk -v name="# $1" '/^#/ {there = $0 == name; next} there' "$2"
}

# Calls and answers whose items come out of order, an Echo request, which prints nothing, and a line that is no packet.
behind reordered crates/test_texts/stdin | sed 's/^calls //; s/\\n$//; s/\\n/\n/g' > "$work/in"
behind reordered crates/test_texts/stdout > "$work/text"
[ "$(grep -c ' call \| return ' "$work/text")" -eq 2 ]
saw 'no call with its answer to print' $?
run calls
ends 'calls and answers out of order' 0 '' "$work/text"
cat "$work/packet" >> "$work/in"
echo 5g >> "$work/in"
echo "$(wc -l < "$work/in") hex refused Digit 1" >> "$work/text"
run calls
ends 'the same before a refused line' 1 '' "$work/text"
cat "$work/in" > "$work/conversation"
cat "$work/text" > "$work/conversation.text"

: > "$work/in"
run calls
ends 'no input for calls' 0 '' "$work/nothing"

# ---- plays of calls

# The program on the lines of $work/in prints the words, each as a line.
plays() {
    name=$1 status=$2
    shift 2
    printf '%s\n' "$@" > "$work/text"
    run sim
    ends "$name" "$status" '' "$work/text"
}

# As many lines `rest` as asked.
rests() {
    repeat "$1" r | sed 's/r/rest\n/g'
}

cat "$crate/stdin" > "$work/in"
run sim
ends 'both first answers are lost' 0 '' "$crate/stdout"

{ printf '%s\n' 'call add 5' 'call raw 9 1 1 -' 'call raw 7 9 1 0005' 'call raw 7 2 8 -' 'call raw 7 2 1 0005 0006' 'call total' 'tick a' && rests 14; } > "$work/in"
plays 'six calls, of which four are rejected' 0 'calls 6' 'carried 6' '1 returned 5' '2 rejected 0 -' '3 rejected 1 0001 0002' '4 rejected 2 -' '5 rejected 3 -' '6 returned 5' 'total 5' 'packets 30'

: > "$work/in"
plays 'no lines' 0 'calls 0' 'carried 0' 'total 0' 'packets 0'
printf '# x\n\n#' > "$work/in"
plays 'lines that say nothing' 0 'calls 0' 'carried 0' 'total 0' 'packets 0'
printf 'call add 1\r\ntick a\r\nrest' > "$work/in"
plays 'a line ends with a return, or with the input' 0 'calls 1' 'carried 0' 'total 0' 'packets 3'
printf '%s\n' 'foreign a 0a0B' 'foreign b ff' 'deliver 4294967295' 'call raw 4294967295 65535 65535 aBcD -' > "$work/in"
plays 'a dash behind words' 1 '4 refused'
printf '%s\n' 'foreign a 0a0B' 'foreign b ff' 'deliver 4294967295' 'call raw 4294967295 65535 65535 aBcD' 'call add 65535' > "$work/in"
plays 'the greatest numbers' 0 'calls 2' 'carried 0' 'total 0' 'packets 0'

for line in 'deliver 01' 'call add 65536' 'tick c' 'rest ' 'foreign a 5' 'deliver 4294967296' 'call raw 4294967296 1 1 -' 'call raw 1 65536 1 -' 'call raw 1 1 1' 'call raw 1 1 1 005' 'foreign a' 'call  total' ' rest' 'Rest' 'call add'; do
    echo "$line" > "$work/in"
    plays "the line '$line'" 1 '1 refused'
done
printf '%s\n' 'call add 5' '' 'tick a' 'tick c' 'rest' 'deliver 01' > "$work/in"
plays 'the first of two bad lines' 1 '4 refused'

# The packets are 0 opening, 1 reply, 2 versions of b, 3 versions of a, 4 call, 5 reply to 3, 6 reply to 4, 7 answer.
printf '%s\n' 'call add 5' 'tick a' 'deliver 0' 'deliver 1' 'deliver 3' 'deliver 4' 'deliver 4' 'deliver 2' 'deliver 7' > "$work/in"
plays 'a repeat of a call' 0 'calls 1' 'carried 1' '1 returned 5' 'total 5' 'packets 11'
printf '%s\n' 'call add 5' 'tick a' 'deliver 0' 'deliver 1' 'deliver 4' 'deliver 3' 'deliver 2' 'deliver 7' > "$work/in"
plays 'a call before the versions' 0 'calls 1' 'carried 1' '1 returned 5' 'total 5' 'packets 10'

# A call of two items, by a call whose second word is over what is listed: rejected.
long="call raw 9 1 1 $(repeat 263 w | sed 's/w/ 0000/g' | cut -c2-)"

# What b takes is its caller's versions and two items for each of so many calls, and one for each of so many more.
lasting() {
    i=0
    while [ $i -lt "$1" ]; do
        printf '%s\nrest\nrest\n' "$long"
        i=$((i + 1))
    done
    while [ $i -lt $(($1 + $2)) ]; do
        printf 'call add 1\nrest\nrest\n'
        i=$((i + 1))
    done
}

# How many packets the lines of $work/in come to, in the end.
packets() {
    run sim
    [ "$ended" -eq 0 ] && sed -n 's/^packets //p' "$work/out"
}

# The first packet once more, after so many items: it is answered after 30,000, and comes nowhere after 30,001.
for more in 1 2; do
    { echo 'tick a' && rests 2 && lasting 14999 $more; } > "$work/in"
    before=$(packets)
    echo 'deliver 0' >> "$work/in"
    after=$(packets)
    tail -n 3 "$work/out" | head -n 2 > "$work/tail"
    cp "$work/tail" "$work/out"
    printf '%s\n' "$((14999 + more)) returned $more" "total $more" > "$work/text"
    ends "a connection of $((29999 + more)) items" $((before + 2 - more - after)) '' "$work/text"
done

# ---- faults, with 3

{ cat "$work/packet" && repeat 4097 ' '; } > "$work/in"
run dump
ends 'a line of 4,097 bytes after an echo request' 3 'xns: line too long' "$work/packet.text"

{ echo 48 && repeat 4097 ' '; } > "$work/in"
echo '1 idp refused Short 1' > "$work/text"
run dump
ends 'a line of 4,097 bytes after a good one' 3 'xns: line too long' "$work/text"

{ echo 48 && sleep 1 && repeat 4097 ' '; } | "$program" dump > "$work/out" 2> "$work/err"
ended=$?
ends 'the same in two pieces' 3 'xns: line too long' "$work/text"

repeat 65537 '\n' > "$work/in"
run dump
ends '65,537 lines' 3 'xns: too many lines' -
lines=$(wc -l < "$work/out")
printf '' > "$work/err"
ended=$lines
ends 'the text of 65,536 lines' 65536 '' -

cat "$work/packet" > "$work/in"
writes_nowhere_and_reads_a_directory dump

"$program" dump < "$work/in" >&- 2> "$work/err"
ended=$?
ends 'a closed writer' 3 'xns: write fault' -

"$program" dump <&- > "$work/out" 2> "$work/err"
ended=$?
ends 'a closed reader' 3 'xns: read fault' "$work/nothing"

# Of calls the same faults, behind the text of the lines before them.
{ cat "$work/conversation" && repeat 4097 ' '; } > "$work/in"
run calls
ends 'a line of 4,097 bytes after calls' 3 'xns: line too long' "$work/conversation.text"
# Their number is not limited: behind 70,000 lines calls are read as before them.
{ repeat 70000 '\n' && cat "$work/conversation"; } > "$work/in"
run calls
sed 1,70000d "$work/out" | awk '{$1=$1-70000} $5=="of"&&$6!="-"{$6=$6-70000} 1' > "$work/behind"
[ "$(wc -l < "$work/out")" -eq $((70000 + $(wc -l < "$work/conversation.text"))) ]
saw 'the text of more than 65,536 lines of calls is not there' $?
cp "$work/behind" "$work/out"
ends 'more than 65,536 lines of calls' 1 '' "$work/conversation.text"
cat "$work/conversation" > "$work/in"
writes_nowhere_and_reads_a_directory calls

repeat 65536 '\n' > "$work/in"
plays '65,536 lines of a script' 0 'calls 0' 'carried 0' 'total 0' 'packets 0'
{ echo 'tick c' && repeat 65537 '\n'; } > "$work/in"
run sim
ends '65,537 lines behind a bad one' 3 'xns: too many lines' "$work/nothing"
{ printf '#' && repeat 4095 ' '; } > "$work/in"
plays 'a comment of 4,096 bytes' 0 'calls 0' 'carried 0' 'total 0' 'packets 0'
{ echo 'tick c' && repeat 4097 '#'; } > "$work/in"
run sim
ends 'a line of 4,097 bytes behind a bad one' 3 'xns: line too long' "$work/nothing"
"$program" sim < /dev/zero > "$work/out" 2> "$work/err"
ended=$?
ends 'an endless line' 3 'xns: line too long' "$work/nothing"
yes '' | "$program" sim > "$work/out" 2> "$work/err"
ended=$?
ends 'endless lines' 3 'xns: too many lines' "$work/nothing"

cat "$crate/stdin" > "$work/in"
writes_nowhere_and_reads_a_directory sim

# ---- the command line, with 2, and help, with 0

: > "$work/in"
run
ends 'no subcommand' 2 "error: 'xns' requires a subcommand but one was not provided; the subcommands are dump, calls, sim and programs; try 'xns --help'" "$work/nothing"

run Dump
ends 'a subcommand in another case' 2 "error: unrecognized subcommand 'Dump'; the subcommands are dump, calls, sim and programs; try 'xns --help'" "$work/nothing"

run play
ends 'another subcommand' 2 "error: unrecognized subcommand 'play'; the subcommands are dump, calls, sim and programs; try 'xns --help'" "$work/nothing"

run dump one two
ends 'a word too many' 2 "error: unexpected argument 'two' found; a command reads one FILE, as in 'xns calls x.pcap'; try 'xns --help'" "$work/nothing"

run dump --loud
ends 'an option that is none' 2 "error: unexpected argument '--loud' found; a command reads one FILE, as in 'xns calls x.pcap'; try 'xns --help'" "$work/nothing"

run --loud
ends 'an option before any subcommand' 2 "error: unexpected argument '--loud' found; a command reads one FILE, as in 'xns calls x.pcap'; try 'xns --help'" "$work/nothing"

run "$(printf 'dump\377')"
ends 'a word that is not UTF-8' 2 "error: a word of the command line is not UTF-8; try 'xns --help'" "$work/nothing"

run calls one two
ends 'a word too many behind calls' 2 "error: unexpected argument 'two' found; a command reads one FILE, as in 'xns calls x.pcap'; try 'xns --help'" "$work/nothing"

run sim one two
ends 'a word too many behind sim' 2 "error: unexpected argument 'two' found; a command reads one FILE, as in 'xns calls x.pcap'; try 'xns --help'" "$work/nothing"

for words in --help -h 'dump --help' 'dump -h' 'calls --help' 'sim --help' 'help' 'help dump' 'help calls' 'help sim'; do
    # shellcheck disable=SC2086
    run $words
    ends "$words" 0 '' -
    grep -q '^Usage: xns' "$work/out"
    saw "$words: no usage on standard output" $?
done

for words in --help 'dump --help' 'calls --help' 'sim --help'; do
    # shellcheck disable=SC2086
    run $words
    for said in 'standard input' 'Example'; do
        grep -q "$said" "$work/out"
        saw "$words: nothing of '$said'" $?
    done
done

# The limits that help names are those that hold: a line of so many bytes and so many lines are read, and not one more. That of
# `calls` names none of lines.
for words in --help 'dump --help' 'calls --help' 'sim --help'; do
    # shellcheck disable=SC2086
    run $words
    tr '\n' ' ' < "$work/out" | tr -d , > "$work/said"
    bytes=$(sed -n 's/.* at most \([0-9]*\) bytes.*/\1/p' "$work/said")
    lines=$(sed -n 's/.* at most \([0-9]*\) lines.*/\1/p' "$work/said")
    repeat "$bytes" ' ' > "$work/in"
    run dump
    ends "$words: a line of '$bytes' bytes" 1 '' -
    repeat $((bytes + 1)) ' ' > "$work/in"
    run dump
    ends "$words: a line of a byte more than '$bytes'" 3 'xns: line too long' -
    if [ "$words" = 'calls --help' ]; then
        [ -z "$lines" ]
        saw "$words: names a limit of lines" $?
        continue
    fi
    repeat "$lines" '\n' > "$work/in"
    run dump
    ends "$words: '$lines' lines" 1 '' -
    repeat $((lines + 1)) '\n' > "$work/in"
    run dump
    ends "$words: a line more than '$lines'" 3 'xns: too many lines' -
done

# ---- each read and each write failing in turn, and each growth refused

gcc -O1 -shared -fPIC -o "$work/fail_streams.so" tests/fail_streams.c
build_refusing

# The program on the words, of which the numbered call fails; $work/failed is then there.
run_failing() {
    name=$1 number=$2
    shift 2
    rm -f "$work/failed"
    env "$name=$number" FAILED="$work/failed" LD_PRELOAD="$library" "$program" "$@" < "$work/in" > "$work/out" 2> "$work/err"
    ended=$?
}

# What was written is a front of the text.
take_front() {
    head -c "$(wc -c < "$work/out")" "$work/text" > "$work/front"
}

# Each read fails in turn, then each write: `dump` and `calls` have written a front of the text, `sim` nothing before a failed write. Nothing fails in the last run.
fail_streams() {
    mode=$1 fine=$2
    library=$work/fail_streams.so
    for call in READ WRITE; do
        at=1
        while [ $at -le 1000 ]; do
            run_failing "FAIL_$call" $at "$mode"
            [ -e "$work/failed" ] || break
            take_front
            [ "$mode $call" = 'sim READ' ] && : > "$work/front"
            line=$(echo $call | tr '[:upper:]' '[:lower:]')
            ends "$mode: $line $at failed" 3 "xns: $line fault" "$work/front"
            at=$((at + 1))
        done
        [ $at -gt 1 ]
        saw "$mode: no $call to fail" $?
        ends "$mode: fewer than $at calls of $call" "$fine" '' "$work/text"
    done
}

# Each growth is refused in turn: the whole text, or 3 and of `dump` and `calls` a front of the text, of `sim` nothing.
refuse_growths() {
    mode=$1 fine=$2
    growth=1
    while [ $growth -le 1000 ]; do
        refuse_growth $growth "$program" "$mode" < "$work/in"
        [ -e "$work/refused" ] || break
        if [ "$ended" -eq "$fine" ]; then
            ends "$mode: growth $growth refused, and done without" "$fine" '' "$work/text"
        else
            take_front
            [ "$mode" = sim ] && : > "$work/front"
            ends "$mode: growth $growth refused" 3 'xns: no memory' "$work/front"
        fi
        growth=$((growth + 1))
    done
    echo "$mode: $((growth - 1)) growths were refused"
    [ $growth -gt 1 ]
    saw "$mode: no growth to refuse" $?
    ends "$mode: a run that asks for fewer than $growth growths" "$fine" '' "$work/text"
}

# Each growth is refused in turn to a command line in error: 2, by its one line or, where there is no memory for that, by the one that is
# given second, or 3 where its words can't be read. All three are seen.
refuse_mistaken() {
    mistake=$1 short=$2
    shift 2
    growth=1 told=0 shortly=0
    while [ $growth -le 1000 ]; do
        refuse_growth $growth "$program" "$@" < "$work/in"
        [ -e "$work/refused" ] || break
        if [ "$ended" -eq 3 ]; then
            ends "$*: growth $growth refused" 3 'xns: no memory' "$work/nothing"
        elif [ "$(cat "$work/err")" = "$short" ]; then
            shortly=$((shortly + 1))
            ends "$*: growth $growth refused, and said shortly" 2 "$short" "$work/nothing"
        else
            told=$((told + 1))
            ends "$*: growth $growth refused, and done without" 2 "$mistake" "$work/nothing"
        fi
        growth=$((growth + 1))
    done
    echo "$*: $((growth - 1)) growths were refused, $told of them done without, $shortly said shortly"
    [ $told -gt 0 ] && [ $shortly -gt 0 ] && [ $((told + shortly)) -lt $((growth - 1)) ]
    saw "$*: not each of the three after a refused growth" $?
    ends "$*: a run that asks for fewer than $growth growths" 2 "$mistake" "$work/nothing"
}

: > "$work/in"
refuse_mistaken "error: unrecognized subcommand 'play'; the subcommands are dump, calls, sim and programs; try 'xns --help'" \
    "error: the command line is wrong; the subcommands are dump, calls, sim and programs; try 'xns --help'" play
refuse_mistaken "error: unexpected argument 'extra' found; a command reads one FILE, as in 'xns calls x.pcap'; try 'xns --help'" \
    "error: the command line is wrong; a command reads one FILE, as in 'xns calls x.pcap'; try 'xns --help'" dump x extra

{ cat "$work/packet" && echo 5g; } > "$work/in"
"$program" dump < "$work/in" > "$work/text"
refuse_growths dump 1
MOST=50
export MOST
fail_streams dump 1

cat "$work/conversation" > "$work/in"
cat "$work/conversation.text" > "$work/text"
fail_streams calls 1

cat "$crate/stdin" > "$work/in"
cat "$crate/stdout" > "$work/text"
fail_streams sim 0
unset MOST
refuse_growths sim 0

cat "$work/conversation" > "$work/in"
cat "$work/conversation.text" > "$work/text"
refuse_growths calls 1

library=$work/fail_streams.so
echo 'tick c' > "$work/in"
run_failing FAIL_READ 2 sim
ends 'a bad line before a read that fails' 3 'xns: read fault' "$work/nothing"

finish
