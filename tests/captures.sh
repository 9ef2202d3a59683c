#!/bin/sh
# Tries the commands of docs/CAPTURES.md, whose function it takes from there, on captures that it makes itself, and compares what the
# program reads of a capture with what it prints of the lines that tshark makes of it. It builds the program first.
# Without tshark or text2pcap it says so and ends with 0; without tcpdump that one command is passed over.
set -u
CDPATH=
cd "$(dirname "$0")/.."
for tool in tshark text2pcap; do
    if ! command -v "$tool" > /dev/null; then
        echo "captures are not tried: there is no $tool"
        exit 0
    fi
done
root=$PWD
. tests/lib.sh
build_program xns -- sim
sed -n '/^```sh$/,/^```$/p' docs/CAPTURES.md | sed '/^```/d' > "$work/functions"
PATH=$PWD/crates/xns/out:$PATH
cd "$work" || exit 1
. ./functions

# An Echo request, its reply, and a short packet without a checksum.
cat > in.hex << 'END'
532300220002000000010000aa0001020002000000010000aa000304040000014869
172700220002000000010000aa0003040400000000010000aa00010200020002486900
ffff001e0007000000010000aa0001020002000000010000aa0003040400
END
cat > expected << 'END'
1 idp length 34 sum 5323 control 0 type 2 to 00000001.0000aa000102.0002 from 00000001.0000aa000304.0400
1 echo request 4869
2 idp length 34 sum 1727 control 0 type 2 to 00000001.0000aa000304.0400 from 00000001.0000aa000102.0002
2 echo reply 4869
3 idp length 30 sum none control 0 type 7 to 00000001.0000aa000102.0002 from 00000001.0000aa000304.0400
3 data -
END
xns dump < in.hex > text
same 'the packets themselves' expected text

# ---- every link

# A file of frames: its name, the number of its link, and what stands in front of the packet, in which LENGTH+N is the packet's length and N more.
frames() {
    while read -r packet; do
        more=$(printf '%s' "$3" | sed -n 's/.*LENGTH+\([0-9]*\).*/\1/p')
        length=$(printf %04x $((${#packet} / 2 + ${more:-0})))
        printf '%s%s\n' "$(printf '%s' "$3" | sed "s/LENGTH+[0-9]*/$length/; s/ //g")" "$packet"
    done < in.hex > "$1.hex"
    text2pcap -q -l "$2" -r '^(?<data>[0-9a-f]+)$' "$1.hex" "$1.pcap" 2> /dev/null
}

ends='0000aa000102 0000aa000304'
frames ethernet 1 "$ends 0600"
frames vlan 1 "$ends 8100 0001 0600"
frames qinq 1 "$ends 88a8 0001 8100 0002 0600"
frames snap 1 "$ends LENGTH+8 aaaa03 000000 0600"
frames snap_behind_vlan 1 "$ends 8100 0001 LENGTH+8 aaaa03 000000 0600"
frames llc 1 "$ends LENGTH+3 808003"
frames cooked 113 '0000 0001 0006 0000aa0003040000 0600'
frames cooked_newer 276 '0600 0000 00000002 0001 00 06 0000aa0003040000'
for link in ethernet vlan qinq snap snap_behind_vlan llc cooked cooked_newer; do
    xns dump $link.pcap > from_$link
    same "$link" text from_$link
    xns_hex -r $link.pcap 2> /dev/null | xns dump > lines_of_$link
    same "$link, by tshark" text lines_of_$link
done
frames old_ethernet 2 '03 04 0600'
xns dump old_ethernet.pcap > from_old_ethernet
same 'the 3 Mb/s Ethernet' text from_old_ethernet

ethernet_links='ethernet vlan qinq snap snap_behind_vlan llc'
for link in $ethernet_links; do cat $link.hex; done > mixture.hex
for link in $ethernet_links; do cat in.hex; done | xns dump > mixture_expected
text2pcap -q -r '^(?<data>[0-9a-f]+)$' mixture.hex mixture.pcap 2> /dev/null
xns dump mixture.pcap > from_mixture
same 'a mixture' mixture_expected from_mixture
for kind in pcap pcapng nsecpcap; do
    editcap -F $kind mixture.pcap mixture.$kind 2> /dev/null
    xns dump mixture.$kind > from_mixture
    same "a mixture as $kind" mixture_expected from_mixture
    xns_hex -r mixture.$kind 2> /dev/null | xns dump > lines_of_mixture
    same "a mixture as $kind, by tshark" mixture_expected lines_of_mixture
done
mergecap -a -w merged.pcapng ethernet.pcap cooked.pcap llc.pcap 2> /dev/null
for link in ethernet cooked llc; do cat in.hex; done | xns dump > merged_expected
xns dump merged.pcapng > from_merged
same 'a merged capture' merged_expected from_merged
xns_hex -r merged.pcapng 2> /dev/null | xns dump > lines_of_merged
same 'a merged capture, by tshark' merged_expected lines_of_merged

# Links that are not read: tshark makes lines of the Ethernet in a tunnel, and none of a packet that lies in the frame itself.
frames tunnel 101 "4500 LENGTH+38 0000 0000 402f 0000 0a000001 0a000002 0000 6558 $ends 0600"
xns_hex -r tunnel.pcap 2> /dev/null | xns dump > lines_of_tunnel
same 'Ethernet in a tunnel of raw IP, by tshark' text lines_of_tunnel
frames null 0 '00000002'
xns_hex -r null.pcap 2> /dev/null > lines_of_null
[ -s lines_of_null ] || echo none > lines_of_null
echo none > none
same 'packets in frames of the loopback' none lines_of_null

# ---- calls, and one conversation of them

# What stands behind the name of a capture. Of the input that is a line with the capture's text, in which \n is a newline.
worked() {
    awk '/^#/ {there = $0 == "# two connections"; next} there' "$root/crates/test_texts/$1"
}
worked stdin | sed 's/^calls //; s/\\n$//; s/\\n/\n/g' > calls.hex
worked stdout > calls_expected
text2pcap -q -r '^(?<data>[0-9a-f]+)$' -e 0x600 calls.hex calls.pcap 2> /dev/null
xns calls calls.pcap > from_calls
same 'the calls of a capture' calls_expected from_calls
grep -E '^[0-9]+ 2[ab] ' calls_expected > second_expected
xns calls calls.pcap | grep -E '^[0-9]+ 2[ab] ' > from_second
same 'one conversation' second_expected from_second

# The times before its lines, beside tshark's, which always have nine digits.
editcap -F pcapng calls.pcap calls.pcapng 2> /dev/null
editcap -F nsecpcap calls.pcap calls_nano.pcap 2> /dev/null
for kind in calls.pcap calls.pcapng calls_nano.pcap; do
    for style in --times:frame.time_epoch --times=relative:frame.time_relative; do
        tshark -r $kind -T fields -e frame.number -e "${style#*:}" 2> /dev/null | awk '{sub(/0+$/, "", $2); print $2, $1}' | sort > frame_times
        xns calls "${style%:*}" $kind | awk '{sub(/0+$/, "", $1); print $1, $2}' | sort -u > line_times
        [ -s line_times ] || echo none > line_times
        comm -12 line_times frame_times > known_times
        same "times of $kind, ${style%:*}" line_times known_times
    done
done

# ---- identifiers that are used again without a closing: the second time prints nothing, and all where the capture is cut at its opening

cat "$root/examples/six-calls.hex" "$root/examples/six-calls.hex" > again.hex
text2pcap -q -r '^(?<data>[0-9a-f]+)$' -e 0x600 again.hex again.pcap 2> /dev/null
xns calls "$root/examples/six-calls.hex" > once
xns calls again.pcap > from_again
same 'a connection that comes again' once from_again
at=$(xns dump again.pcap | grep ' spp .* target 0000 ' | tail -1 | cut -d ' ' -f 1)
editcap -r again.pcap new.pcap "$at-999999" 2> /dev/null
xns calls new.pcap > from_new
same 'the same cut at its second opening' once from_new

# ---- live: what comes through a pipe is printed before the next packet comes

# Waits until a file has two lines, for twenty seconds at most.
has_two_lines() {
    tries=0
    until [ "$(cat "$1" 2> /dev/null | wc -l)" -ge 2 ] || [ $tries -eq 200 ]; do
        tries=$((tries + 1))
        sleep 0.1
    done
}

editcap -F pcap ethernet.pcap live.pcap 2> /dev/null
: > from_live
{ head -c $((24 + 16 + 14 + 34)) live.pcap; has_two_lines from_live; cp from_live first_live; tail -c +$((24 + 16 + 14 + 35)) live.pcap; } | xns dump - > from_live
same 'live packets' text from_live
head -2 text > first_expected
same 'the first live packet' first_expected first_live
xns_hex -l -i - < ethernet.pcap 2> /dev/null | xns dump > from_live
same 'live packets, by tshark' text from_live

# ---- parts, large frames, tcpdump

split -l 2 --filter='xns dump || [ $? = 1 ]' in.hex > in_parts
{ head -2 in.hex | xns dump; tail -1 in.hex | xns dump; } > parts
same 'an input in parts' parts in_parts

{ cat in.hex; printf '%04098d\n' 0; } > with_large.hex
text2pcap -q -r '^(?<data>[0-9a-f]+)$' -e 0x600 with_large.hex with_large.pcap 2> /dev/null
{ cat text; echo '4 idp refused BadLength 0'; } > large_expected
xns dump with_large.pcap | cut -d ' ' -f 1-3 > from_with_large
cut -d ' ' -f 1-3 large_expected > large_front
same 'a large frame' large_front from_with_large

# With a frame of another type in front, so that frame numbers and line numbers differ.
{ echo "0000aa0001020000aa000304080045"; cat ethernet.hex; } > behind.hex
text2pcap -q -r '^(?<data>[0-9a-f]+)$' behind.hex behind.pcap 2> /dev/null
xns dump behind.pcap > numbered
awk '{$1=$1+1}1' text > later
same 'frame numbers' later numbered

# The worked calls behind two such frames: each number of a line is two more, that of an answer's call too.
{ head -1 behind.hex; head -1 behind.hex; sed 's/^/0000aa0001020000aa0003040600/' calls.hex; } > calls_behind.hex
text2pcap -q -r '^(?<data>[0-9a-f]+)$' calls_behind.hex calls_behind.pcap 2> /dev/null
xns calls calls_behind.pcap > calls_numbered
sed -E 's/ of ([0-9]+) / of @\1 /' calls_expected | awk '{$1=$1+2} $6~/^@/{$6=substr($6,2)+2} 1' > calls_later
grep -q ' of [0-9]' calls_later || : > calls_later
same 'frame numbers of calls and of what they answer' calls_later calls_numbered

if command -v tcpdump > /dev/null; then
    tcpdump -U -r ethernet.pcap -w - 2> /dev/null | xns dump - > from_tcpdump
    same 'a capture by tcpdump' text from_tcpdump
else
    echo "the command with tcpdump is not tried: there is no tcpdump"
fi

# ---- and back

tr a-f A-F < in.hex | sed 's/../& /g' > any.hex
tr -d ' \t\r' < any.hex | tr A-F a-f > lower.hex
same 'hex in lower case without blanks' in.hex lower.hex
text2pcap -q -r '^(?<data>[0-9a-f]+)$' -e 0x600 lower.hex back.pcap 2> /dev/null
xns dump back.pcap > from_back
same 'a capture made of hex' text from_back

finish
