#!/bin/sh
# Compares what the program prints of random captures with a second account of what they hold, as tests/files.py says, and tries what it
# says of files: it builds the program first. Its last line is 'N passed, M failed', and it ends with 1 where one failed.
set -u
CDPATH=
cd "$(dirname "$0")/.."
. tests/lib.sh
build_program xns -- sim

# ---- files of lines

example=examples/six-calls.hex
: > "$work/in"
"$program" calls < $example > "$work/text"
run calls $example
ends 'a file of lines' 0 '' "$work/text"
cat $example > "$work/in"
run calls -
ends 'lines of standard input by its name' 0 '' "$work/text"
: > "$work/in"
run sim crates/xns/stdin
ends 'a file of a script' 0 '' crates/xns/stdout

# ---- faults of files

run dump "$work/none"
ends 'no such file' 3 "xns: $work/none: No such file or directory (os error 2)" /dev/null
run calls "$work"
ends 'a folder' 3 "xns: $work: Is a directory (os error 21)" /dev/null
{ head -n 16 $example && printf '%04097d\n' 0; } > "$work/long.hex"
run calls "$work/long.hex"
ends 'a line that is too long' 3 "xns: $work/long.hex: line 17 is longer than 4,096 bytes" -
head -c 65537 /dev/zero | tr '\0' '\n' > "$work/many.hex"
run dump "$work/many.hex"
ends 'too many lines' 3 "xns: $work/many.hex: too many lines" -

# Nobody reads what is written, which is more than a pipe holds. That is said where standard input is read without a name.
nobody_reads() {
    said=$1
    shift
    {
        "$program" "$@" < "$work/many.hex" 2> "$work/err"
        echo $? > "$work/status"
    } | head -n 1 > "$work/first"
    ended=$(cat "$work/status")
    ends "nobody reads what $* writes" 3 "$said" -
}
for mode in dump calls; do
    nobody_reads '' $mode "$work/many.hex"
    nobody_reads '' $mode -
    nobody_reads 'xns: write fault' $mode
done

"$program" dump $example > /dev/full 2> "$work/err"
ended=$?
ends 'a full device' 3 "xns: $example: write fault" -
run --version
echo "xns $(cat VERSION)" > "$work/text"
ends 'the version' 0 '' "$work/text"

# ---- captures

# A pcapng file of the packets of the example, each in a frame of Ethernet, and a frame of another type in front. The same as a pcap file,
# which is also cut into two: its first four frames, of which the last one begins a flow, and the rest.
python3 - $example "$work" << 'END'
import struct
import sys

def block(kind, body):
    body += bytes(-len(body) % 4)
    return struct.pack("<II", kind, 12 + len(body)) + body + struct.pack("<I", 12 + len(body))

def record(time, frame):
    return struct.pack("<IIII", *divmod(time, 1000000), len(frame), len(frame)) + frame

def write(name, parts):
    with open(f"{sys.argv[2]}/{name}", "wb") as file:
        file.write(b"".join(parts))

with open(sys.argv[1], encoding="ascii") as lines:
    frames = [bytes(12) + b"\x08\x00"] + [bytes(12) + b"\x06\x00" + bytes.fromhex(line) for line in lines]
section = block(0x0A0D0D0A, struct.pack("<IHHq", 0x1A2B3C4D, 1, 0, -1)) + block(1, struct.pack("<HHI", 1, 0, 0))
blocks = [block(6, struct.pack("<IIIII", 0, 1, 7000001 * number, len(frame), len(frame)) + frame) for number, frame in enumerate(frames)]
head = struct.pack("<IHHiIII", 0xA1B2C3D4, 2, 4, 0, 0, 65535, 1)
records = [record((1 << 32) + 7000001 * number, frame) for number, frame in enumerate(frames)]
write("x.pcapng", [section, *blocks])
write("x.pcap", [head, *records])
write("first", [head, *records[:4]])
write("rest", records[4:])
END
"$program" calls $example | awk '{$1=$1+1} $5=="of"&&$6!="-"{$6=$6+1} 1' > "$work/text"
for file in "$work/x.pcapng" "$work/x.pcap"; do
    run calls "$file"
    ends "the calls of ${file##*/}" 0 '' "$work/text"
done

# The time of frame N is 2^32 + (N - 1) * 7000001 microseconds; the first call is whole in frame 6, and its answer in frame 10.
run calls --times "$work/x.pcapng"
printf '%s\n' '4329.967301 6 1b call 1 program 7 version 2 procedure 1 args 0005' \
    '4357.967305 10 1a return 1 of 6 results 0000 0005 took 28.000004' > "$work/wanted"
sed -n '3,4p' "$work/out" > "$work/front"
if cmp -s "$work/wanted" "$work/front"; then pass; else fail 'times of a call and its answer'; fi
for style in --times --times=relative; do
    python3 tests/capture_account.py $style "$work/x.pcapng" < "$work/text" > "$work/timed"
    run calls $style "$work/x.pcapng"
    ends "the calls of a capture, $style" 0 '' "$work/timed"
done
run calls --relative "$work/x.pcapng"
ends 'the calls of a capture, --relative' 0 '' "$work/timed"
run calls --times $example
"$program" calls < $example > "$work/of_lines"
ends 'lines have no times' 0 '' "$work/of_lines"
run dump --times "$work/x.pcapng"
ends 'dump has no times' 2 "error: unexpected argument '--times' found; a command reads one FILE, as in 'xns calls x.pcap'; try 'xns --help'" /dev/null
head -c -1 "$work/x.pcapng" > "$work/cut.pcapng"
run dump "$work/cut.pcapng"
ends 'a capture that is cut' 3 "xns: $work/cut.pcapng: the capture is cut" -

# Links that are not read: a classic capture of one; behind that file a section of raw IP and BSD loopback; and a section of raw IP and
# Ethernet, of which the first has a frame with a number, and prints nothing. Sections of 65,536 interfaces, and of one more.
python3 - "$work/x.pcapng" "$work" << 'END'
import struct
import sys

def block(kind, body):
    return struct.pack("<II", kind, 12 + len(body)) + body + struct.pack("<I", 12 + len(body))

def interface(link):
    return block(1, struct.pack("<HHI", link, 0, 0))

def frame(which):
    return block(6, struct.pack("<IIIII", which, 0, 0, 44, 44) + bytes(12) + bytes.fromhex("0600ffff001e0007") + bytes(24))

file, folder = sys.argv[1:]
with open(file, "rb") as source:
    capture = source.read()
section = block(0x0A0D0D0A, struct.pack("<IHHq", 0x1A2B3C4D, 1, 0, -1))
made = {f"link_{link}.pcap": struct.pack("<IHHiIII", 0xA1B2C3D4, 2, 4, 0, 0, 65535, link) for link in (0, 101, 147)}
made["unread.pcapng"] = capture + section + interface(101) + interface(0) + frame(1) + interface(1) + frame(2)
made["beside.pcapng"] = section + interface(101) + interface(1) + frame(0) + frame(1)
made["most.pcapng"] = section + interface(1) * 65536 + frame(65535)
made["more.pcapng"] = made["most.pcapng"] + interface(1) + frame(0)
for name, contents in made.items():
    with open(f"{folder}/{name}", "wb") as made_file:
        made_file.write(contents)
END
while IFS=: read -r link name; do
    run dump "$work/link_$link.pcap"
    ends "link type $link" 3 "xns: $work/link_$link.pcap: link type $link$name is not read" /dev/null
done << 'END'
0: (BSD loopback)
101: (raw IP)
147:
END
run dump "$work/x.pcapng"
cp "$work/out" "$work/dumped"
run dump "$work/unread.pcapng"
ends 'a section of links that are not read' 3 "xns: $work/unread.pcapng: link type 0 (BSD loopback) is not read" "$work/dumped"
run dump "$work/beside.pcapng"
printf '%s\n' '2 idp length 30 sum none control 0 type 7 to 00000000.000000000000.0000 from 00000000.000000000000.0000' '2 data -' > "$work/wanted"
ends 'a link that is not read beside Ethernet' 0 '' "$work/wanted"
sed 's/^2/1/' "$work/wanted" > "$work/text_of_most"
run dump "$work/most.pcapng"
ends '65,536 interfaces' 0 '' "$work/text_of_most"
run dump "$work/more.pcapng"
ends '65,537 interfaces' 3 "xns: $work/more.pcapng: a section has too many interfaces" "$work/text_of_most"

# A block of 17 MiB between that file and the same file again: a block that is passed over, one that has a number as a frame, and a packet,
# which is too long. Each comes through a pipe to a program that may have 16 MiB in all. Other files end within the block, also behind its
# head and behind a part of it, or have another length at the end of the block.
python3 - "$work/x.pcapng" "$work" << 'END'
import struct
import sys

file, folder = sys.argv[1:]
with open(file, "rb") as source:
    capture = source.read()
for name, kind in ("passed", 4), ("counted", 0xBAD), ("packet", 6):
    total = 17 << 20
    block = struct.pack("<II", kind, total) + bytes(total - 12) + struct.pack("<I", total)
    made = {name: block + capture}
    if name == "counted":
        made["end_differs"] = block[:-4] + struct.pack("<I", total - 4) + capture
        for count in 12, 65536, 12 + 65536, 12 + 65536 * 3 + 1, total - 4, total - 1:
            made[f"cut_{count}"] = block[:count]
    for name, rest in made.items():
        with open(f"{folder}/{name}.long", "wb") as made_file:
            made_file.write(capture + rest)
END
for long in "$work"/*.long; do
    python3 tests/capture_account.py "$long" > "$work/packets" 2> "$work/fault"
    case $(cat "$work/fault") in
        'fault Cut') said='xns: -: the capture is cut' ;;
        'fault TooLong') said='xns: -: a record of the capture is too long' ;;
        'fault Lengths') said='xns: -: the lengths of a block disagree' ;;
        *) said= ;;
    esac
    cat "$long" | (ulimit -v 16384 && exec "$program" dump -) > "$work/out" 2> "$work/err"
    ended=$?
    cut -d ' ' -f 1 "$work/out" | uniq > "$work/frames"
    cut -d ' ' -f 1 "$work/packets" > "$work/wanted"
    if [ -z "$said" ]; then status=0; else status=3; fi
    if cmp -s "$work/frames" "$work/wanted"; then pass; else fail "the frames of ${long##*/}"; fi
    ends "the end of ${long##*/}" $status "$said" -
done

# ---- growths

# Each growth of a run on the file, which else writes that text, is refused in turn: the whole text, or a front of it and 3.
refuse_each() {
    file=$1
    whole=$2
    shift 2
    growth=1
    while [ $growth -le 1000 ]; do
        refuse_growth $growth "$program" "$@" "$file" < /dev/null
        [ -e "$work/refused" ] || break
        head -c "$(wc -c < "$work/out")" "$whole" > "$work/front"
        if [ "$ended" -eq 0 ]; then
            ends "$* ${file##*/}, growth $growth refused, and done without" 0 '' "$whole"
        elif [ "$(cat "$work/err")" = 'xns: no memory' ]; then
            ends "$* ${file##*/}, growth $growth refused before the file is opened" 3 'xns: no memory' /dev/null
        else
            ends "$* ${file##*/}, growth $growth refused" 3 "xns: $file: no memory" "$work/front"
        fi
        growth=$((growth + 1))
    done
    echo "$((growth - 1)) growths of $* ${file##*/} were refused"
    if [ $growth -gt 1 ]; then pass; else fail 'no growth to refuse'; fi
    ends "$* ${file##*/}, refused nothing" 0 '' "$whole"
}
if has gcc; then
    build_refusing
    run dump $example
    cp "$work/out" "$work/dumped_lines"
    run calls --times "$work/x.pcapng"
    cp "$work/out" "$work/timed"
    refuse_each "$work/x.pcapng" "$work/text" calls
    refuse_each "$work/x.pcap" "$work/dumped" dump
    refuse_each "$work/x.pcap" "$work/timed" calls --times
    refuse_each $example "$work/dumped_lines" dump
    refuse_each $example "$work/of_lines" calls
else
    left_out gcc 'each growth refused in turn'
fi

# ---- pipes

# A packet's lines come at once: the text of the first bytes, and then of all, where the rest comes once the first line is there, or after
# twenty seconds.
comes_at_once() {
    : > "$work/live"
    {
        cat "$2"
        tries=0
        until [ -s "$work/live" ] || [ $tries -eq 200 ]; do
            tries=$((tries + 1))
            sleep 0.1
        done
        cp "$work/live" "$work/out"
        cat "$3"
    } | "$program" calls - > "$work/live" 2> "$work/err"
    ended=$?
    head -n 1 "$4" > "$work/front"
    ends "the first line of $1" 0 '' "$work/front"
    cp "$work/live" "$work/out"
    ends "all of $1" 0 '' "$4"
}
comes_at_once 'a capture as it comes' "$work/first" "$work/rest" "$work/text"
head -n 3 $example > "$work/first_lines"
tail -n +4 $example > "$work/other_lines"
comes_at_once 'lines as they come' "$work/first_lines" "$work/other_lines" "$work/of_lines"

# A capture of 200 MB has one conversation again and again, which is closed each time. The program may have 16 MiB in all, and reads each.
cat > "$work/endless.py" << 'END'
import random
import struct
import sys

sys.path.insert(0, "tests")
from random_calls import Maker

frames = [bytes(12) + b"\6\0" + packet for packet in Maker(random.Random(1)).again(1)]
piece = b"".join(struct.pack("<IIII", 0, 0, len(frame), len(frame)) + frame for frame in frames) * 1000
count = (200 << 20) // len(piece) + 1
with open(sys.argv[1], "w", encoding="ascii") as file:
    file.write(f"{1000 * count * len(frames)} {1000 * count}\n")
with open("/dev/stdout", "wb") as file:
    file.write(struct.pack("<IHHiIII", 0xA1B2C3D4, 2, 4, 0, 0, 65535, 1))
    for _ in range(count):
        file.write(piece)
END
for mode in dump calls; do
    python3 "$work/endless.py" "$work/counts" | {
        (ulimit -v 16384 && exec "$program" $mode -) 2> "$work/err"
        echo $? > "$work/status"
    } | tail -c 1000 > "$work/out"
    ended=$(cat "$work/status")
    ends "$mode of 200 MB through a pipe" 0 '' -
    read -r frames conversations < "$work/counts"
    tail -n 1 "$work/out" > "$work/last"
    case "$mode $(cat "$work/last")" in
        "dump $frames "* | "calls "*" $conversations"[ab]" return 1 of "[0-9]*) pass ;;
        *) fail "the last line of $mode of 200 MB" "$work/last" ;;
    esac
done

# ---- random captures

for seed in 1 2 3 4 5 6; do
    python3 tests/files.py "$program" $seed 150 > "$work/compared"
    grep -v ' passed, ' "$work/compared"
    passed=$((passed + $(sed -n 's/ passed, .*//p' "$work/compared")))
    failed=$((failed + $(sed -n 's/.* passed, \(.*\) failed/\1/p' "$work/compared")))
done

finish
