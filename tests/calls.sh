#!/bin/sh
# Compares what `xns calls` prints of 400 random captures, and of the worked ones of crates/test_texts, with what a second account of
# docs/FORMATS.md prints of them. Of captures in which nothing is lost it looks for all messages, and for each call's answer. It builds the
# program first.
set -u
CDPATH=
cd "$(dirname "$0")/.."
. tests/lib.sh
build_program xns -- sim
mkdir "$work/captures"
python3 tests/random_calls.py 1 400 "$work/captures"
python3 tests/random_calls.py 1 60 "$work/captures" whole

# The worked captures: a line of the input has the text of one, in which \n is a newline.
sed -n 's/^calls //p' crates/test_texts/stdin > "$work/worked"
number=0
while read -r text; do
    number=$((number + 1))
    printf '%s\n' "$text" | sed 's/\\n$//; s/\\n/\n/g; s/\\r/\r/g; s/\\t/\t/g' > "$work/captures/worked_$number.hex"
done < "$work/worked"

python3 tests/calls_account.py "$work"/captures/*.hex
for capture in "$work"/captures/*.hex; do
    {
        "$program" calls "$capture"
        echo "# $?"
    } > "$work/printed" 2> "$work/err"
    same "${capture##*/}" "$capture.text" "$work/printed"
done

# Each line of the page is among them.
for line in 'hex refused' 'idp refused' 'inner refused' 'flow to' missing call return reject abort repeats 'refused BadVersions' 'refused NoCommonVersion' \
    'refused OddLength' 'refused ShortMessage' 'refused UnknownKind'; do
    if grep -qhE "^[0-9]+ ([0-9]+[ab] )?$line" "$work"/captures/*.text; then pass; else fail "no capture has a line '$line'"; fi
done

# ---- captures in which nothing is lost

# The messages of a text, flow by flow: each behind the ends of its flow, without the numbers of its line and of its call's.
messages() {
    awk '$3 == "flow" {name = $0; sub(/^[^ ]* [^ ]* /, "", name); gsub(/ /, "_", name); ends[$2] = name; next}
        {
            flow = ends[$2]
            $1 = $2 = ""
            if ($5 == "of" && $6 != "-") $6 = "N"
            print flow, $0
        }' "$1" | LC_ALL=C sort -s -k 1,1
}

# Packets that overtake one another by up to 60 places: no item is missing, and the messages are those of the packets in order.
others=0
for sent in "$work"/captures/sent_*.hex.text; do
    overtaken=${sent%/*}/overtaken_${sent##*/sent_}
    messages "$sent" > "$work/wanted"
    messages "$overtaken" > "$work/printed"
    if ! cmp -s "$sent" "$overtaken"; then others=$((others + 1)); fi
    if grep -q ' missing ' "$sent" "$overtaken"; then
        fail "${overtaken##*/}: an item is missing"
    else
        same "${overtaken##*/}: other messages" "$work/wanted" "$work/printed"
    fi
done
if [ $others -gt 0 ]; then pass; else fail 'packets overtake one another, and nothing is printed later'; fi

# Closed conversations of the same two ends: each is a connection of its own, and its answer has the number of its call.
for again in "$work"/captures/again_*.hex.text; do
    count=${again##*/again_}
    awk '$1 == "#" {next}
        {connection = $2 + 0}
        $3 == "call" {calls++; call[connection] = $1}
        ($3 == "return" || $3 == "reject" || $3 == "abort") && $6 == call[connection] {answers++}
        END {print calls + 0, answers + 0, connection + 0}' "$again" > "$work/printed"
    echo "${count%%_*} ${count%%_*} ${count%%_*}" > "$work/wanted"
    if cmp -s "$work/wanted" "$work/printed"; then pass; else fail "${again##*/}:" "$work/printed"; fi
done

finish
