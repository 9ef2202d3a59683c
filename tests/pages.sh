#!/bin/sh
# Compares the code that the pages in docs/ quote with the code itself, by tests/pages.py, and tries on copies that each way in which a
# page can differ is found. It builds nothing.
set -u
CDPATH=
cd "$(dirname "$0")/.."
. tests/lib.sh

if python3 tests/pages.py > "$work/said"; then
    pass
else
    fail 'the pages:' "$work/said"
fi
tail -1 "$work/said"
expect 'no mark of a merge is left' sh -c '! grep -rnE "^(<{7}|>{7}) " README.md install.sh release.sh docs examples include python tests'

# A copy of the repository, whose quotes are made anew. Each change is made there, and taken back.
right=$work/right
mkdir "$right"
tar c --exclude=out --exclude=.git . | tar x -C "$right"
python3 tests/pages.py --write "$right" > /dev/null

# Changes one file by one edit of sed: tests/pages.py must say so by these words.
found() {
    name=$1
    file=$2
    edit=$3
    said=$4
    cp "$right/$file" "$work/before"
    sed -i "$edit" "$right/$file"
    if cmp -s "$work/before" "$right/$file"; then
        fail "$name: the edit changes nothing"
    else
        wanted "$name" "$said"
    fi
    cp "$work/before" "$right/$file"
}

# Takes a file away: tests/pages.py must say so by these words.
gone() {
    mv "$right/$1" "$work/before"
    wanted "$1 is gone" "there is no $2"
    mv "$work/before" "$right/$1"
}

wanted() {
    if python3 tests/pages.py "$right" > "$work/said"; then
        fail "$1: not found"
    elif ! grep -q -F "$2" "$work/said"; then
        fail "$1: said is" "$work/said"
    else
        pass
    fi
}

page=docs/crates/xns_idp.md
code=crates/xns_idp/src/decoding.rt
found a_clause_of_the_page $page 's/^    ensures exact { decode_model result/    ensures exact { decode_model  result/' 'the quote of xns_idp decode differs'
found a_clause_that_the_page_lacks $page '/^    ensures fault {/d' 'the quote of xns_idp decode differs'
found a_clause_of_the_code $code 's/^    ensures fault { IfErr result (λ f. /    ensures fault { IfErr result (λ e. /' 'the quote of xns_idp decode differs'
found a_doc_comment $code 's/^\/\/\/ Reads the packet at the front/\/\/\/ Reads a packet at the front/' 'the quote of xns_idp decode differs'
found an_item_that_is_gone $code 's/^pub fn decode(/pub fn read(/' 'xns_idp has no public item decode'
found an_item_that_is_not_public $code 's/^pub fn decode(/pub(crate) fn decode(/' 'xns_idp has no public item decode'
found an_item_that_is_not_exported crates/xns_idp/src/lib.rt '/^pub use decoding::decode;/d' 'xns_idp has no public item decode'
found a_method_that_is_gone crates/xns_spp/src/endpoint.rt 's/pub fn send_fault(/pub fn send_refusal(/' 'xns_spp has no public item Endpoint::send_fault'
found an_item_that_never_was $page 's/^```rust quote xns_idp decode$/```rust quote xns_idp decode decode_all/' 'xns_idp has no public item decode_all'
found a_crate_that_never_was $page 's/^```rust quote xns_idp decode$/```rust quote xns_ipd decode/' 'there is no crate xns_ipd'
found a_page_without_a_quote docs/crates/commands.md 's/^```rust quote .*/```text/' 'docs/crates/commands.md: no contract is quoted'
found a_block_from_nowhere $page 's/^```rust part .*/```rust/' 'does not say where it is from'
found a_caller_that_changed crates/examples/src/packet.rt 's/body: &packet.body/body: \&packet.data/' 'crates/examples/src/packet.rt has no lines'
found a_block_without_an_end docs/crates/xns_small.md '$d' 'docs/crates/xns_small.md: a block has no end'

found a_crate_that_the_map_lacks crates.txt '$a xns_more: xns_idp' 'docs/CALLING.md and docs/MAP.md have 0 rows of xns_more'
found a_crate_with_two_rows docs/MAP.md 's/^| `bench` |/| `xns_idp` |/' 'docs/CALLING.md and docs/MAP.md have 2 rows of xns_idp'
found a_crate_that_went crates.txt '/^dump_alone:/d' 'docs/MAP.md: crates.txt has no dump_alone'
found a_name_that_a_file_of_the_map_lacks docs/MAP.md 's/(`most_items`)/(`most_bytes`)/' 'Numbers.antt has no most_bytes'
found a_clause_that_went docs/PROMISES.md 's/`encode`, `encode_parts`: `ok`/`encode`, `encode_parts`: `good`/' 'docs/PROMISES.md: there is no clause good of encode, encode_parts'
found a_name_that_went docs/ENDPOINT.md 's/`is_full`/`is_quite_full`/' 'docs/ENDPOINT.md: is_quite_full is not in the code'
gone tests/refusals.sh tests/refusals.sh
gone crates/xns_spp/specs/Acceptance.antt crates/xns_spp/specs/Acceptance.antt
gone crates/xns_idp/src/places.rt 'src/places.rt of xns_idp'
gone crates/courier_sessions/specs/Talks.antt 'Talks.antt of courier_sessions'
gone python/xns/_watch.py '_watch.py of xns'

# A changed contract is quoted anew.
sed -i 's/^    ensures fault { IfErr result (λ f. /    ensures fault { IfErr result (λ e. /' "$right/$code"
if python3 tests/pages.py --write "$right" > /dev/null && grep -q 'ensures fault { IfErr result (λ e. ' "$right/$page"; then
    pass
else
    fail 'a quote is not made anew'
fi
finish
