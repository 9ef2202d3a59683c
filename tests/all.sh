#!/bin/sh
# All proofs, wrong bodies, tests and programs from nothing, then the figures of docs/PROOF.md, and then the scripts that try what was built.
set -eu
CDPATH=
cd "$(dirname "$0")/.."

# `rt ci` keeps no library for other commands. The library for C and those below it are built of a copy meanwhile, and put in their places
# for the last scripts. A library that is not built fails in those scripts.
copy=$(mktemp -d)
begun=
# Ends what was begun beside the rest and still runs, as where the rest fails or is interrupted, and removes the copy.
clean() {
    for one in $begun; do
        if grep -qs "^PPid:[[:blank:]]*$$\$" "/proc/$one/status"; then kill "$one" 2> /dev/null || :; fi
    done
    rm -rf "$copy"
}
trap clean EXIT
trap 'exit 1' HUP INT TERM
cp -R crates crates.txt HANDLES "$copy"
rm -rf "$copy"/crates/*/out
(cd "$copy/crates/xns_c" && exec rt lib > /dev/null 2>&1) &
begun=$!

# One check a processor, where each has 5 GB of memory: `rt ci` by itself takes large crates to want more than they do, and leaves
# processors idle.
checks=$(awk '/^MemAvailable:/ { print int($2 / 5000000) }' /proc/meminfo)
if [ "$checks" -ge "$(nproc)" ]; then
    RT_JOBS=$(nproc)
    export RT_JOBS
fi
rt ci

BUILT_BY_GATE=yes
export BUILT_BY_GATE
python3 tests/reading.py --check
# Runs the scripts side by side, and what else was begun to its end. What each script says is shown in turn; one that failed ends the run.
run_scripts() {
    scripts=
    for script in "$@"; do
        sh "tests/$script.sh" > "$copy/$script.said" 2>&1 &
        begun="$begun $!"
        scripts="$scripts $script:$!"
    done
    for one in $scripts; do
        if wait "${one#*:}"; then : > "$copy/${one%:*}.passed"; fi
    done
    wait
    begun=
    for script in "$@"; do
        cat "$copy/$script.said"
        [ -e "$copy/$script.passed" ]
    done
}
run_scripts pages program files notation conversations calls plays refusals
for folder in "$copy"/crates/*/out; do
    out=crates/$(basename "$(dirname "$folder")")/out
    mkdir -p "$out"
    for part in rlib incremental; do
        if [ -d "$folder/$part" ]; then
            rm -rf "${out:?}/$part"
            mv "$folder/$part" "$out/$part"
        fi
    done
done
for script in c network install captures; do
    sh "tests/$script.sh"
done
