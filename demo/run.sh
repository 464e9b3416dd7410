#!/usr/bin/env bash
# Shows the pipeline: made up reports become submissions and a batch, and sealed reports become a database.
#
#   demo/run.sh                  a first look, in a minute or two: the program is built without proofs
#   demo/run.sh proved           the program as the gate builds it, which then is crates/esa/out/esa. After a gate in
#                                this copy of the repository it is there; after one in another copy on this machine its
#                                proofs are kept. Else every crate below it is proved first, which takes an hour or so
#   demo/run.sh proved PROGRAM   a program that is built already
#
# Either way the jobs of this folder run in a folder of their own, and what they print and write is compared with
# demo/transcript.txt. The script ends with 1 where anything differs.
set -euo pipefail
demo=$(cd "$(dirname "$0")" && pwd)
top=$(dirname "$demo")
source "$demo/unproved.sh"
work=$(mktemp -d)
trap 'rm -rf "$work"' EXIT
mkdir "$work/jobs" "$work/steps"
cp "$demo/forward" "$demo"/*.json "$work/jobs"

# The steps, in order: a command and its job.
steps=("gen gen" "encode encode" "batch batch" "plan plan" "run run" "histogram count" "plan plan_tight"
    "analyse analyse" "histogram histogram" "upgrade upgrade" "analyse upgrade")

run_unproved() {
    echo "Building esa without proofs (demo/run.sh proved builds what the gate builds) .."
    call_unproved "$work/jobs" "$work/steps" "${steps[@]/%/.json}" || exit 1
}

# Whether the program is there, and nothing that it may be built of is newer.
is_built() {
    [ -x "$program" ] && [ -z "$(find "$top/crates.txt" "$top/HANDLES" "$top/crates" -path '*/out' -prune -o \
        -newer "$program" \( -name '*.rt' -o -name '*.antt' -o -name crates.txt -o -name HANDLES \) -print -quit)" ]
}

# Builds the program as the gate does, in a copy of its crate and those below it without their edits. What a gate proved
# of the same files on this machine is taken from there.
build_proved() {
    "$demo/copy.py" esa "$work/copy"
    (cd "$work/copy" && rt ci) 2>&1 | tee "$work/log" | grep -E --line-buffered '^rt: \S+ (is kept|proved)' || true
    mkdir -p "${program%/*}"
    cp "$work/copy/crates/esa/out/esa" "$program" || { tail -n 20 "$work/log"; exit 1; }
}

run_proved() {
    program=${1:-$top/crates/esa/out/esa}
    if [ $# = 0 ] && ! is_built; then
        echo "Proving and building esa and the crates below it: an hour or so where no gate did it on this machine .."
        build_proved
    fi
    for number in "${!steps[@]}"; do
        read -r command job <<<"${steps[number]}"
        status=0
        (cd "$work/jobs" && "$program" "$command" "$job.json") >"$work/steps/$number.text" || status=$?
        echo "$status" >"$work/steps/$number.status"
    done
}

# Prints a step: the command as somebody types it, what it printed, and its status where that isn't 0.
step() {
    read -r command job <<<"${steps[$1]}"
    printf '\n$ esa %s %s.json\n' "$command" "$job"
    cat "$work/steps/$1.text"
    status=$(cat "$work/steps/$1.status")
    [ "$status" = 0 ] || echo "   It ended with status $status."
}

story() {
    cd "$work/jobs"
    step 0
    echo '   Each line of reports is a moment, a sender, a crowd and a value:'
    head -n 2 reports
    step 1
    echo '   Crowd and value are sealed now, in 352 hexadecimal digits a line:'
    head -n 1 submissions | cut -c 1-72
    step 2
    echo '   Moment and sender are gone, and the envelopes are in rising order, in whichever order they came:'
    head -c 11 batch | od -An -tx1
    step 3
    echo '   So a shuffle of these 2,000 records will do; it will touch the external memory so often.'
    step 4
    echo '   It did. Each access, with its block, its length and its nonce, is the one that plan foretold:'
    cmp foretold made && wc -c <made | sed 's/^ */   /; s/$/ bytes of both trace files are the same./'
    step 5
    echo '   The values that came out, without those of crowds that had fewer than 45 records.'
    step 6
    echo '   The same with a stash and a queue that are too small: each attempt says what failed.' \
        'docs/SIZING.md tells more.'
    printf '\n   Where the analyser is another machine, it gets a forward file. Here is one that was made apart.\n'
    step 7
    echo '   Seven of the 400 envelopes had their tag changed, so they did not open; the others hold six values.'
    step 8
    echo '   Look at the escapes: a byte that is no printable ASCII stands as \xNN.'
    step 9
    echo '   The same rows as a database of version 2:'
    head -c 13 database | od -An -tx1
    head -c 13 database2 | od -An -tx1
    step 10
    echo '   What is refused is named, and nothing was written.'
}

case "${1:-}" in
"") run_unproved ;;
proved) run_proved ${2:+"$(realpath "$2")"} ;;
*) sed -n '2,12s/^# \{0,1\}//p' "$0"; exit 2 ;;
esac
story >"$work/transcript"
cat "$work/transcript"
echo
diff "$demo/transcript.txt" "$work/transcript" || { echo 'This differs from demo/transcript.txt.'; exit 1; }
echo 'All of it is as in demo/transcript.txt.'
