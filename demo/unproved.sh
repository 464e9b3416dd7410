# What run.sh and try.sh share: a program that is built without proofs, and calls of it.

# Reads a job and writes it, with the whole names of the files that it names, as they lie in a folder: the program runs
# in a folder of its own.
with_whole_names() {
    python3 -c '
import json, os, sys
job, whole = json.load(sys.stdin), lambda name: os.path.join(sys.argv[1], name)
for field in ["keys", "input", "output", "trace", "turns", "turns_out", "drops", "coins"]:
    if field in job:
        job[field] = whole(job[field])
if "inputs" in job:
    job["inputs"] = [whole(name) for name in job["inputs"]]
json.dump(job, sys.stdout)' "$1"
}

# Builds the program without proofs, and calls it for each step, which is a command and a job, on the files of a folder:
# call_unproved FOLDER TO STEP... What step N printed is in TO/N.text then, and its status in TO/N.status.
call_unproved() {
    local folder=$1 to=$2 number=0 command job status
    shift 2
    mkdir "$to/jobs" "$to/cases"
    while [ $# -gt 0 ]; do
        read -r command job <<<"$1"
        with_whole_names "$folder" <"$folder/$job" >"$to/jobs/$number.json"
        : >"$to/cases/$number"
        printf '%s\n' "$command" "$to/jobs/$number.json" >"$to/cases/$number.args"
        number=$((number + 1))
        shift
    done
    (cd "$(dirname "${BASH_SOURCE[0]}")/../crates/esa" && rt try --cases "$to/cases") >"$to/said" 2>"$to/log" ||
        { tail -n 20 "$to/log"; return 1; }
    awk -v to="$to" '/^== [0-9]+$/ { file = to "/" $2 ".text"; printf "" >file; next } { print >file }' "$to/said"
    sed -nE "s#^case=([0-9]+) .* status=([0-9]+) .*#\1 \2#p" "$to/log" |
        while read -r number status; do echo "$status" >"$to/$number.status"; done
}
