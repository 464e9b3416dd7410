#!/usr/bin/env bash
# Runs commands without proofs, for a first try with lines of your own:
#
#   demo/try.sh FOLDER COMMAND JOB [COMMAND JOB ..]
#
# as demo/try.sh roles/alone encode encode.json batch batch.json run run.json histogram count.json. The program is built
# without proofs each time, in a minute or two, and looks at each of its accesses, so it is slow: for days of lines, and
# for anything that matters, take the program that demo/run.sh proved leaves. The names in a job are taken from FOLDER.
# The script ends with 1 where a command doesn't end with status 0; those behind it are called all the same.
set -euo pipefail
[ $# -ge 3 ] && [ $(($# % 2)) = 1 ] || { sed -n '2,10s/^# \{0,1\}//p' "$0"; exit 2; }
source "$(dirname "$0")/unproved.sh"
folder=$(cd "$1" && pwd)
shift
steps=()
while [ $# -gt 0 ]; do
    steps+=("$1 $2")
    shift 2
done
work=$(mktemp -d)
trap 'rm -rf "$work"' EXIT
call_unproved "$folder" "$work" "${steps[@]}"
failed=0
for number in "${!steps[@]}"; do
    printf '$ esa %s\n' "${steps[number]}"
    cat "$work/$number.text"
    status=$(cat "$work/$number.status")
    [ "$status" = 0 ] || { echo "   It ended with status $status."; failed=1; }
done
exit $failed
