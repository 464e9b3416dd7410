#!/usr/bin/env bash
# Sends values as shares through the whole pipeline, and compares what comes out with demo/shares/expected.txt:
#
#   demo/shares/run.sh PROGRAM
#
# PROGRAM is an esa that is built already, as demo/run.sh proved leaves one in crates/esa/out/esa. The jobs of this
# folder run in a folder of their own. expected.txt was written by hand, from the reports and the numbers of the jobs.
# The script ends with 1 where anything differs.
set -euo pipefail
[ $# = 1 ] || { sed -n '2,8s/^# \{0,1\}//p' "$0"; exit 2; }
shares=$(cd "$(dirname "$0")" && pwd)
program=$(realpath "$1")
work=$(mktemp -d)
trap 'rm -rf "$work"' EXIT
mkdir "$work/jobs"
cp "$shares"/*.json "$shares/reports" "$work/jobs"

story() {
    cd "$work/jobs"
    for command in encode batch shuffle analyse recover histogram; do
        echo "\$ esa $command $command.json"
        "$program" "$command" "$command.json" || echo "It ended with status $?."
    done
}

story | tee "$work/transcript"
echo
diff "$shares/expected.txt" "$work/transcript" || { echo 'This differs from demo/shares/expected.txt.'; exit 1; }
echo 'All of it is as in demo/shares/expected.txt.'
