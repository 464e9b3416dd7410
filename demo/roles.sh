#!/usr/bin/env bash
# Makes a folder for each role, with the keys that this role may have and no others:
#
#   demo/roles.sh FOLDER
#
# FOLDER/encoder has the outer and the inner master, FOLDER/shuffler the outer one and two of its own (for the crowds'
# drops and for the external memory), FOLDER/analyser the inner one. FOLDER/alone has all four, with masters of its own,
# for whoever does all of it on one machine. Every key is 32 random bytes of the system.
set -euo pipefail
[ $# = 1 ] || { sed -n '2,9s/^# \{0,1\}//p' "$0"; exit 2; }
key() { od -An -v -tx1 -N32 /dev/urandom | tr -d ' \n'; }
outer=$(key) inner=$(key)
umask 077
mkdir -p "$1"
mkdir "$1/encoder" "$1/shuffler" "$1/analyser" "$1/alone"
printf '{"outer": "%s", "inner": "%s"}\n' "$outer" "$inner" >"$1/encoder/keys.json"
printf '{"outer": "%s", "drop": "%s", "run": "%s"}\n' "$outer" "$(key)" "$(key)" >"$1/shuffler/keys.json"
printf '{"inner": "%s"}\n' "$inner" >"$1/analyser/keys.json"
printf '{"outer": "%s", "inner": "%s", "drop": "%s", "run": "%s"}\n' "$(key)" "$(key)" "$(key)" "$(key)" >"$1/alone/keys.json"
