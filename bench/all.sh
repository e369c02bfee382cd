#!/usr/bin/env bash
# Runs the measurements of this folder one after the other over the built programs, and puts what each prints into a file.
#
# usage: bench/all.sh FOLDER [PROGRAM [AUDIT]]
#
# FOLDER gets a file a measurement, OUT.txt, and PROGRAM and AUDIT are the built server and audit where no others are given.
# It takes most of half an hour, in which nothing else should run on the machine. The status is 1 where one failed.
set -u
here=$(cd "$(dirname "$0")" && pwd)
folder=$(mkdir -p "${1:?usage: all.sh FOLDER [PROGRAM [AUDIT]]}" && cd "$1" && pwd)
program=$(realpath "${2:-$here/../crates/aclserver/out/aclserver}")
audit=$(realpath "${3:-$here/../crates/leak_audit/out/leak_audit}")
cd "$here" || exit 1
failed=0

# Measures by the words that follow, into the file of the first.
measure() {
    local out=$folder/$1.txt began=$SECONDS
    shift
    python3 "$@" >"$out" 2>&1 || { failed=1 && echo "FAILED: $*"; }
    echo "$((SECONDS - began)) s: $* (${out##*/})"
}

measure operations serve_operations.py "$program"
measure operations_of_members serve_operations.py "$program" --members 10000
measure latency serve_latency.py "$program"
measure changes serve_changes.py "$program" --people 10000 --changes 5000
measure stored serve_stored.py "$program"
measure binds serve_binds.py "$program"
measure decisions serve_decisions.py "$program"
measure audit audit_session.py --program "$audit"
measure load_and_dump load_and_dump.py "$program"
measure data data.py "$folder/data" --program "$program"
measure make_scripts make_scripts.py "$folder/scripts"
measure scripts run.py "$folder/scripts" --program "$program" --runs 8
measure hostile hostile.py --program "$program"
measure hostile_many hostile.py --program "$program" --people 190000 --patience 120
for calls in messages names subtrees trees values; do
    measure "calls_$calls" calls.py "$calls"
done
rm -rf "$folder/data" "$folder/scripts"
exit "$failed"
