#!/bin/sh
# The edit loop: `rt check` in a crate's folder, with errors, goals and the verdict only. Usage: [CUT=600] tools/dev.sh NAME [--allow-holes] [--start FUNCTION]
# --start writes the proof files of a function that lacks them. The whole text is in target/dev.out.
cd "$(dirname "$0")/.." && mkdir -p target && cd "crates/${1:?usage: tools/dev.sh NAME}" || exit 2
shift
began=$(date +%s)
RT_CUT=0 rt check "$@" >../../target/dev.out 2>&1
status=$?
python3 ../../tools/brief.py <../../target/dev.out
echo "exit status $status, $(($(date +%s) - began)) s"
exit $status
