#!/usr/bin/env bash
# Measures the named subjects, or all. Ends with status 1 if a row needs more instructions than its limit. A subject is
# a folder next to this file. Its measure.sh, or otherwise lib.sh, measures it.
set -euo pipefail
source "$(dirname "$0")/../tools/script.bash"
words "[SUBJECT ..]" "$@"
. "$(dirname "$0")/lib.sh"

[[ "${TRIAL:-0}" == 0 ]] || echo "TRIAL is set: an unproved library takes more instructions and less code"
work="$(mktemp -d)"
trap 'rm -rf "$work"' EXIT

subjects=("$@")
if [ $# = 0 ]; then
    for subject in "$bench"/*/; do subjects+=("$(basename "$subject")"); done
fi
for subject in "${subjects[@]}"; do
    [ -d "$bench/$subject" ] || usage "there is no subject $subject"
    echo "== $subject"
    if [ -f "$bench/$subject/measure.sh" ]; then
        . "$bench/$subject/measure.sh"
        "measure_$subject"
    else
        measure "$subject"
    fi
done
[ -z "$over_limit" ] || exit 1
