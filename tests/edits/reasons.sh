#!/usr/bin/env bash
# Lists the must-fail edits that were refused for a reason that doesn't speak of a contract.
#
#     tests/edits/reasons.sh LOG..        logs of `rt ci`, or of `rt must-fail NAME..`
#
# An edit says something where what a contract states couldn't be proved of the edited body: then the reason is that it
# isn't proved that something holds, or a goal of that function's own proof (in its Answers.antt) that no longer holds.
# It says little where only a name went that a proof file cites: the kit says so itself. Such edits, and those with any
# other reason, are printed with it, and then how many of how many they are. Ends with status 1 where there is one, with
# 2 where the logs have no edits.
set -euo pipefail

if [ $# = 0 ]; then
    sed -n '2,10s/^# \{0,1\}//p' "$0" >&2
    exit 2
fi

edits=$(grep -h 'must-fail [^ ]*\.edit: ' "$@" | sed 's/^rt: //; s/^must-fail //' || true)
if [ -z "$edits" ]; then
    echo "no edits in $*" >&2
    exit 2
fi

names='only because a proof file names'
contract='it is not proved that|/(Answers|Proof)\.antt:[0-9]+:[0-9]+: error: `'
listed=$(
    grep "$names" <<< "$edits" || true
    grep -v "$names" <<< "$edits" | grep -Ev "$contract" || true
)
count=$(grep -c . <<< "$listed" || true)
[ "$count" = 0 ] || sed 's/: refused, as it must be[: ]*/\n    /' <<< "$listed"
echo "$count of $(wc -l <<< "$edits") edits were refused for a reason that doesn't speak of a contract"
[ "$count" = 0 ]
