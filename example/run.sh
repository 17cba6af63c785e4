#!/usr/bin/env bash
# Builds lvs_check and asks it, of each line of example/requests.txt, whether the key may sign the packet by example/model.lvs.
# usage: bash example/run.sh [FILE]    a line of FILE is a packet name and a key name, as URIs
set -euo pipefail
requests=$(realpath "${1:-$(dirname "$0")/requests.txt}")
cd "$(dirname "$0")/.."
command -v rt >/dev/null || PATH=$PATH:/opt/rattle/bin

log=$(mktemp)
trap 'rm -f "$log"' EXIT
if ! python3 tools/crates.py lvs_check; then
    echo "building (the first time this proves every crate, which takes minutes)" >&2
    # it also runs what it builds, here without a model and on no requests
    (cd crates/lvs_check && rt run) </dev/null >"$log" 2>&1 || { cat "$log"; exit 1; }
fi

# lvs_check reads model.lvs in the folder that it runs in
made=$(mktemp)
trap 'rm -f "$log" "$made"' EXIT
python3 tools/name.py requests "$requests" >"$made"
answers=$(cd example && ../crates/lvs_check/out/lvs_check <"$made")
echo "$answers" | head -n 1
paste <(echo "$answers" | tail -n +2) <(grep -vE '^[[:space:]]*(#|$)' "$requests") | sed 's/\t/   /' | awk '{ n = $NF; m = $(NF - 1); NF -= 2; printf "%-20s %s  by  %s\n", $0, m, n }'
