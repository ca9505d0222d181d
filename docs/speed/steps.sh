#!/usr/bin/env bash
# Fails where the engine takes more than 200 instructions a step over decoded operations. valgrind counts them, alike on every run; the
# difference of two budgets leaves out start, decoding and printing. The engine is the proved `cases` that `rt ci`, or `rt run` in crates/cases,
# leaves in crates/cases/out; ENGINE names another.
set -euo pipefail
most=200 few=20000 many=120000
work=$(mktemp -d)
trap 'rm -rf "$work"' EXIT
engine=$(realpath -m "${ENGINE:-$(dirname "$0")/../../crates/cases/out/cases}")
cd "$(dirname "$0")"
[ -x "$engine" ] || { echo "steps: no program $engine: rt ci, or rt run in crates/cases, makes it" >&2; exit 1; }
if ! command -v valgrind >/dev/null; then
    as_root=$([ "$(id -u)" = 0 ] || echo sudo)
    $as_root apt-get update -qq
    $as_root apt-get install -y -qq valgrind >/dev/null
fi

# A case under another budget, 4 bytes at 8, low byte first.
with_budget() { # CASE BUDGET
    head -c 8 "$1.case"
    printf '%b' "$(printf '\\x%02x' $(($2 & 255)) $(($2 >> 8 & 255)) $(($2 >> 16 & 255)) $(($2 >> 24)))"
    tail -c +13 "$1.case"
}

# The instructions of a run that uses up its budget; none of a run that did not happen.
instructions() { # CASE BUDGET
    local line
    with_budget "$1" "$2" >"$work/case"
    line=$(valgrind --tool=cachegrind --cache-sim=no --cachegrind-out-file=/dev/null --log-file="$work/log" "$engine" <"$work/case")
    case $line in
    "spent $2 "*) awk '/I +refs:/ { gsub(",", "", $NF); print $NF }' "$work/log" ;;
    *) echo "steps: $1 with budget $2 is to be spent, and the engine printed: $line" >&2; return 1 ;;
    esac
}

for case in loop-decoded repeat-decoded; do
    more=$(instructions "$case" "$many")
    less=$(instructions "$case" "$few")
    awk -v name="$case" -v n=$((more - less)) -v steps=$((many - few)) -v most=$most 'BEGIN {
        printf "%s: %.1f instructions a step, %d allowed\n", name, n / steps, most
        exit (n > most * steps)
    }' || { echo "steps: too many instructions a step on $case" >&2; exit 1; }
done
