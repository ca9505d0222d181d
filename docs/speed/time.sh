#!/usr/bin/env bash
# Ten million steps by the proved engine, over decoded operations and from the file, by the tuned interpreter and by the simple simulator of
# docs/src, all optimised, by turns, eleven rounds: the medians of user and system seconds, and the engine's over each of the other two.
# ENGINE names another program `cases` than the one that `rt run` proves and builds.
set -euo pipefail
root=$(realpath "$(dirname "$0")/../..")
engine=$(realpath -m "${ENGINE:-$root/crates/cases/out/cases}")
cd "$root"
export PATH="$HOME/.cargo/bin:$PATH"
[ -n "${ENGINE:-}" ] || (cd crates/cases && rt run >/dev/null </dev/null)
(cd docs/src && cargo build --profile speed --offline --locked --quiet)
rust=${CARGO_TARGET_DIR:-docs/src/target}/speed
rounds=11
work=$(mktemp -d)
trap 'rm -rf "$work"' EXIT

# Runs a program on a case: keeps the line it prints, adds its time to those under the same name.
timed() { # NAME PROGRAM CASE
    local TIMEFORMAT='%3U %3S'
    { time "$2" <"docs/speed/$3.case" >"$work/$1.line"; } 2>>"$work/$1.times"
}

# What the line of a run begins with in every form; `unknown` of a call that the engine does not have.
run_line() { cut -d ' ' -f 1-28 "$work/$1.line"; }

# All four by turns, which must print the same.
one_round() { # CASE
    timed decoded "$engine" "$1-decoded"
    timed file "$engine" "$1"
    timed tuned "$rust/tuned" "$1"
    timed simple "$rust/cases" "$1"
    for name in decoded tuned simple; do
        case "$name $(run_line $name)" in
        "$name $(run_line file)" | "decoded unknown") ;;
        *) echo "time: $name prints another line than file on $1" >&2; exit 1 ;;
        esac
    done
}

median() { awk '{ print $1 + $2 }' "$work/$1.times" | sort -n | sed -n "$((rounds / 2 + 1))p"; }

echo "case      call      engine   tuned  simple  /tuned /simple"
for case in loop repeat reversed; do
    rm -f "$work"/*
    for ((round = 0; round < rounds; round++)); do one_round $case; done
    for call in decoded file; do
        if [ "$(run_line $call)" = unknown ]; then
            printf '%-9s %-8s unknown to this engine\n' $case $call
            continue
        fi
        echo $case $call "$(median $call)" "$(median tuned)" "$(median simple)" |
            awk '{ printf "%-9s %-8s %7.3f %7.3f %7.3f %7.2f %7.2f\n", $1, $2, $3, $4, $5, $3 / $4, $3 / $5 }'
    done
done
