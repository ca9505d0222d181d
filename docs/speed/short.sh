#!/usr/bin/env bash
# What short calls cost, in instructions that valgrind counts, alike on every run. Each part is the difference of two cases of `cases` that
# differ in one thing, so that reading a case, filling and checking the lent slice and printing the line drop out, but for a few digits of it:
#   checking   refused with 7 for repeat left 1, after all checks, less refused with 1 for a file one byte short, before any other
#   no step    the call from the file with budget 0, less the one refused with 7: beginning and ending, and the operation at pc decoded
#   decoding   the same difference over decoded operations, less that from the file
#   steps      the whole budget less budget 0; from the file also the operations decoded on the way
# The engine is the proved `cases` that `rt ci`, or `rt run` in crates/cases, leaves in crates/cases/out; ENGINE names another.
set -euo pipefail
work=$(mktemp -d)
trap 'rm -rf "$work"' EXIT
engine=$(realpath -m "${ENGINE:-$(dirname "$0")/../../crates/cases/out/cases}")
cd "$(dirname "$0")"
[ -x "$engine" ] || { echo "short: no program $engine: rt ci, or rt run in crates/cases, makes it" >&2; exit 1; }
samples=../../samples
run=16 decoded=21 lent=$((16 * 4032))

# Two literals, CLR and five MACs with two prefetches, a MAC, SAC.R to a register.
ten_operations='16 8 0 17 0 0 0 0
16 10 0 24 0 0 0 0
1 0 0 40 74 84 0 0
3 0 84 40 74 84 0 0
3 0 84 40 74 84 0 0
3 0 84 40 74 84 0 0
3 0 84 40 74 84 0 0
3 0 84 40 74 84 0 0
3 0 84 0 0 0 0 0
15 0 8 3 0 0 0 0'

# A program file of so many operations, those ten by turns: blocks of 512 bytes with their number, count and sum.
file_of() { # COUNT
    printf '%b' "$(awk -v count="$1" '
        { for (i = 0; i < 8; i++) byte[8 * (NR - 1) + i] = $(i + 1) }
        END {
            for (first = 0; first < count; first += 63) {
                n = count - first < 63 ? count - first : 63
                sum = first / 63 + n
                body = ""
                for (i = 0; i < 504; i++) {
                    b = i < 8 * n ? byte[(8 * first + i) % (8 * NR)] : 0
                    sum += b
                    body = body sprintf("\\x%02x", b)
                }
                printf "\\x%02x\\x00\\x%02x\\x00\\x%02x\\x%02x\\x00\\x00%s", first / 63, n, sum % 256, int(sum / 256) % 256, body
            }
        }' <<<"$ten_operations")"
}

# A number in 4 bytes, low byte first.
number() { printf '%b' "$(printf '\\x%02x' $(($1 & 255)) $(($1 >> 8 & 255)) $(($1 >> 16 & 255)) $(($1 >> 24)))"; }

# Bytes FIRST to LAST of the header of samples/fir.case, whose settings, memory of 2,048 words and start all cases have.
header() { head -c $(($2 + 1)) "$samples/fir.case" | tail -c +$(($1 + 1)); } # FIRST LAST

# A long case.
case_of() { # WHAT FILE BUDGET REPEAT-LEFT
    number "$(stat -c %s "$2")"
    header 4 7
    number "$3"
    header 12 103
    number "$4"
    header 108 110
    printf '%b' "$(printf '\\x%02x' "$1")"
    head -c 152 /dev/zero
    number $lent
    head -c 52 /dev/zero
    cat "$2"
    head -c 4096 /dev/zero
}

# The instructions of `cases` on a case whose line begins with these words; none where it prints another.
instructions() { # WORDS WHAT FILE BUDGET REPEAT-LEFT
    local line
    case_of "${@:2}" >"$work/case"
    line=$(valgrind --tool=cachegrind --cache-sim=no --cachegrind-out-file=/dev/null --log-file="$work/log" "$engine" <"$work/case")
    case $line in
    "$1 "*) awk '/I +refs:/ { gsub(",", "", $NF); print $NF }' "$work/log" ;;
    *) echo "short: $3 with budget $4 is to print $1, and the engine printed: $line" >&2; return 1 ;;
    esac
}

# Both calls on a file: sets `one`, `seven`, `none` and `all`, by what is called.
declare -A one seven none all
measure() { # FILE BUDGET ENDING
    head -c -1 "$1" >"$work/cut"
    for what in $run $decoded; do
        one[$what]=$(instructions "refused1 0" "$what" "$work/cut" 0 0)
        seven[$what]=$(instructions "refused7 0" "$what" "$1" 0 1)
        none[$what]=$(instructions "spent 0" "$what" "$1" 0 0)
        all[$what]=$(instructions "$3" "$what" "$1" "$2" 0)
    done
}

row() { # NAME CALL WHAT STEPS
    local begun=$((none[$run] - seven[$run])) steps=$((all[$3] - none[$3]))
    printf '| %s | %s | %d | %d | %d | %d | %d | %.1f |\n' "$1" "$2" $((seven[$3] - one[$3])) $begun $((none[$3] - seven[$3] - begun)) $steps \
        $((all[$3] - one[$3])) "$(awk -v n=$steps -v of="$4" 'BEGIN { print n / of }')"
}

rows() { # NAME FILE BUDGET ENDING STEPS
    measure "$2" "$3" "$4 $5"
    row "$1" "from the file" $run "$5"
    row "$1" decoded $decoded "$5"
}

file_of 10 >"$work/ten"
file_of 4032 >"$work/largest"
echo "| run | call | checking | no step | decoding | steps | together | a step |"
echo "|---|---|---|---|---|---|---|---|"
rows "50 steps of samples/fir.bin, 68 operations" "$samples/fir.bin" 50 spent 50
rows "ten operations, done" "$work/ten" 100 "done" 10
rows "ten steps of 4,032 operations" "$work/largest" 10 spent 10
