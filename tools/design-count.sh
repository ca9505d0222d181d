#!/usr/bin/env bash
# The places of docs/DESIGN-PASS.md, counted over the sources: a line for each command, its name and its count. With a name it prints the lines themselves.
set -euo pipefail
cd "$(dirname "$0")/.."
src() { grep -rnE "$1" crates/*/src --include='*.rt' || true; }
listed() {
    case $1 in
        1a) src '^(pub )?enum (Decoded|Verdict|Answer|Combined|Exact|Change)\b' ;;
        1b) src '^\s+pub (trap|writes|counted|refusal): ' ;;
        1c) src '\) -> u8' | grep -E 'trap|refusal|fn first\(|limit|settle|step' ;;
        1d) src 'io::Result<bool>' ;;
        1e) src '\b(which|kind|what|call|rule|form|back|k) (==|!=|<|<=) ([0-9]+|[A-Z]{3,})\b|\b[0-9]+ (<|<=) (which|kind|back|form|k)\b' ;;
        1f) src 'usize::MAX|return 256|^        16$|register == 15|register: 15' ;;
        2) tmp=$(mktemp -d)
           for f in $(find crates -path '*/src/*.rt' -not -path '*/out/*'); do cp "$f" "$tmp/$(echo "$f" | tr / _ | sed 's/rt$/rs/')"; done
           duplicates --repo "$tmp" --most 200 --min-lines 5 | grep -E '^D[0-9]' || true
           rm -rf "$tmp" ;;
        3) src '^\s*while ' ;;
        3b) src '^\s*loop \{' ;;
        4) src 'fn (is_same|is_plain|is_repeat|reads|is_onward|is_elsewhere|refusal_of|trap_of|ending_of|digit|decimal|last_digit|hex_digit|put_digits|name_length|action_byte|action_of|target_byte|target_of|write_back_byte|write_back_of|post_byte|post_of|word_from|word|two_bytes|four_bytes|long|low16|low_word|number|bytes|code|name|append_[a-z_]*)\(' ;;
        5a) grep -rhoE '^\s*requires [a-z_0-9]* ?\{ .* \}$' crates/*/src --include='*.rt' | sed -E 's/^\s*requires [a-z_0-9]* ?\{ (.*) \}$/\1/' | sort | uniq -c | awk '3 <= $1' | sort -rn ;;
        5b) for f in $(find crates -path '*/src/*.rt' -not -path '*/out/*'); do
               awk -v file="$f" '/^ *(pub )?fn /{s="";on=1} on{s=s $0; if ($0 ~ /\)( ->|$| \{)/ || $0 ~ /^\)/){n=gsub(/: /,": ",s); r=s; sub(/\).*/,"",r); k=gsub(/: /,"",r); if (7<=k) print file": "k": "s; on=0}}' "$f" | cut -c1-120
            done ;;
        6a) src '&mut \[u8; LINE\], at: usize' ;;
        6b) src 'starts: |passes: |budgets: |restarts: |boards: \[Board; 8\], count' ;;
        7) src 'fn case_of|rule: u8|what ==' ;;
        8) find crates -path '*/proofs/*' -name '*.antt' -not -path '*/out/*' -print0 | xargs -0 cat ;;
    esac
}
if [ $# = 1 ]; then listed "$1"; exit; fi
for p in 1a 1b 1c 1d 1e 1f 2 3 3b 4 5a 5b 6a 6b 7 8; do printf '%-3s %s\n' "$p" "$(listed "$p" | wc -l)"; done
