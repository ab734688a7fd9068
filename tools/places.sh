#!/usr/bin/env bash
# Counts the places of docs/DESIGN-PASS.md in crates/*/src, point by point: `tools/places.sh` prints the counts, `tools/places.sh -v` the
# places too.
set -uo pipefail
cd "$(dirname "$0")/.."
verbose=${1:-}
src() { find crates/*/src -name '*.rt' | sort; }
# Each contract in one line: a function's lines up to its body, so that a fact is counted once for each function.
contracts() {
    src | xargs awk '
        function done() { if (head != "") print file ":" head; head = "" }
        FNR == 1 { done(); file = FILENAME }
        /^ *(pub )?(extern "C" )?fn / { done(); head = FNR ":" }
        head != "" { line = $0; sub(/^ +/, " ", line); head = head line }
        /^ *\{ *$/ || /\{ *$/ && head != "" && !/requires|ensures/ { done() }'
}
count() {
    local title=$1 places
    places=$(cat)
    printf '%-62s %s\n' "$title" "$(printf '%s' "$places" | grep -c .)"
    [[ $verbose == -v ]] && printf '%s\n' "$places" | grep . | sed 's/^/    /'
    return 0
}
lines() { src | xargs grep -nE "$1" | grep -vE ':[0-9]+: *//' | count "$2"; }
fact() { contracts | grep -aE "$1" | cut -c1-150 | count "$2"; }
names() { src | xargs grep -ohE '\bfn \w+' | sort; }

echo "1. Own enums, flags with a value beside them, numbers for kinds and refusals"
lines '^(pub )?enum ' 'own enums'
lines '^ +(pub )?(present|cached|hit|certified|complete|on|ended|sizing|unchanged): bool,' 'flags with a value beside them'
lines '(kind|action|mark|hashkind) (==|!=) [0-9]|row\[0\] ==|action ==' 'comparisons with the number of a kind'
lines 'reply: [0-9]+|Refused\([0-9]+\)|End\([0-9]+,|Reply\([0-9]+\)|no_records\([0-9]|end_step\(k, [0-9]|refused\(len, [0-9]|end\(s, \w+, k, p, [0-9]|reply (==|!=) 0' 'numbers of refusals'
echo "2. Twins"
names | uniq -d | count 'names of functions that more than one place defines'
names | sed -E 's/[0-9]+$//' | sort | uniq -d | while read -r f; do names | grep -E "^$f[0-9]+$"; done | count 'functions whose names differ only in a number'
echo "3. Loops"
lines "^ *('\w+: )?(while|loop)\b" 'while and loop'
echo "4. Written by hand"
lines '\bfn (wide|min|max|choice|flag|flag_value|sign_case_of|reply_of|missing_of|row_at|store_row)\b' 'conversions and choices that the library has'
lines '\bfn (bytes_equal|magic_matches|answers_agree|is_repeated_line|is_unchanged|all_within)\b' 'comparisons'
lines '\bfn (header_from|read_answer_numbers|answer_numbers|store_classes_answer|make_\w+|no_(records|record|name|search|rows|change)|first_pass|miss|hit)\b' 'conversions and empty values'
lines '\bfn print_\w+' 'printing'
echo "5. Facts and parameters that repeat"
fact 'at ≤ length s\.now' 'contracts with: the offset is in the dump'
fact 'HasCapacity|HasRoom' 'contracts with: the output has room'
fact 'ValidBits' 'contracts with: W is 32 or 64'
fact 'WidthsLe8|n ≤ 8|w ≤ 8' 'contracts with: widths are at most 8'
fact 'TablesGood|good_header .* ≡ true|first_bad .* ≡ N' 'contracts with: the tables are good'
fact 'IndexHolds' 'contracts with: the class index holds'
fact 'AllNumbersInBounds' 'contracts with: the numbers of all rows are in bounds'
fact 'CursorInBounds|CursorValid' 'contracts with: the cursor is in bounds'
fact 'PassHolds|TallyHolds|ListHolds' 'contracts with: the pass holds'
fact 's: &\[u8\], *at: usize' 'functions over (s, at)'
fact 'out: &mut \[u8\], *at: usize' 'functions over (out, at)'
fact 'rows: &\[u64\], *refs: &\[u64\], *names: &\[u8\]|names: &\[u8\], *refs: &\[u64\], *rows: &\[u64\]' 'functions over (rows, refs, names)'
fact 'certified: bool' 'functions over (buckets, certified)'
fact 'class: u64, *mark: u64' 'functions over (class, mark)'
fact 'cache: Cache, *origin: Origin' 'functions over (cache, origin)'
echo "6. A place and a length beside a slice"
fact '(place|first|from|at): usize, *(n|count|len|end): (usize|u64)' 'functions over a place and a length'
echo "7. Switches on a step"
lines 'action ==|p\.sizing|if certified|s\.ended|\.on\b' 'switches on a number or a flag'
echo "8. Proofs"
find crates/*/proofs -name '*.antt' | xargs grep -nE '^\S+ c( κs)? = search rules$' | count 'answers that are search alone'
find crates/*/proofs -name 'Proof.antt' | count 'proofs in the form of before'
