#!/usr/bin/env bash
# Counts, at a commit, the places of the code that are written in an older form, by the points of docs/DESIGN-PASS.md; with
# a second word, lists those of one point. Places are lines that a pattern finds in crates/*/src, tests left out.
set -eu
commit=${1:-HEAD}
only=${2:-}

places() {
    git grep -nP "$2" "$commit" -- ':(glob)crates/*/src/**' ':(exclude,glob)crates/*_tests/**' | sed "s/^$commit://" >/tmp/places.$$ || true
    if [ -z "$only" ]; then
        printf '%s %s\n' "$1" "$(wc -l </tmp/places.$$)"
    elif [ "$only" = "$1" ]; then
        cat /tmp/places.$$
    fi
    rm -f /tmp/places.$$
}

# 1: enums of the shape of Option or Result, numbers for refusals, results handed on by hand
places 1a 'enum (Returned|Inserted|Ended)\b|-> (Returned|Inserted|Ended)\b|(returned|ended): (Returned|Ended)\b|fn ask_(opening|staying)\(&self, _?s: &Situation\) -> u8'
places 1b '(Ok|Err|Some)\([a-z_]+\) => (Ok|Err|Some|refus|answer)|Err\([a-z_]+\) => [a-z_]+,|None => (None|Err)|Err\(_\) => '
places 1c 'let Some\(.*\) = .* else'
# 2: functions and types that differ in a type, a size or a constant
places 2 'impl Key for|fn is_(same|below)\(&self, other: &(u32|\[)|pub fn (right|phase|kind)_number|pub fn (right|phase)_of|pub fn new\(number: u32|^ +self\.ask_opening\(s\)$|fn (place_of|place_above)\b|fn (code_fits|prices_fit)\b|fn (row|answers|passing_in|passing)\b|fn (raise|lower)\b|fn price(_of)?[(<]|fn temperature_fits|Some\(home\) => Ok|[a-z]+_count: usize|smaller_first\((a|b|u32)|fn (refused|denied)\(|pub fn (opening|closing)_line|pub fn (set|drop)_(badge|lot)\(|let answer = self\.first|self\.part\.ask_|impl Purse for|const (NO_BADGE|NO_LOT|NO_ACCESS|BLANK)\b'
# 3: loops that count an index by hand
places 3 'for [a-z_]+ in [0-9a-z_]+\.\.|\.iter\(\)\.enumerate\(\)|lines \+= 1'
# 4: equality, order, conversion and printing by hand
places 4 'fn (is_same|is_below|smaller_first|same_right|right_number|right_of|phase_number|phase_of|kind_number|returned_number|answer_number|widened|prices_of|digit|number|print_line|print_entry)\b|impl Key for'
# 5: facts in many contracts, parameters that travel together
places 5a 'ensures (rule|order) \{ (self|monitor)\.new\.(rule|order)|ensures serial \{ self\.new\.next_serial|ensures returned \{ returned_number result ≡ first_applying|ensures scene \{ scene_of self\.new ≡ if_passed'
places 5b 'requires (room|place|serial|next|lot) '
places 5c 'rule: &R|sheet: usize|if rule_number_fits number'
# 6: buffers with a length beside them, parallel arrays
places 6 '(_count|count): usize|: \[[A-Za-z0-9]+; (16|64)\]'
# 7: switches on which step to run
places 7 'enum Sought|Sought::|match \*sought|match call'
# 8: files of answers and of loops' invariants, and lines of proofs
if [ -z "$only" ]; then
    printf '8 %s files of answers, %s lines of proofs and specs\n' \
        "$(git ls-tree -r --name-only "$commit" -- crates | grep -cE 'proofs/.*/(Answers|Invariants)\.antt$')" \
        "$(git ls-tree -r --name-only "$commit" -- crates | grep -E '\.antt$' | while read -r f; do git show "$commit:$f"; done | wc -l)"
fi
