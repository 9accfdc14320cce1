#!/bin/sh
# Lists where the sources might use an older form than Rattle has today: one search for each point of
# docs/DESIGN-PASS.md. Which of these lines are places that should change is judged there, by eye.
# Usage: tools/count_places.sh [POINT]     a number from 1 to 8; all of them without one
cd "$(dirname "$0")/.." || exit 1

files() { find crates -name out -prune -o -path '*/src/*.rt' -print | sort; }

search() { # title, pattern
    found=$(files | xargs grep -nE -- "$2")
    echo "== $1: $(printf '%s' "$found" | grep -c '')"
    printf '%s\n' "$found"
}

one() {
    search '1 enums' '\benum [A-Z]'
    search '1 flags' '-> bool'
    search '1 numbers as results' '-> (u8|u32|u64|usize|\(u32, u64\)|(Option|Result|io::Result)<(u8|u32|u64|usize)\b)'
}
two() {
    search '2 functions' '^ *(pub(\(crate\))? )?(const )?(extern "C" )?fn '
    search '2 types' '^ *(pub(\(crate\))? )?(struct|enum|trait) '
}
three() { search '3 loops' '^ *(while|for|loop)\b.*\{$'; }
four() {
    search '4 conversions by cases or by field' '^ *fn (number|from_number|message|same|cause|role_word|role_number|tag_[a-z]+|decimal_digit|digit_[a-z]+|command_named|last_sixteen)\b|^ *pub(\(crate\))? fn (number|from_number|message|same|cause|role_word|role_number|tag_[a-z]+|as_array)\b|: words\.x0|words\.x0 ='
    search '4 impls by hand' '^impl(<.*>)? [A-Za-z:]+(<.*>)? for '
}
five() {
    echo "== 5 facts that clauses ask for"
    files | xargs grep -hoE 'requires( [a-z_]+)? \{.*\}' | sort | uniq -c | sort -rn
    search '5 parameters that travel' '(number: u32|count: u64|role: u8|stays: (bool|u8)|heap: Global|rt: &HostRuntime|nonce: &\[u8; 16\])'
}
six() { search '6 lent memory and lengths' '(out: &mut \[u8(; [0-9]+)?\]|len: usize|at: usize|at: u8)'; }
seven() { search '7 switches' '^ *match |\b(dyn|impl Fn|Fn\(|FnMut|FnOnce)\b'; }
eight() {
    echo "== 8 answers in each crate: clauses answered, lines"
    for crate in crates/*/; do
        answers=$(find "$crate" -name out -prune -o -name Answers.antt -print -o -name Invariants.antt -print)
        [ -n "$answers" ] || continue
        echo "$(basename "$crate"): $(printf '%s\n' $answers | xargs cat | grep -cE '^(abbrev )?pub [^:]* : goal\.'), $(printf '%s\n' $answers | xargs cat | wc -l)"
    done
}

case "${1:-}" in
    1) one ;; 2) two ;; 3) three ;; 4) four ;; 5) five ;; 6) six ;; 7) seven ;; 8) eight ;;
    '') one; two; three; four; five; six; seven; eight ;;
    *) echo "usage: tools/count_places.sh [1-8]" >&2; exit 1 ;;
esac
