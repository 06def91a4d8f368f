#!/bin/sh
# The candidates for each point of docs/DESIGN-PASS.md in the sources, one a line, each point under its heading with the
# number of lines. Which of them are places the page says. Run at the top of a checkout.
files=$(git ls-files 'crates/*/src/*.rt')
code=$(git ls-files 'crates/*/src/*.rt' | grep -v -e _tests/ -e /tests)

show() {
    echo "== $1: $(printf '%s' "$2" | grep -c .)"
    [ -z "$2" ] || printf '%s\n' "$2"
}

show "1 answers that may stand for a refusal, and enums" \
    "$(grep -nE '^ *(pub )?enum |-> Option<' $code)"
show "1 numbers with a meaning of their own" "$(grep -nE '\b0 where|\b0 is no|are 0 before' $code)"
show "2 functions whose name stands in several places" \
    "$(grep -nE "fn ($(grep -ohE '\bfn [a-z_0-9]+' $code | sed 's/fn //' | grep -v '^fmt$' | sort | uniq -d | paste -sd'|'))\b" $code)"
show "2 constants that name a blank value" "$(grep -nE '^const [A-Z_]+: [A-Z][A-Za-z]+ = [A-Z]' $files)"
show "3 counted loops and counters" "$(grep -nE '\bfor [a-z_]+ in [a-z0-9_().]+\.\.|\bwhile [a-z]+\.len|[a-z] \+= 1;' $files)"
show "4 orders, conversions and texts" \
    "$(grep -nE 'fn (precedes|is_before|is_earlier|of_[a-z_]+|plural|letter|from_letter|number|[a-z]+_fields|fmt)\b' $files)"
show "5 parameters and fields that may belong together" \
    "$(grep -nE '(reference: Reference|orders: &(.o )?FoundOrders|prices: &?S|last_sale: Option|previous_close: u32|(low|high): u32|head: Head)' $code)"
show "6 arrays, counts and lent slices" \
    "$(grep -nE '\[[A-Za-z0-9]+; [A-Z0-9_]+\]|count: usize|&mut \[' $code)"
show "7 functions as values, and matches on a rule" "$(grep -nE '\bfn\(|dyn |Box<|match [a-z.]*rule' $code)"
show "8 answers" "$(git ls-files 'crates/*/proofs/*Answers.antt')"
show "8 lemma files" "$(git ls-files 'crates/*/proofs/*.antt' | grep -v -e Answers -e Invariants -e Lib.antt)"
