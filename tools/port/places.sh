#!/bin/sh
# Counts the places that docs/DESIGN-PASS.md speaks of, in a checkout: sh tools/port/places.sh [DIR]
cd "${1:-.}" || exit 1
SRC='crates/*/src/*.rt'
KINDS='BILL|PAYMENT|RETURNED_PAYMENT|FEE|DEPOSIT_ASKED|DEPOSIT_PAID|DEPOSIT_MOVED|PAYOUT|CERTIFICATE|APPROVAL|ARRANGEMENT|FINAL_NOTICE|CALL|DISCONNECTION|RECONNECTION|CLOSING'
lines() { printf '%5d  %s\n' "$(cat | wc -l)" "$1"; }
src() { grep -nE "$2" $SRC | lines "$1"; }
proofs() { find crates -path '*/proofs/*' -not -path '*/out/*' -name "$1"; }

src '1 own enums shaped as Option or Result' '^(pub )?enum (Answer|Billed|Amount|Truth|Outcome|Printed)\b'
src '1 numbers for kinds' "^pub const ($KINDS): u8 = [0-9]+;"
src '1 lines that ask for a kind by its number' "(== |!= |< )($KINDS)\\b|^ +($KINDS)( \\| [A-Z_]+)* =>"
src '1 functions that answer a number as u8' '\) -> u8$|\) -> Result<.*, u8>$'
src '1 lines that make a refusal of a number' 'select8\(.*, [0-9]+, |return [0-9][0-9]?;|Refused\([0-9n]|Stopped\(n'
src '2 uses of a select for each type' '\bbasics::select(8|64)|select_service\(|fn select'
src '2 load, store, ok, change of a part' 'fn (load|store|ok|change)\('
src '2 numbers in bytes, by their width' 'fn (get|get4|get8|put|wide|wide32)\('
src '2 what tells an answer, by its type' 'fn told_|fn (amount|truth|answer)?_?word(_of)?\(|fn amount_word|fn truth_word|fn word_of'
src '2 measuring and storing the same words' 'fn (word_length|put_word|line_length|put_line|put_money|put_state|difference_width|put_difference)'
src '2 constants of Fields' '^const [A-Z_]+: Fields'
src '3 loops by hand' '^ *(while|loop)\b'
src '4 helpers that the library has' 'basics::(wide|plus|minus_or_zero|lesser|greater)\(|wide32\(|wide\(b|rules::within\('
src '4 tests by a match of each variant' 'match self \{|match s \{'
src '5 contracts with the length of words' 'requires.*length (w|m)\.(now|old) ≡ [a-z_]+_size'
src '5 contracts that a book passed' 'requires.*book_refusal b.now ≡ 0'
src '5 contracts that memory passed' 'requires.*Fit m\.'
src '5 contracts that an event is in range' 'requires.*WellFormed e'
src '5 contracts that a number is the charge of the event' 'requires.*charge ≡ min \(charge_of'
src '5 spans of an account cut out to be read' '&(self\.words|m)\[[A-Z]+\.\.[A-Z]+\]'
src '5 parameter lists with the five slices of a list' 'counts: &(.a )?(mut )?\[u32\],'
src '5 parameter lists with output and the place in it' 'out: &mut \[u8\], p: usize'
src '5 parameter lists with class and usage' 'class: u8, usage: u64'
src '6 parallel slices' 'kinds: &(.a )?(mut )?\[u8\]'
src '6 parallel tables' 'const [A-Z_]+: \[u64; CLASSES\]|SCHEDULES: \[\['
src '7 switches on the kind' 'if e\.kind|if (e\.is|table::looks|concerns)\(|if \(e\.kind|match k \{|match kind|match Kind::'
proofs Answers.antt | lines '8 files of answers'
proofs Answers.antt | xargs grep -hE '^pub ' | lines '8 answers'
proofs '*.antt' | xargs cat | lines '8 lines of proofs'
