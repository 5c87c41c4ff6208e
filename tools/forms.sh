#!/bin/sh
# Looks through the code for places where an older form may stand, one search for each kind of form, and prints how many
# lines each search finds; with -l the lines too. docs/DESIGN-PASS.md tells what became of them.
cd "$(dirname "$0")/.." || exit 1
lines=$1

# lines of code, without comments, that match
search() {
    found=$(grep -rnE "$2" crates/*/src | grep -vE '^[^:]*:[0-9]+: *//')
    printf '%s: %s\n' "$1" "$(printf '%s' "$found" | grep -c .)"
    [ "$lines" = -l ] && printf '%s\n' "$found"
}

search '1a enums' 'pub enum '
search '1b results taken apart by hand' '(Ok|Err)\([a-z_()]*\) =>'
search '1c a refusal beside a value' '(refused|ended): Option<Refusal>'
search '1d questions that answer an Option of a refusal' 'fn (first_refusal|question)\b'
search '1e an enum turned into its number or back' 'fn (number|named)\(|self as u8'
search '2a what a refused object answers, written out' 'match (&|&mut )?self\.(refused|made)|self\.refused\.is_some|self\.made(\.as_ref|$)'
search '2b a constant and a function for it' '(const|fn) (POOL|WRITES|READS|pool_size|write_size|read_size)\b'
search '2c makers of a machine, and its parts written out' 'StepMachine::new|PhantomData[,:]'
search '2d questions that a protocol does not ask' '(None|Ok\(\(\)\)) // it asks nothing'
search '2e a mark into a content' 'u16::from\((proposal|mark)\) \+ 1|2 \* u16::from\(mark\) \+ '
search '3a loops' '\b(for .* in|while|loop)\b'
search '3b an index, and a test before it' '[a-z_]\[[a-z][^]]*\]( |;|\)|,|\.)'
search '3c calls written out one by one' '(write_register\(5|stations: [0-9]+ \}\.limit\()'
search '4a conversions' ' as u(8|16|32|size)\b|/ 256|% 256|256 \*'
search '4b a case recognized, or taken out, by a function' 'fn (is_away|goes_on|access_word|outcome_word|mark_of)\('
search '4c printing' 'fn put(_line|_step|_words|_word|_bytes|_number)?\b'
search '4d records made of rows' 'Record::(Away|UnderWay|Answered) *(,|\{ proposal, steps \}|\{$)'
search '5a what holds of every object that was made' '(Reached|Standing|Begun|Does)\b.*(→|D\.Deciding)'
search '5b the same schedule' 'ensures same \{.*schedule'
search '5c room in a listing' 'requires \{ (at|48|self\.old\.end) '
search '5d a station and its proposal' '_?station: u8,( _?proposal: u8)?$|_?station: u8, _?proposal: u8'
search '6a a slice with a position beside it' '\bat: usize'
search '6b two bytes of a slice by hand' 'at \+ 1'
search '7a a match on what to run' 'match (\*phase|pile|command|call|plan)\b'
