#!/bin/sh
# Lists the candidates of docs/DESIGN-PASS.md in the sources at a commit, point by point, with how many lines each search finds.
# Usage: tools/places.sh [COMMIT]     (a second argument, any, prints the lines too)
commit=${1:-HEAD}
show=$2

# One search: its label, an extended regular expression, and an optional expression for lines to leave out.
look() {
    found=$(git grep -nE "$2" "$commit" -- 'crates/*/src/*.rt' | sed "s|^$commit:||")
    [ -n "$3" ] && found=$(printf '%s\n' "$found" | grep -vE "$3")
    found=$(printf '%s\n' "$found" | grep -v '^$')
    printf '%-6s %3d\n' "$1" "$(printf '%s\n' "$found" | grep -c .)"
    [ -n "$show" ] && printf '%s\n' "$found" | sed 's/^/         /'
}

look 1a '^ *(pub(\([a-z]+\))? )?enum '
look 1b '^ +(pub(\([a-z]+\))? )?[a-z_]+: bool,'
look 1c '^ *pub fn .*-> u8$'
look 1d 'Err\((e|fault|flaw|_)\) =>'
look 1e 'kind: u(8|16)|number: u16\)'
look 2a '^ *(pub(\([a-z]+\))? )?fn (split|put)_[ui](16|32)'
look 2b '^ *(pub(\([a-z]+\))? )?fn (from_bytes|read|check|left|room_one|room_two|is_ample|holds|pools|trays|count_one|count_two|close|survivors_enough|joiners_heard)\b'
look 2c '^ *(pub(\([a-z]+\))? )?struct (Leaving|Ear)\b'
look 3a '^ *(for|while|loop)\b'
look 3b '^ *for [a-z_]+ in [^&]*\.\.|^ *for \([a-z]+, [a-z]+\) in .*enumerate|^ *while [a-z]+ [<>]'
look 4a 'fn (refusal|number|class|class_name|rank|is_higher|told|nanos)\b'
look 4b 'fn from_bytes\b|class_number|let c0 = match'
look 5a 'Sound self' '(^[^:]*:[0-9]*:ghost use)'
look 5b 'key < 2 \^ 40|InRange choice|len ≤ length records|rising 0 \(take len'
look 5c 'records: &(mut )?\[Entry<V>\], .*len: usize'
look 5d 'buffer: &mut \[u8\], (at|mut at): usize|^ +at: usize,$' 'pub'
look 5e 'class: Class, table: u16, present: u16|^ +table,$|^ +table: _,$|\*table'
look 5f 'stage: Stage, (kind|body|class)'
look 5g 'me: u8, .*choice: &Choice|^ +choice: &Choice,$'
look 5h '^ +base: u16,$|base: u16, replies|^ +base,$'
look 5i 'number: u32, station: u8'
look 6a "^ +(pub )?[a-z]+: (&'a (mut )?)?\[[A-Za-z<>]+(; [0-9]+)?\],"
look 6b '&Vec<|&mut Vec<'
look 7a 'match roll|trait Trim|Trim<'
