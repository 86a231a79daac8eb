#!/bin/sh
# Counts the places that docs/DESIGN-PASS.md speaks of, point by point, in the .rt files of a checkout: each line of
# output is a count and what it counts. With -l it prints the places too.
# usage: tools/places.sh [-l] [CHECKOUT]
list=no
if [ "$1" = -l ]; then list=yes; shift; fi
cd "${1:-$(dirname "$0")/..}" || exit 1

# say NAME PATTERN: the lines of code, comments aside, that fit the pattern
say() {
    found=$(grep -rnE --include='*.rt' "$2" crates/*/src | grep -vE '^[^:]*:[0-9]*: *//')
    printf '%4d  %s\n' "$(printf '%s' "$found" | grep -c '')" "$1"
    if [ $list = yes ] && [ -n "$found" ]; then printf '%s\n' "$found" | sed 's/^/        /'; fi
}

say '1a a refusal as a number: a field, parameter or result that holds one' '(\bno|none|missing|oneway): u16'
say '1b a refusal asked for by its number (no != 0, no == 0)' '\bno (!=|==) 0|\.no != 0'
say '1c functions that answer an Answer' '\) -> Answer\b|^-> Answer\b'
say '1d numbers of refusals as constants' 'pub const [A-Z_]+: u16 = [0-9]+;'
say '1e a flag with values beside it' '^ *(pub )?(good|more|known|overflow|star|asked|low): bool,$|orientable: u8'
say '1f a variant that says nothing, as None does' '^ *Nothing,$'
say '1g a side as a number' '\b(s|side): usize\b'
say '2a the four products by name' 'fn (fd_)?duo(pyramid|prism|tegum|comb)\('
say '2b cells of the tour as modules of constants' 'pub const (COUNTS|ENDS|INC): '
say '2c cursors set, lists copied or written number by number' 'fn (set_cursors|copy|put_key|put_list|get_row|put_row|pad|put_up_to)\b'
say '3  loops that are while or loop' '^ *(while|loop)\b'
say '4a conversion by a function of its own' 'fn (wide|bit_of|of_byte|byte|numbers|band_number|narrow|wide_byte|plain)\('
say '4b equality or least by a function of its own' 'fn (is|least|less|same_row|has_key)\('
say '4c functions that print by hand' 'rt: &impl (Print|Eprint)'
say '5a counts as a parameter or field by itself' '\b[pq]?counts: &(.a )?\[Index\]'
say '5b three slices handed on' '\b([pq]?counts|p|q), &?([pq]?ends), &?([pq]?inc)\b'
say '5c outputs that travel together' '\bcounts: &mut \[Index\]'
say '5d what a search keeps, as loose slices' 'heads: &mut \[u16'
say '6  an array with a length beside it (flag and w)' '\bw: usize'
say '7  a switch on which step to run' 'match letter|match text::letter|letter\(line, [0-9]+\) =='
