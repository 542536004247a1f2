#!/bin/sh
# Counts the places that docs/DESIGN-PASS.md is about, as they stood at a commit: tools/places.sh COMMIT; with a second word, as in
# tools/places.sh COMMIT 3a, it lists the places of that line.
set -eu
commit=$1
only=${2:-}
sources='crates/*/src/*.rt'

places() { # NAME PATTERN WHAT
    found=$(git grep -nE "$2" "$commit" -- "$sources" | sed "s/^$commit://" || true)
    if [ -z "$only" ]; then
        printf '%-4s%5d  %s\n' "$1" "$(printf '%s' "$found" | grep -c . || true)" "$3"
    elif [ "$only" = "$1" ]; then
        printf '%s\n' "$found"
    fi
}

refusals='NONE|SHORT_BUFFER|BAD_SETTING|BAD_STATE|WRONG_LENGTH|ENTRY_OUTSIDE|NO_SUCH_ITEM|VALUE_OUTSIDE|DOES_NOT_FIT|TOO_MANY_DECIMALS'
refusals="$refusals|OVER_SIX_CHARACTERS|NO_NUMBER|LINE_ERROR|WRONG_BCC|UNDER_TWO|UNKNOWN_IDENTIFIER|READ_ONLY|OUT_OF_RANGE"
refusals="$refusals|WRONG_FRAME_LENGTH|WRONG_CRC|OTHER_ADDRESS|WRONG_LINE|WRONG_LRC|UNKNOWN_FUNCTION|WRONG_REGISTER|WRONG_DATA"
refusals="$refusals|NOT_BELONGING|UNKNOWN_POLLED|NOT_AWAITED|LIST_ENDED|TIMED_OUT|NO_ROOM|BAD_CAPTURE|NO_SUCH_FRAME"
phases='REST|FIRST_DIGIT|SECOND_DIGIT|ADDRESSED|ONE_CHARACTER|TWO_CHARACTERS|WAITING|TEXT|BCC_DUE|ANSWERED|UNKNOWN_PHASE'

places 1a '^ *(pub )?enum ' 'enums of its own'
places 1b "const ($refusals): u" 'constants that are the number of a refusal'
places 1c "const ($phases): u8" 'constants that are the number of a phase'
places 1d '^ *(pub |pub\(crate\) )?fn .*(fault|check|start|put|refusal|play|write_one|write_several|number)\(.*-> u8' 'functions that give back a number, 0 for none'
places 1e '^ *(pub )?(number: u8|more: bool|answered: bool),' 'fields that are a number or a flag beside a value'
places 1f '(fault|number|first) (==|!=) (NONE|0)\b' 'tests of a number for none'
places 1g '[0 ]is handed back\.|, 0 (where|without)|; 0 without' 'comments that give 0 a meaning of its own'
places 3a '^ *(while |for [a-z_]+ in [0-9a-z]+\.\.)' 'loops that count an index'
places 3b '^ *(while |loop |for )' 'loops of any kind'
places 4a '(%|/|\*) \(?(256|65536|0x1_0000_0000)|4294967296|32768' 'numbers taken apart or put together by arithmetic'
places 4b "b'0' <= |b'0' \+|ZERO_DIGIT|c - b'0'" 'characters told apart or made by arithmetic'
places 4c '(fn|^ *if).*(mark|minus)\b.*\{ 1 \} else \{ 0|!= 0$|<= measured \{ 1 \}' 'truths as numbers by hand'
places 4d '^ *(show::)?(text|chars|reply|state|buffer)\[[0-9a-z +*]+\] = ' 'bytes copied or stored one by one'
places 5a 'requires \{.*(least_buffer ≤ length|Ready reply)' 'a reply buffer that has room, as a clause'
places 5b 'requires \{.*decimals ≤ most_decimals' 'decimals that are few, as a clause'
places 5c 'requires \{.*width ≤ most_width|requires \{.*most_width' 'a width that is small, as a clause'
places 5d 'requires \{.*length state\.(now|old) ≡ state_bytes' 'a state of 24 bytes, as a clause'
places 5e 'requires \{.*most ≤ length bytes' 'room for the bytes of a line, as a clause'
places 5f 'requires \{.*start \+ length bytes.now / 2 ≤ map_size' 'registers within the map, as a clause'
places 5g 'requires \{ InStep' 'table and marks in step, as a clause'
places 5h '\(table: &(mut )?\[i32\], reply: &(mut )?\[u8\], address: u8' 'table, buffer and address side by side'
places 5i 'reply: &mut \[u8\], structure: u8' 'buffer and line structure side by side'
places 5j 'capture: &\[u8\], end: usize' 'a capture and a place in it side by side'
places 6a '^(pub )?const [A-Z]+: \[[a-z0-9]+; LINES\]' 'columns of the item list'
places 6b '(table|settled): &mut \[(i32|bool)\], settled: &mut \[bool\]' 'a table and its marks as two arrays'
places 7a '(shown|bare|as_text): bool' 'flags that choose a step'
if [ -z "$only" ]; then
    answers=$(git grep -hE '^pub .* : goal\.' "$commit" -- 'crates/*/proofs/*.antt' | wc -l)
    lines=$(git ls-tree -r --name-only "$commit" crates | grep '/proofs/.*\.antt$' | while read -r f; do git show "$commit:$f"; done | wc -l)
    sources=$(git ls-tree -r --name-only "$commit" crates | grep '/src/.*\.rt$' | while read -r f; do git show "$commit:$f"; done | wc -l)
    printf '8a  %5d  answers and invariants in proofs/\n8b  %5d  lines of proofs/\n8c  %5d  lines of src/\n' "$answers" "$lines" "$sources"
fi
