#!/bin/sh
# Lists the lines of src/ among which the places of docs/DESIGN-PASS.md are found, point by point, with their count.
# Run it at the top of the repository. `tools/design_places.sh -c` prints the counts alone.

look() {
    title=$1
    shift
    found=$(grep -rnE "$@" crates/*/src | sort)
    printf '%4d  %s\n' "$(printf '%s' "$found" | grep -c .)" "$title"
    [ "$quiet" = -c ] || printf '%s\n\n' "$found"
}

quiet=$1
echo '1. Options, results, flags, codes'
look 'enums'                                      '^ *(pub(\(crate\))? )?enum '
look 'functions that answer a bool'               -e '-> bool'
look 'fields and parameters that are a bool'      '^ *(pub(\(crate\))? )?[a-z_]+: bool'
look 'functions that hand out a small number'     -e '-> u8( |$)'
look 'arms that take an Option or a Result apart' '^ *(None|Some\(.*\)|Err\(.*\)|Ok\(.*\)) =>'
look 'returns of an absence or a refusal'          '^ *return (None|Err\(.*\)|Ok\(.*\));'
echo '2. Twins'
look 'functions named by an axis'                 'fn ([a-z_]*_[xy]|across|upright|columns|rows)\b'
look 'closed spans, boxes, points on a panel'     'fn (span_of|box_of|has|lacks_point|lacks_layer|between)\b'
look 'theorems at one amount'                     'fn [a-z_]*_for_[a-z_]*\('
echo '3. Loops'
look 'while and loop'                             '^ *(while|loop)\b'
look 'for over a range of numbers'                '^ *for .* in .*\.\.'
look 'numbers counted up by one'                  '(\+= 1;|= [a-z_.]+\.wrapping_add\(1\))'
echo '4. Equality, order, copying, conversion, printing'
look 'derives'                                    '#\[derive\('
look 'impls of std traits'                        '^impl.* (From<.*>|TryFrom<.*>|fmt::Display|Default|PartialEq|Ord|Iterator) for '
look 'own words for a test, an order, a text'     'fn (less|spells|level_word|read_verb|of|letter|at_most)\b'
echo '5. Facts and parameters that travel together'
look 'parameters width, height, half, pad'        '(width|half): u(16|32), (height|space): u(16|32)'
look 'premises of functions'                      '^ *requires'
echo '6. Buffers, parallel arrays, searches'
look 'lent lists'                                 "&('[a-z]+ )?mut \[[A-Za-z]"
look 'lengths and places as fields'               '^ *(pub(\(crate\))? )?(len|count|next|last): (usize|u16)'
echo '7. Switches'
look 'flags tested to choose a step'              'if (ascending|more|money|plain|short|self\.more)\b'
