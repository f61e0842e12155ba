# shellcheck shell=sh disable=SC2016,SC2059,SC2154 # texts in single quotes are for other programs, some are formats; ./run sets the names
# Texts that are converted and texts that are refused, by ./manifest convert and by ./schedule.

outside='the text is outside the notation or its limits'
mkdir "$room/texts"

# NAME FORMAT: a text, in the file "$text"
text() {
    text=$room/texts/$1.pp
    printf "$2" >"$text"
}

# NAME NUMBER PLACE SAID: both commands refuse the text so, and say this
both_refuse() {
    call "$manifest" convert "$text"
    refuses "convert_$1" '' "$4"
    call "$schedule" desk "$text"
    refuses "schedule_$1" "refused $2 at $3
" "$4"
}

# NAME FORMAT PLACE LINE:COLUMN SHOWN MARGIN: a text that is refused 24 at the place; that line is shown, with a caret behind the margin
outside_at() {
    text "$1" "$2"
    both_refuse "$1" 24 "$3" "$text:$4: $outside
    $5
    $6^"
}

# NAME FORMAT PLACE LINE:COLUMN SHOWN MARGIN: the same for a text that ends too early
ends_at() {
    text "$1" "$2"
    both_refuse "$1" 24 "$3" "$text:$4: $outside: it ends here, where more must follow
    $5
    $6^"
}

# COUNT TEXT: the text so many times
repeat() { awk -v count="$1" -v text="$2" 'BEGIN { while (0 < count--) printf "%s", text }'; }

# ---- Where the fault is

outside_at sign '$fee = 40\n$x = = 3\n$y = 1\n' 15 2:6 '$x = = 3' '     '
outside_at first_byte '}\n' 0 1:1 '}' ''
outside_at first_line '$fee 40' 5 1:6 '$fee 40' '     '
outside_at no_line_feed '$fee = 40\n$x = )' 15 2:6 '$x = )' '     '
outside_at tabs '$fee = 40\n\tif\t$x { ]\n' 19 2:10 '	if	$x { ]' '	  	     '
outside_at crlf '$fee = 40\r\n$x = ]\r\n$y = 1\r\n' 16 2:6 '$x = ] ' '     '
outside_at open_string "\$a = 1\n\$b = 'x\n\$c = 2\n" 12 2:6 "\$b = 'x" '     '
outside_at utf8 "\$b = 'Z\303\274ri' ]\n" 13 1:14 "\$b = 'Züri' ]" '            '
outside_at control '$b = 1 # \033[2J\000\n$c = \001' 20 2:6 '$c = ?' '     '
outside_at escape "\$b = '\033[1m\\\\x' \n" 5 1:6 "\$b = '?[1m\\x' " '     '
outside_at capital '$feeBar = 1\n' 4 1:5 '$feeBar = 1' '    '

# ---- Long lines: a part is shown

text long_before "$(repeat 20 '$a = 1 ')]$(repeat 20 ' $b = 2')"
both_refuse long_before 24 140 "$text:1:141: $outside
    ...$(repeat 20 '$a = 1 ' | tail -c 60)]$(repeat 20 ' $b = 2' | head -c 59)...
    $(repeat 63 ' ')^"
text long_behind "\$a = ] $(repeat 30 '$b = 2 ')"
both_refuse long_behind 24 5 "$text:1:6: $outside
    \$a = ] $(repeat 30 '$b = 2 ' | head -c 113)...
         ^"
text long_utf8 "\$a = '$(repeat 40 'ü')' ]"
both_refuse long_utf8 24 88 "$text:1:89: $outside
    ...$(repeat 29 'ü')' ]
    $(repeat 34 ' ')^"

# ---- The text's end

ends_at end_feed 'node a {\n  $x = 1\n' 18 3:1 '' ''
ends_at end_no_feed 'node a {\n  $x = 1' 17 2:9 '  $x = 1' '        '
ends_at end_crlf 'node a {\r\n' 10 2:1 '' ''
ends_at end_one_word 'x' 1 1:2 'x' ' '

# ---- Lines and lengths

text past_255 "$(repeat 256 '\\n')\$x = 1\n"
both_refuse past_255 25 261 "$text:257:6: a constant stands past line 255, where the first line is line 0
    \$x = 1
         ^"
text text_long ''
repeat 65536 ' ' >"$text"
both_refuse text_long 24 0 "$text: the text is longer than 65,535 bytes"
repeat 100000 '$' >"$text"
both_refuse text_longer 24 0 "$text: the text is longer than 65,535 bytes"
repeat 65535 '$' >"$text"
both_refuse full_first_byte 24 0 "$text:1:1: $outside
    $(repeat 120 '$')...
    ^"
repeat 5000 '$x=1 ' >"$text"
both_refuse result_long 24 0 "$text: the tagged form of this text is longer than 65,535 bytes"
{ printf '# ' && repeat 65533 x; } >"$text"
call "$manifest" convert "$text"
printf '\001\000\000' >"$room/nothing"
prints convert_full "$room/nothing"

# ---- Names of files

mkdir "$room/a folder"
text='a folder/-a text.pp'
printf '$x = ]\n' >"$room/$text"
call sh -c 'cd "$1" && exec "$2" convert "$3"' sh "$room" "$manifest" "$text"
refuses name_with_spaces '' "$text:1:6: $outside
    \$x = ]
         ^"
call sh -c 'cd "$1/a folder" && exec "$2" convert -- "-a text.pp"' sh "$room" "$manifest"
refuses name_with_dash '' "-a text.pp:1:6: $outside
    \$x = ]
         ^"
call sh -c 'cd "$1/a folder" && exec "$2" desk "-a text.pp"' sh "$room" "$schedule"
refuses schedule_name_with_dash 'refused 24 at 5
' "-a text.pp:1:6: $outside
    \$x = ]
         ^"

# ---- Schedules of texts

text desk '$fee = 40\nnode desk { kiosk { front:\n  price => $fee - 15 } }\n'
call "$manifest" convert -o "$room/desk" "$text"
call "$schedule" desk "$room/desk"
cp "$out" "$room/desk.schedule"
printf 'kiosk front price 25 3 0,1,2\nsteps 2\n' >"$room/expected"
prints schedule_converted "$room/expected"
call "$schedule" desk "$text"
prints schedule_text "$room/desk.schedule"
call sh -c '"$0" desk /dev/stdin <"$1"' "$schedule" "$text"
prints schedule_input "$room/desk.schedule"
printf 'steps 0\n' >"$room/expected"
text empty ''
call "$schedule" desk "$text"
prints schedule_empty "$room/expected"

# ---- The compile refuses: line and column of the token that became the field concerned

# NUMBER: the reason in words
words() {
    case $1 in
    8) echo 'a defined name is defined again, or is a built-in type' ;;
    9) echo "the class or type is unknown, or a resource's type is not built in" ;;
    11) echo 'a parameter is unknown' ;;
    12) echo 'a parameter has neither value nor default' ;;
    13) echo 'the variable has no value in any scope tried' ;;
    14) echo 'the variable has a value in this scope already' ;;
    15) echo 'an operand, condition or title is of the wrong kind' ;;
    16) echo 'the result is outside 64 bits' ;;
    17) echo 'the divisor is zero' ;;
    18) echo 'no pattern of a selector matches' ;;
    19) echo 'the resource or attribute read is not in the catalog' ;;
    20) echo 'type and title are already in the catalog' ;;
    21) echo 'an attribute is named twice in one body' ;;
    esac
}

# NAME NUMBER LINE:COLUMN FORMAT: the text, which has no @, is refused for desk at the byte where the @ stands
refused_at() {
    name=$1 number=$2 line=${3%:*} column=${3#*:}
    text "$name" "$4"
    LC_ALL=C awk 'BEGIN { RS = "@" } NR == 1 { printf "%s", $0 }' "$text" >"$room/head"
    tr -d @ <"$text" >"$room/plain" && mv "$room/plain" "$text"
    shown=$(sed -n "${line}p" "$text") margin=$(sed -n "${line}p" "$room/head" | tr -c '\t\n' ' ')
    call "$schedule" desk "$text"
    refuses "compile_$name" "refused $number at $(wc -c <"$room/head" | tr -d ' ')
" "$text:$line:$column: $(words "$number")
    $shown
    $margin^"
}

# operands and operators
refused_at whole_operand 13 3:26 '$fee = 40\nnode desk {\n kiosk { front: price => @$nix }\n}\n'
refused_at left_operand 13 2:6 '$fee = 40\n$x = @$nix - $fee\n'
refused_at right_operand 13 2:13 '$fee = 40\n$x = $fee - @$nix\n'
refused_at inner_operand 13 2:24 '$fee = 40\n$x = ($fee - 1) / (2 + @$nix) - 3\n'
refused_at operand_of_not 13 1:7 '$x = !@$nix\n'
refused_at unlike_operand 15 2:13 '$fee = 40\n$x = $fee + @true\n'
refused_at operator 15 2:11 '$fee = 40\n$x = $fee @- 1 and true\n'
refused_at inner_operator 15 1:13 '$x = 1 - (2 @> 1) - 3\n'
refused_at last_operator 15 1:22 '$x = true and (3 - 2 @- 1)\n'
refused_at over_64_bits 16 1:26 '$x = 9223372036854775807 @+ 1\n'
refused_at zero 17 2:11 '$fee = 40\n$x = $fee @/ 0\n'
refused_at zero_of_several 17 2:18 '$fee = 40\n$x = 80 / 2 + (4 @/ 0) / 7\n'

# reads
refused_at read_nothing 19 3:11 "\$fee = 40\nnode desk {\n  \$open = @gate['north'][from] > 7\n}\n"
refused_at read_attribute 19 2:15 "gate { 'north': from => 7 }\n\$x = 1 + 2 - (@gate['north'][until] - 1)\n"
refused_at in_a_read 13 1:11 '$x = gate[@$nix][from]\n'

# selectors
refused_at selected 13 1:6 '$x = @$nix ? { 1 => 2 }\n'
refused_at no_match 18 2:9 '$n = 3\n$x = $n @? { 1 => 2, 2 => 3 }\n'
refused_at arm 13 2:26 '$n = 3\n$x = $n ? { 1 => 2, 3 => @$nix, default => 4 }\n'
refused_at default_arm 13 3:14 '$n = 3\n$x = 1 + ($n ? { 1 => 2,\n  default => @$nix - 1 })\n'
refused_at selector_behind_selector 18 2:28 '$n = 3\n$x = $n ? { default => 4 } @? { 5 => 6 }\n'

# statements
refused_at include 9 2:3 'node desk {\n  @include nix\n}\n'
refused_at unknown_type 9 1:1 '@nix { a: }\n'
refused_at assigned_again 14 2:8 '$x = 1 $y = 2\n$z = 3 @$x = 4\n'
refused_at same_resource 20 3:1 "kiosk { 'front': price => 1 }\nkiosk { 'back': price => 2 }\n@kiosk { 'front': price => 3 }\n"
refused_at same_attribute 21 1:28 'kiosk { front: price => 1, @price => 2 }\n'
refused_at unlike_title 15 1:9 'kiosk { @7: }\n'
refused_at unlike_condition 15 1:4 'if @7 { }\n'
refused_at in_then 13 2:18 '$b = true\nif $b { $x = 1 - @$nix } else { $x = 2 }\n'
refused_at behind_else 13 4:8 '$b = false\nif $b { $x = 1 }\nelse {\n  $x = @$nix\n}\n'
refused_at behind_no_else 13 2:23 '$b = false\nif $b { $x = 1 } $y = @$nix\n'
refused_at in_case 13 3:13 '$b = 2\ncase $b { 1: { $x = 1 }\n  2: { $x = @$nix } }\n'

# definitions
refused_at parent 13 4:8 'class base ($a = 1) { $p = 2 }\nclass wide ($b = 1, $c = 2) inherits base {\n  $d = $p\n  $e = @$nix\n}\nnode desk { include wide }\n'
refused_at in_the_parent 13 1:28 'class base ($a = 1) { $p = @$nix }\nclass wide inherits base { }\nnode desk { include wide }\n'
refused_at unknown_parent 9 1:26 'class wide ($b) inherits @nix { }\nnode desk { class { wide: b => 1 } }\n'
refused_at no_value 12 1:21 'class wide ($a = 1, @$b) { }\nnode desk { include wide }\n'
refused_at unknown_parameter 11 2:35 'class wide ($a, $b = 1) { }\nnode desk { class { wide: a => 1, @c => 2 } }\n'
refused_at in_a_type 13 2:26 'define entrance ($hours = 14) {\n  gate { $title: from => @$nix + $hours } }\nnode desk { entrance { north: } }\n'
refused_at defined_again 8 2:1 'define entrance { }\n@define entrance ($x) { }\n'
refused_at defined_again_first 8 3:1 '$x = $nix\ndefine entrance { }\n@define entrance ($x) { }\n'
refused_at built_in_defined 8 2:1 'node desk { kiosk { front: } }\n@define kiosk { }\n'
refused_at defined_behind 13 3:8 'node desk { include wide }\nclass wide inherits base {\n  $e = @$nix\n}\nclass base { }\n'
# whether `class` defines or declares is known at the token behind it, where no other word tells
refused_at class_again 8 2:7 'class wide { }\nclass @wide { }\n'
refused_at declared_at_the_top 9 1:7 'class @{ nix: }\n'
refused_at declared_in_a_node 9 1:13 'node desk { @class { nix: } }\n'
refused_at other_node 13 3:19 "node 'hill', lobby { \$x = \$nix }\nnode (door, desk) {\n  \$x = 1 \$y = 1 - @\$nix }\n"

# the example with its definitions behind their uses
for device in harbor-desk harbor-gate hill-desk lobby; do
    call "$schedule" "$device" "$root/examples/joined.pp"
    [ "$status" -eq 0 ] && [ "$(cut -d ' ' -f 1-4 "$out")" = "$(cut -d ' ' -f 1-4 "$root/examples/schedules/$device")" ]
    count "joined_$device" $?
done

# tabs, carriage returns, long texts
refused_at compile_tabs 13 2:19 '$fee = 40\n\tif\ttrue { $x =\t1-@$nix }\n'
refused_at strings_before 13 4:6 "\$a = 'one'\n\$b = \"two\" # \$nix\n\$c = 'a\\\\'b'\n\$d = @\$nix\n"
refused_at far_field 13 2:6 "if false { $(repeat 800 '$x=1 ')}\n\$y = @\$nix\n"
refused_at far_place 13 3:6 "# $(repeat 50000 x)\nif false { $(repeat 800 '$x=1 ')}\n\$y = @\$nix\n"
text compile_crlf '$fee = 40\r\n$x = $nix\r\n'
call "$schedule" desk "$text"
refuses compile_crlf 'refused 13 at 16
' "$text:2:6: $(words 13)
    \$x = \$nix 
         ^"
text compile_utf8 "\$b = 'Z\303\274ri' \$c = \$nix\n"
call "$schedule" desk "$text"
refuses compile_utf8 'refused 13 at 18
' "$text:1:19: $(words 13)
    \$b = 'Züri' \$c = \$nix
                     ^"

# a tagged manifest keeps the offset of the field
text no_value '# é\nnode desk {\n\tkiosk { front: price => $nix }\n}\n'
call "$manifest" convert -o "$room/no_value" "$text"
call "$schedule" desk "$room/no_value"
refuses compile_tagged 'refused 13 at 67
' "$room/no_value: $(words 13); it concerns the field at byte 67"

# the program for texts is the one that was built, but for `place`: then it is this script
places() { stub manifest_text "cat >\"\$0.in\"; if head -n 1 \"\$0.in\" | grep -q '^place '; then $1; else $(real manifest_text) <\"\$0.in\"; fi"; }
stub print_schedule "exec $(real print_schedule)"
places "grep -q '^place 67\$' \"\$0.in\" && echo place 42"
call "$other/schedule" desk "$text"
refuses place_told 'refused 13 at 42
' "$text:3:26: $(words 13)
    	kiosk { front: price => \$nix }
    	                        ^"
places 'echo "the first line is not known" >&2'
call "$other/schedule" desk "$text"
fails no_places 'the first line is not known'
for answer in '' 'place 4' 'place \n' 'place 4\n5\n' 'refused 24 at 0\n'; do
    places "printf '$answer'"
    call "$other/schedule" desk "$text"
    fails "place_cut_$answer" 'manifest_text wrote was cut short'
done
# lengths have no place: none is asked for
places 'echo place 42'
for number in 1 2; do
    stub print_schedule "cat >/dev/null; echo 'refused $number at 0'"
    call "$other/schedule" desk "$text"
    [ "$status" -eq 1 ] && [ "$(cat "$out")" = "refused $number at 0" ] && one=$(cat "$err") && [ "${one#"$text: the "}" != "$one" ]
    count "no_place_$number" $?
done

# ---- Where something is full, closed or cut short

text refused ']'
call sh -c '"$0" desk "$1" 2>&-' "$schedule" "$text"
[ "$status" -eq 1 ] && [ "$(cat "$out")" = 'refused 24 at 0' ]
count text_nowhere_to_say $?
if [ -c /dev/full ]; then
    call sh -c 'exec "$0" desk "$1" >/dev/full' "$schedule" "$text"
    fails text_full 'standard output cannot be written'
fi
call sh -c 'exec "$0" desk "$1" >&-' "$schedule" "$text"
fails text_closed 'standard output'
stub manifest_text 'cat >/dev/null; printf "written 9\nabc"'
call "$other/schedule" desk "$text"
fails text_cut 'manifest_text wrote was cut short'
