# shellcheck shell=sh disable=SC2016,SC2154 # texts in single quotes are for other shells; ./run sets the names
# ./why on texts and tagged manifests: answers, what is refused, and what is missing, full, closed or cut short.

gyms_text=$root/examples/gyms.pp

# PART: the words for it
decides() {
    case $1 in
    1) echo "decides the title: the resource's title is worked out from it, or from a variable or attribute that it decides" ;;
    2) echo 'decides the path: a condition around the resource, or around a declaration that leads to it, depends on it' ;;
    3) echo 'decides the trail: a condition tested before the resource was added depends on it, and one of its branches, taken or not, declares a class or a type' ;;
    4) echo 'decides the marks: a condition depends on it, and one of its branches, taken or not, assigns a variable that the value reads' ;;
    5) echo 'decides the value: the value is worked out from it, or from a variable or attribute that it decides' ;;
    esac
}

# NAME LINE..: the last call answered with these lines
answers() {
    name=$1
    shift
    printf '%s\n' "$@" >"$room/expected"
    prints "$name" "$room/expected"
}

# NAME PART LINE:COLUMN: the last call, on the text "$text", named the part and the constant that stands there. Its label is one below the line, which counts from 1.
among_lines() {
    line=${3%:*} before=$((${3#*:} - 1))
    label=$((line - 1)) shown=$(sed -n "${line}p" "$text")
    answers "$1" "line $label $(decides "$2")" "$text:$3: the first constant on line $label that the compile used (editors count it as line $line)" \
        "    $shown" "    $(printf '%s' "$shown" | head -c $before | tr -c '\t' ' ')^" "part $2 at $(($(head -n $label "$text" | wc -c) + before))"
}

# NAME FILE PART LABEL PLACE: the last call, on a tagged manifest, named the part and the constant at the place
among_labels() {
    answers "$1" "label $4 $(decides "$3")" "$2: the first constant with label $4 that the compile used is the field at byte $5" "part $3 at $5"
}

# NAME LABEL: the last call, on a text, said that the line does not count
not_among() {
    answers "$1" "line $2 is not among the lines that decide this value: an edit of constants on line $2 cannot move it, as long as the edited text is accepted and has the same strings" \
        'not among'
}

# ---- The gyms, as a text and tagged. Parts and places are worked out by hand from the papers' rules.

# DEVICE TYPE TITLE ATTRIBUTE LABEL PART LINE:COLUMN OFFSET: both forms name this part; the constant is there in the text, and there in the tagged form
gym() {
    text=$gyms_text
    call "$why" "$1" "$text" "$2" "$3" "$4" "$5"
    among_lines "gym_$1_$3_$4_$5" "$6" "$7"
    call "$why" "$1" "$gyms" "$2" "$3" "$4" "$5"
    among_labels "tagged_gym_$1_$3_$4_$5" "$gyms" "$6" "$5" "$8"
}

# The plan is declared by a class and under no condition: path and trail are empty. Its title is a constant, its price reads the fee, of which there is no mark.
gym hill-desk plan day price 1 5 2:8 279
gym hill-desk plan day price 17 1 18:10 440

# The kiosk stands behind the case and not in it, and the case declares nothing: path and trail are empty here too. The case assigns $price in both branches, so the
# plan (24) and the pattern tried (61) are in the mark of $price, which the price reads; that they are in the stored set too, as the path of the assignment, comes
# after. Fee and discount are in the stored set alone.
gym hill-desk kiosk front price 1 5 2:8 279
gym hill-desk kiosk front price 3 5 4:13 306
gym hill-desk kiosk front price 24 4 25:11 479
gym hill-desk kiosk front price 61 4 62:5 731
gym hill-desk kiosk front price 64 1 65:11 783

# The title is a parameter, given on line 58. On line 27 stand a pattern and what it chooses: the pattern, which was tried, comes first.
gym hill-desk wall overhang resets 58 1 59:13 712
gym hill-desk wall overhang resets 24 5 25:11 479
gym hill-desk wall overhang resets 27 5 28:7 511

# a parameter's default
gym hill-desk kiosk front screens 15 5 16:28 409
# the branch behind line 2 is passed over
gym harbor-desk kiosk front price 2 4 3:9 296
# The title of the entrance is the gate's, through the variable; when that gate is added the condition with the other entrance is not tested yet.
gym harbor-gate gate north until 47 1 48:14 643
gym harbor-gate gate north until 48 5 49:14 654
gym harbor-gate gate north until 4 5 5:10 323
gym lobby screen lobby open 72 1 73:12 825
gym lobby screen lobby open 73 5 74:13 836

# Line 37 stands in the branch that is passed over; line 2 is in a mark of harbor-desk and not of hill-desk; 62 has no constant; 76 and 255 are behind the text's end.
for asked in 'harbor-desk 37' 'hill-desk 2' 'hill-desk 62' 'hill-desk 0' 'hill-desk 76' 'hill-desk 255'; do
    call "$why" "${asked% *}" "$gyms_text" kiosk front price "${asked#* }"
    not_among "gym_not_$asked" "${asked#* }"
done
call "$why" hill-desk "$gyms" kiosk front price 2
answers tagged_gym_not 'label 2 is not among the labels that decide this value: an edit of constants with label 2 cannot move it, as long as the edited manifest is accepted and has the same strings' 'not among'

# a label is answered with a part precisely if the schedule quotes it
label=0 among=''
while [ $label -lt 80 ]; do
    call "$why" hill-desk "$gyms" kiosk front price $label
    case $status$(tail -n 1 "$out") in
    '0not among') ;;
    0part*) among=$among,$label ;;
    *) among=$among,failed ;;
    esac
    label=$((label + 1))
done
[ "kiosk front price 25 5 ${among#,}" = "$(grep '^kiosk front price' "$root/examples/schedules/hill-desk")" ]
count labels_of_the_schedule $?

# ---- The parts

# NAME LABEL PART LINE:COLUMN TEXT: the price of the kiosk "front" of desk in the text
price() {
    text=$room/texts/why_$1.pp
    printf '%s\n' "$5" >"$text"
    call "$why" desk "$text" kiosk front price "$2"
    among_lines "$1" "$3" "$4"
}
price path 0 2 1:9 '$peak = true
if $peak {
  kiosk { front: price => 1 }
}'
# title and value stand on one line, and the title comes first
price title 2 1 3:11 "$(cat "$text")"
price path_of_else 0 2 1:9 '$peak = false
if $peak { } else { kiosk { front: price => 1 } }'
# the pattern that does not match was tried
for place in 1:9 3:3 4:3; do
    price "path_of_case_$place" $((${place%:*} - 1)) 2 $place '$plan = gold
case $plan {
  basic: { }
  gold: {
    kiosk { front: price => 1 } } }'
done
# line 1 is the condition around the declaration; the trail has it too
price path_through_declaration 1 2 2:9 'define entrance { kiosk { front: price => 1 } }
$peak = true
if $peak { entrance { north: } }'
# the same, where the title is a variable: an assignment stores path and trail
price title_before_path 1 1 2:9 'define entrance { kiosk { $title: price => 1 } }
$peak = true
if $peak { entrance { front: } }'
price path_before_marks 0 2 1:9 '$peak = true
if $peak {
  if $peak { $x = 1 }
  kiosk { front: price => $x }
}'
price trail 0 3 1:9 '$peak = false
class wide { }
if $peak { include wide }
kiosk { front: price => 1 }'
price trail_deep 0 3 1:9 '$peak = false
define entrance { }
if true { if $peak { entrance { a: } } }
kiosk { front: price => 1 }'
# a condition that is tested later has the trail in its set
price path_from_trail 0 2 1:9 '$peak = false
class wide { }
if $peak { include wide }
if true { kiosk { front: price => 1 } }'
price trail_before_marks 0 3 1:9 '$peak = true
class wide { }
if $peak { include wide $x = 1 }
kiosk { front: price => $x }'
price marks 1 4 2:9 '$fee = 40
$peak = false
node desk {
  if $peak { $fee = 55 }
  kiosk { front: price => 3 - ($fee - 1) }
}'
# the mark is that of $x, and the value reads $y
price value_through_variable 0 5 1:9 '$peak = true
if $peak { $x = 3 }
$y = $x
kiosk { front: price => $y }'
price value_through_attribute 0 5 1:9 'kiosk { side: price => 7 }
kiosk { front: price => kiosk[side][price] }'

# ---- The place: the first constant on the line that was used

price place_of_another 0 5 1:6 '$a = 1 $b = 2
kiosk { front: price => $b }'
price place_behind_branch 1 5 2:27 '$peak = false
if $peak { $a = 1 } $b = (2)
kiosk { front: price => $b }'
price place_of_default 0 5 1:18 'define d ($fee = 40) {
  kiosk { front: price => $fee } }
d { a: }'
price place_of_pattern 1 5 2:13 '$a = true
$b = $a ? { 1 => 2, true => 3 }
kiosk { front: price => $b }'
price place_of_sign 1 5 2:12 'kiosk { front:
  price => -5 }'
price place_in_first_column 1 5 2:1 'kiosk { front: price =>
7 }'
price place_behind_tabs 0 5 1:9 '	$fee =	40
kiosk { front: price => $fee }'
price place_on_last_line 255 5 256:1 "$(printf 'kiosk { front: price =>' && repeat 255 '\n' && printf '7 }')"
price place_far_behind 0 5 1:80 "$(repeat 72 ' ')\$fee = 40
kiosk { front: price => \$fee }"

# ---- Calls that are right

ln -s "$why" "$room/links/why"
text=$gyms_text
for words in "$why" "$why --" "$room/links/why" "$room/links/why --"; do
    # shellcheck disable=SC2086
    call $words hill-desk "$text" kiosk front price 24
    among_lines "call_${words#"$room"}" 4 25:11
done
ln -s ../why "$room/links/deep/why"
call sh -c 'cd "$1" && exec deep/why hill-desk "$2" kiosk front price 24' sh "$room/links" "$text"
among_lines link_from_its_folder 4 25:11
call sh -c '"$0" hill-desk /dev/stdin kiosk front price 64 <"$1"' "$why" "$gyms"
among_labels from_input /dev/stdin 1 64 783

call "$why" --help
[ "$status" -eq 0 ] && grep -q '^use: ./why' "$out" && [ ! -s "$err" ]
count help $?
cp "$out" "$room/help"
call "$why" -h
prints help_short "$room/help"

# names that look like options, and empty ones; no node names these devices, so that they have the default one
mkdir "$room/odd"
cat >"$room/odd/-t.pp" <<'TEXT'
node hill { kiosk { front: } }
node default {
  kiosk { '-h':
    price => 7,
  }
  kiosk { '': price => 8 }
  kiosk { 'Züri 1': price => 9 }
  kiosk { 'a\\t%d': price => 10 }
}
TEXT
text=$room/odd/-t.pp
for device in -h --help -- -x; do
    call "$why" -- "$device" "$text" kiosk -h price 3
    among_lines "device_$device" 5 4:14
done
for device in - '' 'a desk' "$(repeat 300 d)"; do
    call "$why" "$device" "$text" kiosk -h price 2
    among_lines "device_$device" 1 3:11
done
call "$why" desk "$text" kiosk '' price 5
among_lines title_empty 1 6:11
call "$why" desk "$text" kiosk 'Züri 1' price 6
among_lines title_utf8 1 7:11
call "$why" desk "$text" kiosk 'a\t%d' price 7
among_lines title_backslash 1 8:11
call sh -c 'cd "$1" && exec "$2" desk -t.pp kiosk -h price 3 >out' sh "$room/odd" "$why"
[ "$status" -eq 0 ] && [ "$(sed -n '2s/: .*//p' "$room/odd/out")" = -t.pp:4:14 ]
count file_with_dash $?

# ---- What is refused: as by ./schedule, to the letter

compared=0
for text in "$room"/texts/*.pp "$room/refused" "$room/long" "$room/short" "$room/no_value"; do
    call "$schedule" desk "$text"
    [ "$status" -eq 1 ] || continue
    cp "$out" "$room/out.schedule" && cp "$err" "$room/err.schedule"
    call "$why" desk "$text" kiosk front price 0
    [ "$status" -eq 1 ] && [ -s "$out" ] && cmp -s "$out" "$room/out.schedule" && cmp -s "$err" "$room/err.schedule"
    count "as_schedule_${text##*/}" $?
    compared=$((compared + 1))
done
[ "$compared" -ge 70 ]
count as_schedule $?
text=$room/texts/past_255.pp
call "$why" desk "$text" kiosk front price 0
refuses past_255 'refused 25 at 261
' "$text:257:6: a constant stands past line 255, where the first line is line 0
    \$x = 1
         ^"

# ---- No such attribute

# NAME FILE DEVICE TYPE TITLE ATTRIBUTE
nothing() {
    call "$why" "$3" "$2" "$4" "$5" "$6" 1
    refuses "nothing_$1" 'refused 27 at 0
' "$2: the catalog of $3 has no attribute $6 of $4 $5"
}
for file in "$gyms_text" "$gyms"; do
    nothing of_attribute "$file" hill-desk kiosk front until
    nothing of_title "$file" hill-desk kiosk day price
    nothing of_type "$file" hill-desk plan front price
    nothing of_device "$file" lobby kiosk front price
    nothing of_strings "$file" hill-desk robot 'the rear' speed
    nothing of_empty "$file" hill-desk '' '' ''
    nothing of_backslash "$file" hill-desk kiosk 'front\n%d' price
done
# no string of a manifest is so long
nothing of_length "$gyms" hill-desk kiosk "$(repeat 256 a)" price
nothing of_lengths "$gyms" "$(repeat 70000 d)" "$(repeat 70000 a)" "$(repeat 70000 b)" "$(repeat 70000 c)"
text=$room/texts/longest.pp
printf 'kiosk { %s: price => 7 }\n' "$(repeat 255 a)" >"$text"
call "$why" desk "$text" kiosk "$(repeat 255 a)" price 0
[ "$status" -eq 0 ] && [ "$(tail -n 1 "$out")" = 'part 1 at 8' ]
count longest_title $?
nothing of_longer_title "$text" desk kiosk "$(repeat 256 a)" price
# a resource without attributes, and one without this one
printf 'kiosk { front: }\nkiosk { side: open => true }\n' >"$text"
nothing of_none "$text" desk kiosk front price
nothing of_others "$text" desk kiosk side price
# the compile's own refusals come first
printf 'kiosk { front: price => $nix }\n' >"$text"
call "$why" desk "$text" robot rear speed 0
refuses nothing_after_compile 'refused 13 at 24
' "$text:1:25: $(words 13)
    kiosk { front: price => \$nix }
                            ^"

# ---- Lists of types

names=$room/names
# FORMAT WORD..: the question about a file, with the types that the format has, one to a line
typed() {
    # shellcheck disable=SC2059
    printf "$1" >"$names"
    shift
    call "$why" --types "$names" "$@"
}
# COUNT: so many types, one to a line: aa, ab, .., all below kiosk if there are no more than 260
some_types() { awk -v count="$1" 'BEGIN { letters = "abcdefghijklmnopqrstuvwxyz"; for (k = 0; k < count; k++) print substr(letters, int(k / 26) + 1, 1) substr(letters, k % 26 + 1, 1) }'; }
eight='gate\nkiosk\nplan\nprinter\nscanner\nscreen\ntablet\nwall\n'

# FILE WORD..: the eight answer as no list does
as_eight() {
    call "$why" hill-desk "$@"
    cp "$out" "$room/out.plain" && cp "$err" "$room/err.plain" && plain=$status
    typed "$eight" hill-desk "$@"
    [ "$status" -eq "$plain" ] && [ -s "$out" ] && cmp -s "$out" "$room/out.plain" && cmp -s "$err" "$room/err.plain"
    count "types_eight_$*" $?
}
# on each question, of a tagged manifest and of a text: also where the value lacks the label, or there is no such attribute
for words in 'kiosk front price 24' 'kiosk front price 64' 'wall overhang resets 27' 'kiosk front price 2' 'kiosk front until 1' 'robot rear speed 1'; do
    # shellcheck disable=SC2086
    as_eight "$gyms" $words
    # shellcheck disable=SC2086
    as_eight "$gyms_text" $words
done
# and on texts that are refused: by the converter, and by the compile, where the token is told
for file in "$room/texts/sign.pp" "$room/texts/empty.pp" "$room/refused"; do as_eight "$file" kiosk front price 24; done
# a list that holds the types of this device, with and without the last line feed, and between options
typed 'kiosk\nplan\nwall\n' hill-desk "$gyms" kiosk front price 24
among_labels types_held "$gyms" 4 24 479
typed 'kiosk\nplan\nwall' hill-desk "$gyms" kiosk front price 24
among_labels types_no_line_feed "$gyms" 4 24 479
call "$why" --types "$names" -- hill-desk "$gyms" kiosk front price 24
among_labels types_options_end "$gyms" 4 24 479
call sh -c '"$0" --types /dev/stdin hill-desk "$1" kiosk front price 24 <"$2"' "$why" "$gyms" "$names"
among_labels types_from_input "$gyms" 4 24 479
call sh -c '"$0" --types "$2" hill-desk /dev/stdin kiosk front price 24 <"$1"' "$why" "$gyms" "$names"
among_labels types_manifest_from_input /dev/stdin 4 24 479
# the plan comes before the kiosk, which is five bytes before its title
typed 'kiosk\nwall\n' hill-desk "$gyms" kiosk front price 24
refuses types_lack_plan 'refused 9 at 435
' "$gyms: $(words 9); it concerns the field at byte 435"
typed 'plan\nwall\n' hill-desk "$gyms" kiosk front price 24
refuses types_lack_kiosk 'refused 9 at 778
' "$gyms: $(words 9); it concerns the field at byte 778"
# a type of the list that no resource has
typed 'kiosk\nplan\nrobot\nwall\n' hill-desk "$gyms" robot front price 24
refuses types_lack_resource 'refused 27 at 0
' "$gyms: the catalog of hill-desk has no attribute price of robot front"
# 64 types, of which the last three are those of the device
typed "$(some_types 61)\nkiosk\nplan\nwall\n" hill-desk "$gyms" kiosk front price 24
among_labels types_64 "$gyms" 4 24 479
letters_32=$(repeat 32 k)
typed "kiosk\n$letters_32\nplan\nwall\n" hill-desk "$gyms" kiosk front price 24
among_labels types_letters_32 "$gyms" 4 24 479

# NAME FORMAT PLACE LINE:COLUMN SHOWN MARGIN WORDS: a list that is refused 28 at the place; that line of the file is shown, with a caret behind the margin. It is refused
# before a manifest and before a text, whatever is wrong there.
types_fault() {
    for file in "$gyms" "$room/refused" "$gyms_text" "$room/texts/sign.pp"; do
        typed "$2" desk "$file" kiosk front price 24
        refuses "types_$1_${file##*/}" "refused 28 at $3
" "$names:$4: $7
    $5
    $6^"
    done
}
none='a type has 1 to 32 letters, and this line is empty'
large='a type has at most 32 letters, and this line has more'
other_byte='a type has no other bytes than the letters a to z'
falling='types rise, byte by byte, and this one is not above the line before it'
types_fault line_empty 'gate\n\nkiosk\n' 7 2:1 '' '' "$none"
types_fault line_empty_alone '\n' 0 1:1 '' '' "$none"
types_fault line_empty_first '\ngate\n' 0 1:1 '' '' "$none"
types_fault line_empty_last 'gate\n\n' 7 2:1 '' '' "$none"
types_fault line_long "gate\n${letters_32}k\nkiosk\n" 7 2:33 "${letters_32}k" "$(repeat 32 ' ')" "$large"
types_fault line_long_alone "${letters_32}k" 0 1:33 "${letters_32}k" "$(repeat 32 ' ')" "$large"
types_fault line_longer "gate\n$(repeat 100 k)" 7 2:33 "$(repeat 100 k)" "$(repeat 32 ' ')" "$large"
types_fault line_longest "gate\n$(repeat 70000 k)" 7 2:33 "$(repeat 120 k)..." "$(repeat 32 ' ')" "$large"
types_fault capital 'gate\nKiosk\nwall\n' 7 2:1 Kiosk '' "$other_byte"
types_fault digit 'gate\nkiosk2\n' 7 2:6 kiosk2 '     ' "$other_byte"
types_fault below_a 'kio`sk\n' 0 1:4 'kio`sk' '   ' "$other_byte"
types_fault above_z 'kio{sk\n' 0 1:4 'kio{sk' '   ' "$other_byte"
types_fault space 'gate \nkiosk\n' 0 1:5 'gate ' '    ' "$other_byte"
types_fault line_ends 'gate\r\nkiosk\r\n' 0 1:5 'gate ' '    ' "$other_byte"
types_fault zero_byte 'gate\nki\000sk\n' 7 2:3 'ki?sk' '  ' "$other_byte"
types_fault percent 'gate\nki%%sk\\n\n' 7 2:3 'ki%sk\n' '  ' "$other_byte"
types_fault falling 'gate\nwall\nkiosk\n' 14 3:1 kiosk '' "$falling"
types_fault twice 'gate\nkiosk\nkiosk' 15 3:1 kiosk '' "$falling"
types_fault prefix_behind 'gate\nkiosks\nkiosk\n' 16 3:1 kiosk '' "$falling"
types_fault first_fault 'gate\nwall\nkiosk\nKiosk\n\n' 14 3:1 kiosk '' "$falling"
# the 65th is at fault as such, also where it would be for another reason
types_fault line_65 "$(some_types 64)\nkiosk\nplan\n" 320 65:1 kiosk '' 'a list has at most 64 types, and this is the 65th'
types_fault line_65_capital "$(some_types 64)\nKiosk" 320 65:1 Kiosk '' 'a list has at most 64 types, and this is the 65th'
types_fault line_65_and_more "$(some_types 300)" 320 65:1 cm '' 'a list has at most 64 types, and this is the 65th'
for file in "$gyms" "$room/texts/sign.pp"; do
    typed '' desk "$file" kiosk front price 24
    refuses "types_empty_${file##*/}" 'refused 28 at 0
' "$names: the list of types is empty: the file has no line"
done
typed 'gate\nKiosk\n' desk "$room/long" kiosk front price 24
[ "$status" -eq 1 ] && [ "$(cat "$out")" = 'refused 28 at 7' ]
count types_before_length $?

# wrong use, and files that cannot be read
for words in '--types' "--types $names" "--types $names hill-desk $gyms kiosk front price" "--types $names --types $names hill-desk $gyms kiosk front price 24" "--types=$names hill-desk $gyms kiosk front price 24"; do
    # shellcheck disable=SC2086
    call "$why" $words
    [ "$status" -eq 2 ] && [ ! -s "$out" ] && grep -q '^use: ./why' "$err"
    count "types_words_$words" $?
done
call "$why" --types
fails types_no_argument '--types is followed by a file'
call "$why" --types '' hill-desk "$gyms" kiosk front price 24
fails types_empty_argument '--types is followed by a file'
call "$why" --types "$names" --types "$names" hill-desk "$gyms" kiosk front price 24
fails types_given_twice '--types is given twice'
call "$why" --types "$room/none" hill-desk "$gyms" kiosk front price 24
fails types_no_file "there is no file $room/none"
call "$why" --types "$room" hill-desk "$gyms" kiosk front price 24
fails types_folder "$room is a folder"
: >"$room/closed" && chmod 000 "$room/closed"
if [ ! -r "$room/closed" ]; then
    call "$why" --types "$room/closed" hill-desk "$gyms" kiosk front price 24
    fails types_unreadable "the file $room/closed cannot be read"
fi
if [ -r /proc/self/mem ]; then
    call "$why" --types /proc/self/mem hill-desk "$gyms" kiosk front price 24
    fails types_read_fails 'the file /proc/self/mem cannot be read'
fi
# a text is converted with the types of the list, and the token of a refusal is found with them
text=$room/texts/bench.pp
printf "\$fee = 40\nnode default {\n  bench { 'hall': seats => 12 }\n}\n" >"$text"
typed 'bench\n' desk "$text" bench hall seats 2
among_lines types_text_bench 1 3:11
call "$why" desk "$text" bench hall seats 2
refuses types_text_no_list 'refused 9 at 27
' "$text:3:3: $(words 9)
      bench { 'hall': seats => 12 }
      ^"
printf "define bench () { }\nnode default { bench { 'hall': } }\n" >"$text"
typed 'bench\n' desk "$text" bench hall seats 2
refuses types_text_taken 'refused 8 at 0
' "$text:1:1: $(words 8)
    define bench () { }
    ^"
typed 'gate\nKiosk\n' hill-desk "$gyms" kiosk front price 24
for closed in '>&-' '>/dev/full'; do
    [ -c /dev/full ] || [ "$closed" = '>&-' ] || continue
    call sh -c 'exec "$0" "$@" '"$closed" "$why" --types "$names" hill-desk "$gyms" kiosk front price 24
    fails "types_refused_$closed" 'standard output'
done
call sh -c '"$0" "$@" 2>&-' "$why" --types "$names" hill-desk "$gyms" kiosk front price 24
[ "$status" -eq 1 ] && [ "$(cat "$out")" = 'refused 28 at 7' ]
count types_nowhere_to_say $?

# ---- Wrong use

for words in '' --unknown -x "desk $gyms" "hill-desk $gyms kiosk front price" "hill-desk $gyms kiosk front price 1 2" "-- hill-desk $gyms kiosk front price" "-- -- hill-desk $gyms kiosk front price 1"; do
    # shellcheck disable=SC2086
    call "$why" $words
    [ "$status" -eq 2 ] && [ ! -s "$out" ] && grep -q '^use: ./why' "$err"
    count "words_$words" $?
done
call "$why" -x "$gyms" kiosk front price 1
fails option_for_device 'no option -x'
feed='
'
for label in 256 300 1000 007 00 01 -1 +1 x 1x 0x1 '' ' 1' '1 ' 1.0 "1$feed" "${feed}1" "1${feed}2"; do
    call "$why" hill-desk "$gyms" kiosk front price "$label"
    fails "label_$label" 'a label is a number from 0 to 255'
done
call "$why" "hill-desk$feed" "$gyms" kiosk front price 1
fails feed_in_device "device's name has a line feed"
call "$why" hill-desk "$gyms" "kiosk$feed" front price 1
fails feed_in_type 'type has a line feed'
call "$why" hill-desk "$gyms" kiosk "front${feed}price" 1 1
fails feed_in_title 'title has a line feed'
call "$why" hill-desk "$gyms" kiosk front "${feed}price" 1
fails feed_in_attribute 'attribute has a line feed'
call "$why" desk "$room/none" kiosk front price 1
fails no_file 'there is no file'
call "$why" desk "$room" kiosk front price 1
fails folder 'is a folder'

# ---- Where something is full, closed or missing

# answers on a text and on a tagged manifest, refusals of both, and the help
for words in "hill-desk $gyms_text kiosk front price 24" "hill-desk $gyms kiosk front price 24" "hill-desk $gyms_text kiosk front price 2" "hill-desk $gyms kiosk front until 1" \
    "desk $room/refused kiosk front price 1" "desk $room/texts/past_255.pp kiosk front price 1" "desk $text kiosk front price 1" --help; do
    if [ -c /dev/full ]; then
        # shellcheck disable=SC2086
        call sh -c 'exec "$0" "$@" >/dev/full' "$why" $words
        fails "full_$words" 'standard output cannot be written'
    fi
    # shellcheck disable=SC2086
    call sh -c 'exec "$0" "$@" >&-' "$why" $words
    fails "closed_$words" 'standard output'
done
for words in "hill-desk $gyms kiosk front until 1" "desk $text kiosk front price 1"; do
    # shellcheck disable=SC2086
    call sh -c '"$0" "$@" 2>&-' "$why" $words
    [ "$status" -eq 1 ] && one_of=$(cat "$out") && [ "${one_of#refused }" != "$one_of" ]
    count "nowhere_to_say_$words" $?
done
call sh -c 'TMPDIR=/nonexistent exec "$0" hill-desk "$1" kiosk front price 1' "$why" "$gyms"
fails no_temporary_folder 'TMPDIR'
call sh -c 'TMPDIR=/nonexistent exec "$0" hill-desk "$1" kiosk front price 1 2>&-' "$why" "$gyms"
[ "$status" -eq 2 ]
count no_temporary_folder_nowhere_to_say $?
call sh -c 'trap "" XFSZ && ulimit -f 1 && exec "$0" hill-desk "$1" kiosk front price 1' "$why" "$gyms_text"
fails copy_cut_by_limit 'no room for a copy'

# ---- Other programs

rm -rf "$other/target" && mkdir -p "$other/target/bin"
# FORMAT: the program for questions writes this
explainer() { stub explain_label "cat >\"\$0.in\"; printf '$1'"; }
# FILE: the price asked about there
other_price() { call "$other/why" desk "$1" kiosk front price 7; }

# what it is handed: five lines and the manifest
explainer 'not among\n'
other_price "$gyms"
[ "$status" -eq 0 ] && { printf 'desk\nkiosk\nfront\nprice\n7\n' && cat "$gyms"; } | cmp -s - "$other/target/bin/explain_label.in"
count question $?
# a word that is too long for any string is handed on too long, and no longer
long=$(repeat 70000 x) cut=$(repeat 256 x)
call "$other/why" "$long" "$gyms" "$long" "$long" "$long" 7
[ "$status" -eq 0 ] && { printf '%s\n' "$cut" "$cut" "$cut" "$cut" 7 && cat "$gyms"; } | cmp -s - "$other/target/bin/explain_label.in"
count question_cut $?
explainer 'among 3 66\n'
other_price "$gyms"
among_labels other_explainer "$gyms" 3 7 66

# with types: the label's line has the length of the list, which comes before the manifest
explainer 'not among\n'
printf 'kiosk\nwall\n' >"$names"
call "$other/why" --types "$names" desk "$gyms" kiosk front price 7
[ "$status" -eq 0 ] && { printf 'desk\nkiosk\nfront\nprice\n7 15\n\002\000\005kiosk\002\000\004wall' && cat "$gyms"; } | cmp -s - "$other/target/bin/explain_label.in"
count question_with_types $?
: >"$names"
call "$other/why" --types "$names" desk "$gyms" kiosk front price 7
[ "$status" -eq 0 ] && { printf 'desk\nkiosk\nfront\nprice\n7 0\n' && cat "$gyms"; } | cmp -s - "$other/target/bin/explain_label.in"
count question_no_types $?
# lines, and bytes of a line, that are too many are handed on too many, and no more
{ repeat 70 'kiosk\n' && repeat 70 k; } | sed 's/\\n/\
/g' >"$names"
call "$other/why" --types "$names" desk "$gyms" kiosk front price 7
[ "$status" -eq 0 ] && { printf 'desk\nkiosk\nfront\nprice\n7 520\n' && for _ in $(some_types 65); do printf '\002\000\005kiosk'; done && cat "$gyms"; } | cmp -s - "$other/target/bin/explain_label.in"
count question_many_types $?
repeat 70 k >"$names"
call "$other/why" --types "$names" desk "$gyms" kiosk front price 7
[ "$status" -eq 0 ] && { printf 'desk\nkiosk\nfront\nprice\n7 36\n\002\000\041%s' "$(repeat 33 k)" && cat "$gyms"; } | cmp -s - "$other/target/bin/explain_label.in"
count question_long_type $?
# a 28 where no field begins, at a field without fault, and where no list is lent
explainer 'refused 28 at 3\n'
printf 'kiosk\nwall\n' >"$names"
for place in 3 8 16; do
    explainer "refused 28 at $place\\n"
    call "$other/why" --types "$names" desk "$gyms" kiosk front price 7
    refuses "types_place_$place" "refused 28 at $place
" "$names: the list of types is not 1 to 64 names, each 1 to 32 letters a to z, that rise; it concerns the field at byte $place of the list"
done
explainer 'refused 28 at 0\n'
other_price "$gyms"
refuses types_not_lent 'refused 28 at 0
' "$gyms: the list of types is not 1 to 64 names, each 1 to 32 letters a to z, that rise; it concerns the field at byte 0"
# what the program for texts is handed of a text: how long the list is, the list, and the text
stub manifest_text 'cat >"$0.in"; printf "written 3\n\001\000\000"'
explainer 'not among\n'
call "$other/why" --types "$names" desk "$gyms_text" kiosk front price 7
[ "$status" -eq 0 ] && { printf 'types 00015 convert\n\002\000\005kiosk\002\000\004wall' && cat "$gyms_text"; } | cmp -s - "$other/target/bin/manifest_text.in"
count types_text_handed $?
[ "$status" -eq 0 ] && printf 'desk\nkiosk\nfront\nprice\n7 15\n\002\000\005kiosk\002\000\004wall\001\000\000' | cmp -s - "$other/target/bin/explain_label.in"
count types_text_asked $?

for answer in '' '\n' 'among' 'among \n' 'among 3\n' 'among 3 \n' 'among 3 6' 'among 3 66\0\n' 'among 3 66\nnot' 'among 3 66\nnot among\n' 'among 0 66\n' 'among 6 66\n' 'among 33 66\n' \
    'among 3 -6\n' 'among 3 x\n' 'among 3 100000\n' 'among 3 66 \n' ' among 3 66\n' 'part 3 at 66\n' 'not' 'not among' 'not among\0\n' 'not among\nnot among\n' 'not \n' 'not a question' \
    'refused 6 at \n' 'refused 6 at 5' 'refused 6\n' 'refused 6 at 5\nnot among\n' 'refused 27 at' 'refused 27 at 0' 'refused 27 0\n'; do
    explainer "$answer"
    other_price "$gyms"
    fails "cut_$answer" 'explain_label wrote was cut short'
done
explainer 'not a question\n'
other_price "$gyms"
fails no_question 'did not take this for a question'
for answer in 'among 3 66\n' 'not among\n' 'refused 27 at 0\n'; do
    stub explain_label "cat >/dev/null; printf '$answer'; kill -KILL \$\$"
    other_price "$gyms"
    fails "killed_$answer" 'ended with status'
    stub explain_label "cat >/dev/null; printf '$answer'; exit 1"
    other_price "$gyms"
    fails "failed_$answer" 'ended with status 1'
    stub explain_label "cat >/dev/null; printf '$answer'; echo 'standard output: full' >&2"
    other_price "$gyms"
    fails "told_$answer" 'standard output: full'
done

# the place of a constant in a text is asked of the program for texts; an answer without a place is not
text=$room/texts/desk.pp
explainer 'among 3 66\n'
places "grep -q '^place 66\$' \"\$0.in\" && echo place 31"
other_price "$text"
answers place_told "line 7 $(decides 3)" "$text:2:22: the first constant on line 7 that the compile used (editors count it as line 8)" '    node desk { kiosk { front:' '                         ^' 'part 3 at 31'
for answer in '' 'place 4' 'place \n' 'place 4\n5\n' 'refused 24 at 0\n'; do
    places "printf '$answer'"
    other_price "$text"
    fails "place_cut_$answer" 'manifest_text wrote was cut short'
done
places 'echo "the first line is not known" >&2'
other_price "$text"
fails no_places 'the first line is not known'
explainer 'not among\n'
other_price "$text"
not_among no_place_asked 7
explainer 'refused 27 at 0\n'
other_price "$text"
refuses no_place_of_27 'refused 27 at 0
' "$text: the catalog of desk has no attribute price of kiosk front"
# lengths have no place: none is asked for
places 'echo place 31'
explainer 'refused 1 at 0\n'
other_price "$text"
refuses no_place_of_1 'refused 1 at 0
' "$text: the working memory is shorter than 65,536 bytes"
explainer 'refused 2 at 0\n'
other_price "$text"
refuses no_place_of_2 'refused 2 at 0
' "$text: the manifest's length is outside 1 to 65,535 bytes"
explainer 'refused 6 at 66\n'
other_price "$text"
refuses place_of_6 'refused 6 at 31
' "$text:2:22: a further step would pass the limit of 65,535
    node desk { kiosk { front:
                         ^"
stub manifest_text 'cat >/dev/null; printf "written 9\nabc"'
other_price "$text"
fails text_cut 'manifest_text wrote was cut short'

# ---- The first run, with an rt that makes both programs

sed "s/^manifest_text)/explain_label) answer='not among\\\\n' ;; &/" "$room/bin/rt" >"$room/rt" && chmod +x "$room/rt" && mv "$room/rt" "$room/bin/rt"
# FILE [NAME=VALUE]: the question about the file, where no program is built
first_question() {
    rm -rf "$other/target"
    file=$1
    shift
    call env PATH="$room/bin:$PATH" "$@" "$other/why" desk "$file" kiosk front price 7
}
# LINE..: the last call was answered, and these lines are among what it said
asked_first() {
    [ "$status" -eq 0 ] && [ "$(tail -n 1 "$out")" = 'not among' ] || return 1
    for line; do grep -qx "why: $line" "$err" || return 1; done
}
first_question "$gyms"
asked_first 'building the program for questions: rt proves the 3 crates it needs .*' '2 of 3 crates are proved (values, [0-9][0-9]* s)' '3 of 3 crates are proved (explain_label, [0-9][0-9]* s)' &&
    ! grep -q 'texts' "$err"
count progress $?
first_question "$room/texts/empty.pp"
asked_first '3 of 3 crates are proved (explain_label, [0-9][0-9]* s)' 'building the program for texts: .*' '3 of 3 crates are proved (manifest_text, [0-9][0-9]* s)'
count progress_text $?
first_question "$gyms" STUCK=1
fails not_proved 'could not build the program for questions'
