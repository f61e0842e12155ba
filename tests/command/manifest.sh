# shellcheck shell=sh disable=SC2016,SC2059,SC2154 # texts in single quotes are for other shells, some are formats; ./run sets the names
# ./manifest: its words and options, results, tagged manifests that are refused, and what is missing, full, closed or cut short.

# ---- Calls that are right

printf '$fee = 40\n' >"$room/fee.pp"
printf '\001\000\006\002\000\003fee\041\000\016\000\000\020\000\011\000\000\000\000\000\000\000\000\050' >"$room/fee"
: >"$room/empty.pp"
printf '\001\000\000' >"$room/empty"

call "$manifest" convert "$room/fee.pp"
prints convert "$room/fee"
call "$manifest" print "$room/fee"
prints print "$room/fee.pp"
call "$manifest" convert "$room/empty.pp"
prints convert_empty "$room/empty"
call "$manifest" print "$room/empty"
prints print_empty "$room/empty.pp"
call "$manifest" convert -- "$room/fee.pp"
prints options_end "$room/fee"
call sh -c '"$0" convert /dev/stdin <"$1"' "$manifest" "$room/fee.pp"
prints convert_input "$room/fee"
ln -s "$manifest" "$room/links/manifest"
call sh -c 'cd "$1" && exec links/manifest convert fee.pp' sh "$room"
prints link "$room/fee"

# NAME FILE: the last call wrote nothing, and what the file has to "$room/written"
writes() {
    [ "$status" -eq 0 ] && [ ! -s "$out" ] && [ ! -s "$err" ] && cmp -s "$room/written" "$2"
    count "$1" $?
    rm -f "$room/written"
}
call "$manifest" convert -o "$room/written" "$room/fee.pp"
writes output_before "$room/fee"
call "$manifest" print "$room/fee" -o "$room/written"
writes output_behind "$room/fee.pp"
cp "$room/fee.pp" "$room/written"
call "$manifest" convert -o "$room/written" "$room/written"
writes output_over_input "$room/fee"
call sh -c 'exec "$0" convert -o "$1" "$2" >&-' "$manifest" "$room/written" "$room/fee.pp"
writes output_closed_unused "$room/fee"

for words in --help -h 'convert --help' 'print -h'; do
    # shellcheck disable=SC2086
    call "$manifest" $words
    [ "$status" -eq 0 ] && grep -q '^use: ./manifest' "$out" && [ ! -s "$err" ]
    count "help_$words" $?
done

# ---- What is refused: nothing is written

printf 'as before' >"$room/written"
printf '$x = ]\n' >"$room/bad.pp"
call "$manifest" convert -o "$room/written" "$room/bad.pp"
[ "$status" -eq 1 ] && [ ! -s "$out" ] && [ "$(cat "$room/written")" = 'as before' ]
count refused_output_kept $?
call "$manifest" convert "$room/fee"
refuses convert_tagged '' "$room/fee: the text is outside the notation or its limits: it begins with byte 01, as a tagged manifest does"
call "$manifest" print "$room/fee.pp"
refuses print_text '' "$room/fee.pp: a field's tag, length or parts are not as listed: it does not begin with byte 01, as a tagged manifest does"
call "$manifest" print "$room/empty.pp"
refuses print_nothing '' "$room/empty.pp: the manifest's length is outside 1 to 65,535 bytes"
{ cat "$room/fee" && head -c 66000 /dev/zero; } >"$room/long"
call "$manifest" print "$room/long"
refuses print_long '' "$room/long: the manifest's length is outside 1 to 65,535 bytes"
{ cat "$room/fee" && printf '\041\000'; } >"$room/short"
call "$manifest" print "$room/short"
refuses print_field '' "$room/short: a field's tag, length or parts are not as listed; it concerns the field at byte 26"
unprintable="a label is below an earlier constant's, the notation cannot spell a name, a 25 names no built-in type, or a 27 names one"
sed 's/fee/Fee/' "$room/fee" >"$room/capital"
call "$manifest" print "$room/capital"
refuses print_name '' "$room/capital: $unprintable; it concerns the field at byte 9"

# 3,000 assignments of a string of 255 bytes
{
    printf '\001\001\006\002\000\377' && repeat 255 a && printf '\002\000\001x'
    i=0
    while [ $i -lt 3000 ]; do
        printf '\041\000\010\000\001\021\000\003\000\000\000'
        i=$((i + 1))
    done
} >"$room/wide"
call "$manifest" print "$room/wide"
refuses print_wide '' "$room/wide: the text of this manifest is longer than 65,535 bytes"

# ---- Lists of types

names=$room/names.list
printf 'bench\nkiosk\n' >"$names"
printf "node default { bench { 'hall': seats => 12 } }\n" >"$room/bench.pp"
call "$manifest" convert --types "$names" -o "$room/bench" "$room/bench.pp"
[ "$status" -eq 0 ] && [ ! -s "$out" ] && [ ! -s "$err" ] && [ "$(od -An -v -tx1 "$room/bench" | tr -d ' \n' | grep -c 250019)" -eq 1 ]
count types_convert $?
call "$manifest" print "$room/bench" --types "$names"
prints types_print "$room/bench.pp"
call "$manifest" print "$room/bench"
refuses types_print_eight '' "$room/bench: $unprintable; it concerns the field at byte 35"
call "$manifest" convert "$room/bench.pp" -o "$room/defined"
call "$manifest" print "$room/defined"
prints types_defined "$room/bench.pp"
call "$manifest" print --types "$names" "$room/defined"
refuses types_print_defined '' "$room/defined: $unprintable; it concerns the field at byte 35"
printf 'gate\nkiosk\nplan\nprinter\nscanner\nscreen\ntablet\nwall\n' >"$room/eight.list"
call "$manifest" convert --types "$room/eight.list" "$root/examples/gyms.pp"
prints types_eight "$gyms"
call "$manifest" print --types "$room/eight.list" "$gyms"
cp "$out" "$room/printed.pp"
call "$manifest" print "$gyms"
prints types_eight_print "$room/printed.pp"
# the list is looked at first, and nothing is written
printf 'kiosk\nbench\n' >"$names"
for words in "convert $room/bad.pp" "convert $room/fee.pp" "print $room/fee.pp" "print $room/fee" "print $room/long" "convert $room/empty.pp"; do
    # shellcheck disable=SC2086
    call "$manifest" ${words%% *} --types "$names" "${words#* }"
    refuses "types_fault_$words" '' "$names:2:1: types rise, byte by byte, and this one is not above the line before it
    bench
    ^"
done
: >"$names"
call "$manifest" convert --types "$names" "$room/fee.pp"
refuses types_empty '' "$names: the list of types is empty: the file has no line"
printf 'bench\n' >"$names"
call "$manifest" convert --types "$names" "$room/bad.pp"
refuses types_bad_text '' "$room/bad.pp:1:6: the text is outside the notation or its limits
    \$x = ]
         ^"
printf ']' >"$room/sign.pp"
call "$manifest" convert --types "$names" "$room/sign.pp"
refuses types_first_byte '' "$room/sign.pp:1:1: the text is outside the notation or its limits
    ]
    ^"
call "$manifest" convert --types
fails types_no_argument '--types is followed by a file'
call "$manifest" convert --types "$names" --types "$names" "$room/fee.pp"
fails types_given_twice '--types is given twice'
call "$manifest" print --types "$room/none" "$room/fee"
fails types_no_file 'there is no file'
call "$manifest" print --types "$room" "$room/fee"
fails types_folder 'is a folder'

# ---- Wrong use

for words in '' fee.pp --unknown 'convert' 'print a b' 'convert -x a' 'convert -o' 'convert -o out' 'print -o out a b' "schedule $room/fee"; do
    # shellcheck disable=SC2086
    call "$manifest" $words
    [ "$status" -eq 2 ] && [ ! -s "$out" ] && grep -q '^use: ./manifest' "$err"
    count "words_$words" $?
done
call "$manifest" convert -x "$room/fee.pp"
fails option 'no option -x'
call "$manifest" shred "$room/fee.pp"
fails no_command 'no command shred'
call "$manifest" convert "$room/none"
fails no_file 'there is no file'
call "$manifest" print "$room"
fails folder 'is a folder'

# ---- Where something is full, closed or missing

if [ -c /dev/full ]; then
    for words in "convert $room/fee.pp" "print $room/fee" --help; do
        # shellcheck disable=SC2086
        call sh -c 'exec "$0" "$@" >/dev/full' "$manifest" $words
        fails "full_${words%% *}" 'standard output cannot be written'
    done
    call "$manifest" convert -o /dev/full "$room/fee.pp"
    fails full_output '/dev/full cannot be written'
fi
for words in "convert $room/fee.pp" "print $room/fee" --help; do
    # shellcheck disable=SC2086
    call sh -c 'exec "$0" "$@" >&-' "$manifest" $words
    fails "closed_${words%% *}" 'standard output'
done
call "$manifest" convert -o "$room/none/file" "$room/fee.pp"
fails no_folder "none/file cannot be written"
call sh -c 'TMPDIR=/nonexistent exec "$0" convert "$1"' "$manifest" "$room/fee.pp"
fails no_temporary_folder 'TMPDIR'
call sh -c '"$0" convert "$1" 2>&-' "$manifest" "$room/bad.pp"
[ "$status" -eq 1 ] && [ ! -s "$out" ]
count refused_nowhere_to_say $?
call sh -c 'trap "" XFSZ && ulimit -f 1 && exec "$0" print "$1"' "$manifest" "$room/wide"
fails copy_cut_by_limit 'no room for a copy'

# ---- Programs that do less: nothing is written

# NAME FORMAT: the program for texts writes this
cut_short() {
    stub manifest_text "cat >/dev/null; printf '$2'"
    call "$other/manifest" convert "$room/fee.pp"
    fails "cut_$1" 'cut short'
}
cut_short nothing ''
cut_short word 'writt'
cut_short number 'written '
cut_short feed 'written 3'
cut_short empty_number 'written \nabc'
cut_short result 'written 3\nab'
cut_short more 'written 3\nabcd'
cut_short zero 'written 3\0\nabc'
cut_short front_zero 'written 03\nabc'
cut_short octal 'written 010\nabcdefgh'
cut_short sign 'written -1\n'
cut_short huge 'written 99999999999999999999\nabc'
cut_short refusal 'refused 24 at'
cut_short refusal_feed 'refused 24 at 3'
cut_short refusal_and_more 'refused 24 at 3\nabc'
stub manifest_text "cat >/dev/null; printf 'written 3\n\001\000\000'"
call "$other/manifest" convert "$room/fee.pp"
prints other_program "$room/empty"
stub manifest_text 'cat >/dev/null; printf "written 1\na"; kill -KILL $$'
call "$other/manifest" convert "$room/fee.pp"
fails killed 'ended with status'
stub manifest_text 'cat >/dev/null; printf "written 1\na"; echo "standard output: full" >&2'
call "$other/manifest" convert "$room/fee.pp"
fails told 'standard output: full'

# ---- The first run

rm -rf "$other/target"
call env PATH="$room/bin:$PATH" "$other/manifest" convert "$room/empty.pp"
[ "$status" -eq 0 ] && cmp -s "$out" "$room/empty" && grep -qx 'manifest: 3 of 3 crates are proved (manifest_text, [0-9][0-9]* s)' "$err"
count progress $?
