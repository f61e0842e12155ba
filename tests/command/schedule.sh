# shellcheck shell=sh disable=SC2016,SC2154 # texts in single quotes are for other shells; ./run sets the names
# ./schedule on tagged manifests.

# ---- Calls that are right

call "$schedule" hill-desk "$gyms"
prints plain "$root/examples/schedules/hill-desk"

mkdir "$room/links" "$room/links/deep"
ln -s "$schedule" "$room/links/absolute"
ln -s absolute "$room/links/chained"
ln -s ../chained "$room/links/deep/relative"
for link in absolute chained deep/relative; do
    call "$room/links/$link" hill-desk "$gyms"
    prints "link_$link" "$root/examples/schedules/hill-desk"
done
call sh -c 'cd "$1" && exec deep/relative hill-desk "$2"' sh "$room/links" "$gyms"
prints link_from_its_folder "$root/examples/schedules/hill-desk"

call "$schedule" -- hill-desk "$gyms"
prints options_end "$root/examples/schedules/hill-desk"

# no node names these devices: lobby has the default node, and so have they
for device in -h --help -- -; do
    call "$schedule" -- "$device" "$gyms"
    prints "device_$device" "$root/examples/schedules/lobby"
done
call "$schedule" - "$gyms"
prints device_dash "$root/examples/schedules/lobby"

call "$schedule" --help
[ "$status" -eq 0 ] && grep -q '^use: ./schedule' "$out" && [ ! -s "$err" ]
count help $?

printf '\001' >"$room/refused"
refused() {
    [ "$status" -eq 1 ] && [ "$(cat "$out")" = 'refused 3 at 0' ]
    count "$1" $?
}
call "$schedule" desk "$room/refused"
refuses refusal 'refused 3 at 0
' "$room/refused: a field's tag, length or parts are not as listed; it concerns the field at byte 0"
call sh -c '"$0" desk "$1" 2>&-' "$schedule" "$room/refused"
refused refusal_nowhere_to_say
{ printf '\001' && head -c 5000000 /dev/zero; } >"$room/long"
call sh -c 'trap "" PIPE && exec "$0" desk "$1"' "$schedule" "$room/long"
[ "$status" -eq 1 ] && [ "$(cat "$out")" = 'refused 2 at 0' ]
count long $?

# ---- Wrong use

for words in '--unknown' '-x' 'desk' 'desk a b' ''; do
    # shellcheck disable=SC2086
    call "$schedule" $words
    [ "$status" -eq 2 ] && [ ! -s "$out" ] && grep -q '^use: ./schedule' "$err"
    count "words_$words" $?
done
call "$schedule" -x "$gyms"
fails option_for_device 'no option -x'
printf 'kiosk\nplan\nwall\n' >"$room/names"
for words in --types "--types $room/names hill-desk $gyms" "--types=$room/names hill-desk $gyms" "--types $room/none hill-desk $gyms"; do
    # shellcheck disable=SC2086
    call "$schedule" $words
    fails "types_$words" 'the schedule printer keeps the eight built-in types'
    grep -q '^use: ./schedule' "$err"
    count "types_use_$words" $?
done
call "$schedule" -- --types "$gyms"
prints device_types "$root/examples/schedules/lobby"
call "$schedule" desk "$room/none"
fails no_file 'there is no file'
call "$schedule" desk "$room"
fails folder 'is a folder'

# ---- Where something is full, closed or missing

if [ -c /dev/full ]; then
    for words in "hill-desk $gyms" "desk $room/refused" --help; do
        # shellcheck disable=SC2086
        call sh -c 'exec "$0" "$@" >/dev/full' "$schedule" $words
        fails "full_${words%% *}" 'standard output'
    done
    call sh -c 'TMPDIR=/nonexistent exec "$0" desk "$1" 2>/dev/full' "$schedule" "$gyms"
    [ "$status" -eq 2 ]
    count full_messages $?
fi
for words in "hill-desk $gyms" "desk $room/refused" --help; do
    # shellcheck disable=SC2086
    call sh -c 'exec "$0" "$@" >&-' "$schedule" $words
    fails "closed_${words%% *}" 'standard output'
done
call sh -c 'TMPDIR=/nonexistent exec "$0" hill-desk "$1"' "$schedule" "$gyms"
fails no_temporary_folder 'TMPDIR'
call sh -c 'TMPDIR=/nonexistent exec "$0" hill-desk "$1" 2>&-' "$schedule" "$gyms"
[ "$status" -eq 2 ]
count no_temporary_folder_nowhere_to_say $?

# 400 resources, of whose schedule 8,192 bytes may be written: the printer is ended by a signal, or is told and tells; with 512 not even the copy of the manifest fits
sed 1d "$root/tests/schedule/pieces.in" >"$room/pieces"
call sh -c 'ulimit -f 16 && exec "$0" desk "$1"' "$schedule" "$room/pieces"
fails cut_by_signal 'ended with status'
call sh -c 'trap "" XFSZ && ulimit -f 16 && exec "$0" desk "$1"' "$schedule" "$room/pieces"
fails cut_by_limit 'standard output: File too large'
call sh -c 'trap "" XFSZ && ulimit -f 1 && exec "$0" desk "$1"' "$schedule" "$room/pieces"
fails copy_cut_by_limit 'no room for a copy'

# ---- Other printers

# TEXT: the printer is this script, which reads all of its input first
printer() { stub print_schedule "cat >/dev/null; $1"; }
# NAME FORMAT: a printer that prints this is one that was cut short
cut_short() {
    printer "printf '$2'"
    call "$other/schedule" desk "$gyms"
    fails "cut_$1" 'cut short'
}
cut_short nothing ''
cut_short steps 'kiosk a b 1 0 \n'
cut_short feed 'kiosk a b 1 0 \nsteps 3'
cut_short number 'kiosk a b 1 0 \nsteps \n'
cut_short zero 'kiosk a b 1 0 \nsteps 3\0\n'
cut_short place 'refused 6 at \n'
cut_short refusal_feed 'refused 6 at 5'
cut_short refusal_and_more 'refused 6 at 5\nsteps 3'
cut_short two_refusals 'refused 6 at 5\nrefused 6 at 5\n'
printer 'printf "steps 3\n"'
call "$other/schedule" desk "$gyms"
printf 'steps 3\n' >"$room/steps"
prints other_printer "$room/steps"
printer 'printf "steps 3\n"; kill -KILL $$'
call "$other/schedule" desk "$gyms"
fails killed 'ended with status'
printer 'printf "steps 3\n"; echo "standard output: full" >&2'
call "$other/schedule" desk "$gyms"
fails told 'standard output: full'

# ---- The first run, with an rt that only says what rt says

mkdir "$room/bin"
cat >"$room/bin/rt" <<'TEXT'
#!/bin/sh
name=$(basename "$PWD")
echo 'rt: chose --jobs 1 for values' >&2
echo 'fn values::sum: proved' >&2
if [ -n "${STUCK:-}" ]; then
    echo 'logic=not-proved' >&2
    exit 1
fi
case $name in
print_schedule) answer='steps 3\n' ;;
manifest_text) answer='written 3\n\001\000\000' ;;
esac
echo "rt: chose --jobs 1 for $name" >&2
mkdir -p out
printf "#!/bin/sh\ncat >/dev/null\nprintf '%s'\n" "$answer" >"out/$name"
chmod +x "out/$name"
: >"out/$name.stamp"
echo "rt: running out/$name; to give it other input, run that file yourself" >&2
"./out/$name"
TEXT
chmod +x "$room/bin/rt"
# FILE [NAME=VALUE]: the schedule of the file, where no program is built
first_run() {
    rm -rf "$other/target"
    file=$1
    shift
    call env PATH="$room/bin:$PATH" "$@" "$other/schedule" desk "$file"
}
# LINE..: the last call printed the steps, and these lines are among what it said
progress() {
    [ "$status" -eq 0 ] && cmp -s "$out" "$room/steps" || return 1
    for line; do grep -qx "schedule: $line" "$err" || return 1; done
}
first_run "$gyms"
progress '2 of 3 crates are proved (values, [0-9][0-9]* s)' '3 of 3 crates are proved (print_schedule, [0-9][0-9]* s)'
count progress $?
: >"$room/empty"
first_run "$room/empty"
progress '3 of 3 crates are proved (print_schedule, [0-9][0-9]* s)' 'building the program for texts: .*' '3 of 3 crates are proved (manifest_text, [0-9][0-9]* s)'
count progress_text $?
first_run "$gyms" STUCK=1
fails not_proved 'could not build the printer'
rm -rf "$other/target"
: >"$other/target"
call env PATH="$room/bin:$PATH" "$other/schedule" desk "$gyms"
fails nowhere_to_build 'nothing can be written'
rm "$other/target" && mkdir -p "$other/target/bin"
