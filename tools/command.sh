# shellcheck shell=sh disable=SC2154
# What ./schedule, ./why and ./manifest have in common. Who reads this in has set `command`, the command's name, and `root`, the repository's folder, and has a function
# `usage`, which prints the help.

# The file that names types, as the user calls it, and the list made of it; neither where the eight are built in.
types='' list=''

# ---- Messages

# Status 1 tells of a refusal alone, so no message, even one that cannot be written, may end the run.
say() { printf '%s: %s\n' "$command" "$*" >&2 || :; }
fail() {
    say "$*"
    exit 2
}
misused() {
    usage >&2 || :
    exit 2
}

# The papers' reasons for refusing, by number.
reason() {
    case $1 in
    1) echo "the working memory is shorter than 65,536 bytes" ;;
    2) echo "the manifest's length is outside 1 to 65,535 bytes" ;;
    3) echo "a field's tag, length or parts are not as listed" ;;
    4) echo "a field is deeper than 32" ;;
    5) echo "the strings don't rise strictly, or a name is past the table" ;;
    6) echo "a further step would pass the limit of 65,535" ;;
    7) echo "a declaration would go below level 16" ;;
    8) echo "a defined name is defined again, or is a built-in type" ;;
    9) echo "the class or type is unknown, or a resource's type is not built in" ;;
    10) echo "a class that is declared already is declared with attributes" ;;
    11) echo "a parameter is unknown" ;;
    12) echo "a parameter has neither value nor default" ;;
    13) echo "the variable has no value in any scope tried" ;;
    14) echo "the variable has a value in this scope already" ;;
    15) echo "an operand, condition or title is of the wrong kind" ;;
    16) echo "the result is outside 64 bits" ;;
    17) echo "the divisor is zero" ;;
    18) echo "no pattern of a selector matches" ;;
    19) echo "the resource or attribute read is not in the catalog" ;;
    20) echo "type and title are already in the catalog" ;;
    21) echo "an attribute is named twice in one body" ;;
    22) echo "a 513th cell is needed" ;;
    23) echo "the finished entry passes the output's end or 65,535 bytes in all" ;;
    24) echo "the text is outside the notation or its limits" ;;
    25) echo "a constant stands past line 255, where the first line is line 0" ;;
    26) echo "a label is below an earlier constant's, the notation cannot spell a name, a 25 names no built-in type, or a 27 names one" ;;
    27) echo "the catalog has no such attribute" ;;
    28) echo "the list of types is not 1 to 64 names, each 1 to 32 letters a to z, that rise" ;;
    *) echo "a number that the papers do not have" ;;
    esac
}

# ---- Programs

# PROGRAM: the crates that it needs, those below first, itself last.
crates_needed() {
    awk -F: -v program="$1" '
        function visit(name,    parts, k, n) {
            if (!(name in needs) || seen[name]++) return
            n = split(needs[name], parts, " ")
            for (k = 1; k <= n; k++) visit(parts[k])
            print name
        }
        { sub(/#.*/, "") }
        NF == 2 { sub(/ .*/, "", $1); needs[$1] = $2 }
        END { visit(program) }' "$root/crates.txt"
}

# The crate whose proof ended, and how long it took.
tell_proved() {
    [ -n "$crate" ] || return 0
    place=$(printf '%s\n' "$needed" | grep -nx "$crate" | head -n 1)
    say "${place%%:*} of $count crates are proved ($crate, $(($(date +%s) - since)) s)"
}

# What rt says, as it comes: it names each crate that it begins to prove, and none that was proved before.
tell_progress() {
    crate='' since=0
    while IFS= read -r line; do
        case $line in
        'rt: chose --jobs '*' for '*)
            tell_proved
            crate=${line##* for } since=$(date +%s)
            ;;
        logic=not-proved* | 'rt: the library '*) crate='' ;;
        'rt: note: '* | 'rt: running '* | 'rt: '*' begins with what a check kept in '*) ;;
        'rt: '*) say "${line#rt: }" ;;
        esac
    done
    tell_proved
}

# PROGRAM WHAT TIME: builds a program where it is not there, or older than the crates' code. Messages call it WHAT, and say that it takes TIME.
build() {
    program=$root/target/bin/$1
    if [ -x "$program" ] && [ -z "$(find "$root/crates.txt" "$root/crates" -name out -prune -o \( -name '*.rt' -o -name crates.txt \) -newer "$program" -print | head -n 1)" ]; then
        return
    fi
    command -v rt >/dev/null || fail "$2 is not built yet, and the Rattle toolchain's command rt, which builds it, is not on the PATH"
    log=$root/target/$command.log
    { mkdir -p "$root/target/bin" && (: >"$log"); } || fail "$2 must be built, and nothing can be written in $root/target"
    needed=$(crates_needed "$1") || fail "$root/crates.txt cannot be read"
    count=$(printf '%s\n' "$needed" | grep -c .)
    say "building $2: rt proves the $count crates it needs ($3 of one processor's time, if none is proved yet)"
    # rt run starts the program once it is built. What that reads is nothing here, and what it writes is let go; rt itself writes to standard error.
    made=$root/crates/$1/out/$1
    rm -f "$made.stamp"
    (cd "$root/crates/$1" && rt run 2>&1 >/dev/null </dev/null) | tee "$log" | tell_progress || :
    [ -f "$made.stamp" ] && [ -x "$made" ] || fail "rt could not build $2; what it said is in $log"
    cp "$made" "$program" || fail "$program cannot be written"
}

# PROGRAM: runs it. Programs are for x86-64.
run() { "$root/target/bin/$1"; }

# PROGRAM LINES FILE ANSWER: hands one line or several and the file to a program, and puts what it writes into the file ANSWER.
ask() {
    status=0
    said=$({ { printf '%s\n' "$2" && cat "$3"; } | run "$1" >"$4"; } 2>&1) || status=$?
    [ "$status" -eq 0 ] || fail "the program $root/target/bin/$1 ended with status $status${said:+: $said}"
    [ -z "$said" ] || fail "$said"
}

# PROGRAM: what it wrote is no whole answer.
cut_short() { fail "what the program $root/target/bin/$1 wrote was cut short"; }

# ---- Files

# FILE: it can be read.
check_file() {
    [ -e "$1" ] || fail "there is no file $1"
    [ ! -d "$1" ] || fail "$1 is a folder"
    [ -r "$1" ] || fail "the file $1 cannot be read"
}

# Standard output is there.
check_output() { (: >&1) 2>/dev/null || fail "standard output is closed"; }

# A folder for temporary files, and its removal.
make_room() {
    room=$(mktemp -d) || fail "there is no room for temporary files; TMPDIR names the folder to use"
    trap 'rm -rf "$room"' EXIT
    trap 'exit 2' HUP INT TERM
}

# FILE COPY: no program needs more of a file than its first 65,536 bytes: one so long is refused, whatever follows.
copy_start() { head -c 65536 <"$1" >"$2" || fail "the file $1 cannot be read, or there is no room for a copy of it; TMPDIR names the folder to use"; }

# FILE: how many bytes it has
size_of() { wc -c <"$1" | tr -d ' '; }

# FILE: whether it is a text. A tagged manifest begins with byte 01, and no text does; an empty file is a text.
is_text() { [ "$(head -c 1 "$1" | od -An -tu1 | tr -d ' ')" != 1 ]; }

# PATTERN: whether all of standard input is one line like this, its line feed included
one_line() {
    tr '\000' '?' | {
        IFS= read -r first || exit 1
        ! IFS= read -r second && [ -z "$second" ] && printf '%s\n' "$first" | grep -qx "$1"
    }
}
# FILE: whether it holds the line of a refusal
is_refusal() { one_line 'refused [0-9][0-9]* at [0-9][0-9]*' <"$1"; }

# ---- The program for texts

build_texts() { build manifest_text 'the program for texts' 'several minutes'; }

# FILE: whether it holds a whole result: "written", a length, a line feed and so many bytes. The length is in `length` then.
is_result() {
    IFS= read -r header <"$1" || return 1
    length=${header#written }
    case $header in
    "written $length") ;;
    *) return 1 ;;
    esac
    case $length in
    0 | [1-9] | [1-9][0-9] | [1-9][0-9][0-9] | [1-9][0-9][0-9][0-9] | [1-9][0-9][0-9][0-9][0-9]) ;;
    *) return 1 ;;
    esac
    [ "$(size_of "$1")" -eq $((${#header} + 1 + length)) ]
}

# LINE FILE ANSWER: asks the program for texts, with the list of types if there is one: it comes before what the file has, and its length before the line.
ask_with_types() {
    if [ -z "$list" ]; then
        ask manifest_text "$1" "$2" "$3"
        return
    fi
    cat "$list" "$2" >"$3.given" || fail "there is no room for temporary files; TMPDIR names the folder to use"
    ask manifest_text "types $(printf '%05d' "$(size_of "$list")") $1" "$3.given" "$3"
}

# CALL FILE RESULT: converts a text or prints a manifest into the file RESULT, and returns 0; or returns 1, with the refusal in `number` and `place`.
ask_texts() {
    ask_with_types "$1" "$2" "$3.answer"
    if is_refusal "$3.answer"; then
        read -r _ number _ place <"$3.answer"
        return 1
    fi
    is_result "$3.answer" || cut_short manifest_text
    tail -c "$length" "$3.answer" >"$3" || fail "there is no room for the result; TMPDIR names the folder to use"
}

# TEXT OFFSET: the place in a text of the token that became the field at an offset of its tagged form, in `place`.
text_place() {
    ask_with_types "place $2" "$1" "$room/place"
    one_line 'place [0-9][0-9]*' <"$room/place" || cut_short manifest_text
    read -r _ place <"$room/place"
}

# ---- What is wrong in a file

# NAME WORDS: tells it of the file that the user calls NAME.
tell() { printf '%s: %s\n' "$1" "$2" >&2 || :; }

# COLUMN: a line, as standard input has it, and a caret below the byte in this column. Of a long line a part is shown. Bytes that steer a terminal show as "?"; tabs
# stay, also before the caret; of a character with several bytes only the first moves the caret.
show_line() {
    { LC_ALL=C tr '\015' ' ' | LC_ALL=C tr '\000-\010\012-\037\177' '[?*]' && echo; } | LC_ALL=C awk -v column="$1" '{
        first = 1
        if (80 < column) {
            first = column - 60
            while (first < column && substr($0, first, 1) ~ /[\200-\277]/) first++
            before = "..."
        }
        count = 120
        while (substr($0, first + count, 1) ~ /[\200-\277]/) count++
        if (first + count <= length($0)) behind = "..."
        margin = substr($0, first, column - first)
        gsub(/[\200-\277]/, "", margin)
        gsub(/[^\t]/, " ", margin)
        print "    " before substr($0, first, count) behind
        print "    " (before ? "   " : "") margin "^"
    }'
}

# NAME TEXT PLACE WORDS: prints of a byte of a text its line and column, both from 1, the words, and the line with a caret below the byte.
show_at() {
    lines=$(head -c "$3" "$2" | LC_ALL=C tr -dc '\n' | wc -c)
    before=$(head -n "$lines" "$2" | wc -c)
    column=$(($3 - before + 1))
    printf '%s:%s:%s: %s\n' "$1" $((lines + 1)) "$column" "$4" &&
        tail -c +$((before + 1)) "$2" | head -n 1 | tr -d '\n' | show_line "$column"
}

# NAME TEXT PLACE WORDS: tells it of a byte of a text.
tell_at() { show_at "$@" >&2 || :; }

# TEXT: whether its first byte begins the token at fault, where it is refused 24 at 0: behind a space that token is one byte further on. A length's place stays 0.
begins_with_fault() {
    { printf ' ' && head -c 65534 "$1"; } >"$room/shifted" || fail "there is no room for temporary files; TMPDIR names the folder to use"
    ! ask_texts convert "$room/shifted" "$room/shifted.result" && [ "$number $place" = '24 1' ]
}

# NAME TEXT NUMBER PLACE: why the text was not converted.
explain_text() {
    size=$(size_of "$2")
    if [ "$3 $4" != '24 0' ]; then
        words=$(reason "$3")
        if [ "$3 $4" = "24 $size" ]; then words="$words: it ends here, where more must follow"; fi
        tell_at "$1" "$2" "$4" "$words"
    elif [ "$size" -gt 65535 ]; then
        tell "$1" "the text is longer than 65,535 bytes"
    elif ! is_text "$2"; then
        tell "$1" "$(reason 24): it begins with byte 01, as a tagged manifest does"
    elif begins_with_fault "$2"; then
        tell_at "$1" "$2" 0 "$(reason 24)"
    else
        tell "$1" "the tagged form of this text is longer than 65,535 bytes"
    fi
}

# NAME MANIFEST NUMBER PLACE: why the tagged manifest was refused.
explain_manifest() {
    case "$3 $4" in
    '1 '* | '2 '*) tell "$1" "$(reason "$3")" ;;
    '26 0') tell "$1" "the text of this manifest is longer than 65,535 bytes" ;;
    '3 0') if is_text "$2"; then tell "$1" "$(reason 3): it does not begin with byte 01, as a tagged manifest does"; else tell "$1" "$(reason 3); it concerns the field at byte 0"; fi ;;
    *) tell "$1" "$(reason "$3"); it concerns the field at byte $4" ;;
    esac
}

# ---- Lists of types: a file has their names, one to a line, and a program takes fields, one after the other: byte 02, the length in two bytes, the letters.

# FILE LIST: makes the list of the lines of the file, in their order, and keeps what was read of it in LIST.names. A line of more than 32 bytes is at fault whatever
# follows them, and so is the 65th: 33 bytes of a line, and 65 lines, say as much as all. An awk may fail where standard error is closed, so it is given one.
make_types() {
    copy_start "$1" "$2.names"
    fields=$(od -An -v -tu1 "$2.names" | awk '
        function finish(    k) {
            if (many++ < 65) {
                printf "\\002\\000\\%03o", count
                for (k = 1; k <= count; k++) printf "\\%03o", name[k]
            }
            count = 0
        }
        { for (i = 1; i <= NF; i++) if ($i == 10) finish(); else if (count < 33) name[++count] = $i }
        END { if (count) finish() }' 2>/dev/null) || fail "awk cannot make a list of the types in the file $1"
    # shellcheck disable=SC2059
    printf "$fields" >"$2" || fail "there is no room for temporary files; TMPDIR names the folder to use"
}

# LIST PLACE: which line became the field at this place of a list that was made so, and what is wrong with it: the offset of a byte of the file, and a word. Nothing
# where no field begins there.
fault_of_types() {
    od -An -v -tu1 "$1.names" | awk -v place="$2" '
        # whether the line comes after the one before it
        function rises(    k) {
            for (k = 1; k <= count && k <= before; k++) if (name[k] != last[k]) return last[k] < name[k]
            return before < count
        }
        function fault(    k) {
            if (many == 65) return start " many"
            if (count == 0) return start " empty"
            if (count == 33) return (start + 32) " long"
            for (k = 1; k <= count; k++) if (name[k] < 97 || 122 < name[k]) return (start + k - 1) " byte"
            if (many > 1 && !rises()) return start " order"
            return start " none"
        }
        BEGIN { at = start = passed = 0 }
        function finish(    k) {
            if (many++ < 65 && at == place) print fault()
            at += 3 + count
            for (k = 1; k <= count; k++) last[k] = name[k]
            before = count
            count = 0
            start = passed
        }
        { for (i = 1; i <= NF; i++) { passed++; if ($i == 10) finish(); else if (count < 33) name[++count] = $i + 0 } }
        END { if (count) finish() }'
}

# FILE LIST PLACE: tells why the list that was made of the file was refused 28.
explain_types() {
    if [ ! -s "$2" ]; then
        tell "$1" "the list of types is empty: the file has no line"
        return
    fi
    fault=$(fault_of_types "$2" "$3" 2>/dev/null) || fault=
    case ${fault#* } in
    many) words="a list has at most 64 types, and this is the 65th" ;;
    empty) words="a type has 1 to 32 letters, and this line is empty" ;;
    long) words="a type has at most 32 letters, and this line has more" ;;
    byte) words="a type has no other bytes than the letters a to z" ;;
    order) words="types rise, byte by byte, and this one is not above the line before it" ;;
    *)
        tell "$1" "$(reason 28); it concerns the field at byte $3 of the list"
        return
        ;;
    esac
    tell_at "$1" "$2.names" "${fault% *}" "$words"
}

# FILE LIST PLACE: ends with the refusal 28 of the list.
refuse_types() {
    print_refusal 28 "$3"
    explain_types "$1" "$2" "$3"
    exit 1
}

# ---- Manifests that are compiled. What the file holds is in "$room/given", and "$manifest" is its tagged form: the same file, or for a text another.

# NUMBER PLACE: prints the line of a refusal.
print_refusal() { echo "refused $1 at $2" || fail "standard output cannot be written"; }

# FILE: takes the manifest that the file holds, a text or a tagged one; or ends with the refusal of a text that is not converted.
take_manifest() {
    copy_start "$1" "$room/given"
    manifest=$room/given
    is_text "$manifest" || return 0
    manifest=$room/manifest
    build_texts
    if ! ask_texts convert "$room/given" "$manifest"; then
        if [ "$number" = 28 ] && [ -n "$types" ]; then refuse_types "$types" "$list" "$place"; fi
        refused=$number at=$place
        print_refusal "$refused" "$at"
        explain_text "$1" "$room/given" "$refused" "$at"
        exit 1
    fi
}

# Whether the manifest taken came as a text
from_text() { [ "$manifest" != "$room/given" ]; }

# FILE NUMBER PLACE: ends with what the compile refused. Of a text, the token that became the field concerned is told; a length has no place.
refuse_manifest() {
    if from_text && [ "$2" != 1 ] && [ "$2" != 2 ]; then
        text_place "$room/given" "$3"
        print_refusal "$2" "$place"
        tell_at "$1" "$room/given" "$place" "$(reason "$2")"
    else
        print_refusal "$2" "$3"
        explain_manifest "$1" "$manifest" "$2" "$3"
    fi
    exit 1
}
