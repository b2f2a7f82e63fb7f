#!/usr/bin/env bash
# The programs where input, output, the phrase book, the identity or a listing's file fails: what each says on standard error, and that it
# then prints nothing (docs/PROGRAMS.md).
#     bash tests/failing.sh           the programs in target/bin
# Prints each difference, and ends with status 0 where there is none.
set -u
cd "$(dirname "$0")/../target/bin" || exit 2
work=$(mktemp -d)
trap 'rm -rf "$work"' EXIT
printf '000009 4 3132\n' > "$work/job"
./page_send < "$work/job" > "$work/listing"
# the listing's words as a radio's bits, eight to a byte
printf "$(tr -d ' \n' < "$work/listing" | sed 's/../\\x&/g')" > "$work/recording"
wrong=0

# WHAT PRINTED SAID: the run before must have printed and said exactly this
expect() {
    if [ "$(cat "$work/out")" != "$2" ] || [ "$(cat "$work/err")" != "$3" ]; then
        printf '%s, %s: printed "%s", said "%s"\n' "$program" "$1" "$(cat "$work/out")" "$(cat "$work/err")"
        wrong=1
    fi
    : > "$work/out"
}

# WHAT PRINTED SAID ARGUMENT...: a run with these arguments
with() {
    local what=$1 printed=$2 said=$3
    shift 3
    timeout 10 "./$program" "$@" < "$input" > "$work/out" 2> "$work/err"
    expect "$what" "$printed" "$said"
}

# WHICH ARGUMENT...: the program with these arguments, where input or output fails
failing() {
    local which=$1
    shift
    "./$program" "$@" <&- > "$work/out" 2> "$work/err"
    expect "closed input$which" '' "$program: standard input can't be read"
    "./$program" "$@" < / > "$work/out" 2> "$work/err"
    expect "a folder as input$which" '' "$program: standard input can't be read"
    "./$program" "$@" < "$input" >&- 2> "$work/err"
    expect "closed output$which" '' "$program: standard output can't be written"
    "./$program" "$@" < "$input" > /dev/full 2> "$work/err"
    expect "full output$which" '' "$program: standard output can't be written"
    (sleep 0.2; exec "./$program" "$@" < "$input" 2> "$work/err") | true
    expect "an output that nobody reads$which" '' "$program: standard output can't be written"
}

for program in page_send page_read page_read_slow page_follow page_receive; do
    input=$work/listing good=$(cat "$work/job") arguments=() refused=/dev/null
    case $program in
        page_send) input=$work/job good=$(cat "$work/listing") ;;
        page_follow) arguments=(000009) ;;
        # nothing is a recording without a batch
        page_receive) input=$work/recording refused=/dev/zero ;;
    esac
    with 'all is well' "$good" '' "${arguments[@]}"
    failing '' "${arguments[@]}"
    "./$program" "${arguments[@]}" < "$refused" > /dev/full 2> "$work/err"
    expect 'a refusal to a full output' '' "$program: standard output can't be written"
    (sleep 0.2; head -c 5 "$input"; sleep 0.2; tail -c +6 "$input") | "./$program" "${arguments[@]}" > "$work/out" 2> "$work/err"
    expect 'slow input' "$good" ''
done

# ---- the sending program with a book (R-6)
program=page_send input=$work/job
printf '48656C6C6F\n4F4B\n' > "$work/book"
printf '000009 9 01\n' > "$work/job"
good=$(printf '000009 5 4F4B\n' | ./page_send)
unread="page_send: the phrase book can't be read"
usage='page_send: usage: page_send [BOOK]'
slashes=$(printf '%*s' $((4095 - ${#work} - 4)) '' | tr ' ' /)
with 'a book' "$good" '' "$work/book"
with 'a book with a name of 4,095 bytes' "$good" '' "$work${slashes}book"
with 'a book with a name of 4,096 bytes' '' "$usage" "$work/${slashes}book"
with 'a book without a name' '' "$usage" ''
with 'two books' '' "$usage" "$work/book" "$work/book"
with 'a missing book' '' "$unread" "$work/none"
with 'a folder as a book' '' "$unread" /
cp "$work/book" "$work/b"$'\xff'
with 'a book whose name is no UTF-8' '' "$unread" "$work/b"$'\xff'
with 'an empty book' 'refused 4 place 1' '' /dev/null
with 'a book without end' 'refused 19 place 1' '' /dev/zero
mkfifo "$work/pipe"
(cd "$work" && timeout 10 sh -c 'exec > pipe; sleep 0.2; head -c 5 book; sleep 0.2; tail -c +6 book') &
with 'a slow book' "$good" '' "$work/pipe"
wait
failing ' with a book' "$work/book"
./page_send "$work/job" < "$work/job" > /dev/full 2> "$work/err"
expect 'a refusal of the book to a full output' '' "$program: standard output can't be written"

# ---- the following program with its identity (R-4)
program=page_follow input=$work/listing
usage='page_follow: usage: page_follow IDENTITY'
with 'another identity' '' '' 000001
with 'an identity over the limit' 'refused 2 place 0' '' 200000
with 'a reserved identity' 'refused 3 place 0' '' 1EA270
# WHAT ARGUMENT...: arguments that name no identity, with an input, with one that fails and with one that has no end
nothing() {
    local what=$1
    shift
    for input in "$work/listing" / /dev/zero; do
        with "$what, input $input" '' "$usage" "$@"
    done
}
nothing 'no identity'
nothing 'an empty identity' ''
nothing 'five digits' 00009
nothing 'seven digits' 0000009
nothing 'lower case' 00000a
nothing 'no digit' 00000G
nothing 'a space' '000009 '
nothing 'two identities' 000009 000009
nothing 'a second argument that is empty' 000009 ''
./page_follow 00000a <&- > "$work/out" 2> "$work/err"
expect 'lower case and closed input' '' "$usage"
{ ./page_follow 00000a 2> "$work/err"; cat; } < "$work/listing" > "$work/out"
expect 'lower case, and what is left of the input' "$(cat "$work/listing")" "$usage"
input=/dev/zero
with 'an input without end' 'refused 24 place 0' '' 000009
with 'an input without end and an identity over the limit' 'refused 24 place 0' '' 200000

# ---- the receiving program with its recording (R-10)
program=page_receive
with 'an input without end' 'refused 24 place 0' ''
input=/dev/null
with 'an empty input' '' ''
head -c 65536 /dev/zero > "$work/silence"
input=$work/silence
with '65,536 bytes without a batch' '' ''
printf x >> "$work/silence"
with '65,537 bytes' 'refused 24 place 0' ''
input=$work/listing
with 'a listing, which is no recording' '' ''

# ---- the coverage program with its files (R-12)
program=page_coverage input=/dev/null
# WORDS PAGES SYNCS LISTINGS REFUSED: the report of so many words in each frame, pages in frame 1, and syncs, with no bit wrong, and of so
# many listings, some of them refused with 21
report() {
    for frame in 0 1 2 3 4 5 6 7; do
        echo "frame $frame unchanged $1 one 0 two 0 lost 0 whole $((frame == 1 ? $2 : 0)) cut 0 rate 0 remainder 0"
    done
    echo "sync unchanged $3 one 0 two 0 rate 0 remainder 0"
    echo "listings $4 refused21 $5 refused22 0 refused23 0"
}
nothing=$(report 0 0 0 0 0)
one=$(report 2 1 1 1 0)
no_name="page_coverage: a file's name is empty or over 4,095 bytes"
full="page_coverage: standard output can't be written"
slashes=$(printf '%*s' $((4095 - ${#work} - 7)) '' | tr ' ' /)
with 'no file' "$nothing" ''
with 'a file' "$one" '' "$work/listing"
with 'the same file twice' "$(report 4 2 2 2 0)" '' "$work/listing" "$work/listing"
with 'files that are no listings' "$(report 2 1 1 3 2)" '' "$work/job" "$work/listing" /dev/null
with 'a file with a name of 4,095 bytes' "$one" '' "$work${slashes}listing"
with 'a file with a name of 4,096 bytes' '' "$no_name" "$work/${slashes}listing"
with 'a file without a name' '' "$no_name" ''
with 'a second file without a name' '' "$no_name" "$work/listing" ''
with 'a missing file' '' "page_coverage: $work/none can't be read" "$work/none"
with 'a second file that is missing' '' "page_coverage: none can't be read" "$work/listing" none
with 'a missing file before another' '' "page_coverage: none can't be read" none "$work/listing"
with 'a folder as a file' '' "page_coverage: / can't be read" /
cp "$work/listing" "$work/l"$'\xff'
with 'a file whose name is no UTF-8' '' "page_coverage: $work/l"$'\xff'" can't be read" "$work/l"$'\xff'
with 'a folder between two files' '' "page_coverage: $work can't be read" "$work/listing" "$work" "$work/listing"
with 'a file without end' "$(report 2 1 1 2 1)" '' /dev/zero "$work/listing"
(cd "$work" && timeout 10 sh -c 'exec > pipe; sleep 0.2; head -c 5 listing; sleep 0.2; tail -c +6 listing') &
with 'a slow file' "$one" '' "$work/pipe"
wait
files=()
while [ ${#files[@]} -lt 1000 ]; do files+=("$work/listing"); done
with '1,000 files' "$(report 2000 1000 1000 1000 0)" '' "${files[@]}"
with '1,001 files' 'refused 23 place 1001' '' "${files[@]}" "$work/listing"
with '1,001 files, of which the last is no listing' 'refused 23 place 1001' '' "${files[@]}" /dev/null
# its standard input is nobody's
./page_coverage "$work/listing" <&- > "$work/out" 2> "$work/err"
expect 'closed input' "$one" ''
{ ./page_coverage "$work/listing" 2> "$work/err"; cat; } < "$work/job" > "$work/out"
expect 'what is left of the input' "$one
$(cat "$work/job")" ''
for file in "$work/listing" /dev/null; do
    ./page_coverage "$file" >&- 2> "$work/err"
    expect "closed output, $file" '' "$full"
    ./page_coverage "$file" > /dev/full 2> "$work/err"
    expect "full output, $file" '' "$full"
done
./page_coverage > /dev/full 2> "$work/err"
expect 'no file and a full output' '' "$full"
(sleep 0.2; exec ./page_coverage 2> "$work/err") | true
expect 'no file and an output that nobody reads' '' "$full"
./page_coverage "${files[@]}" "$work/listing" > /dev/full 2> "$work/err"
expect 'a refusal to a full output' '' "$full"
./page_coverage none > /dev/full 2> "$work/err"
expect 'a missing file and a full output' '' "page_coverage: none can't be read"
exit $wrong
