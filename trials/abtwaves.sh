# The program abtwaves, as docs/FORMAT.md has it: each status with both outputs, and all ways in and out.
lives=$root/crates/abtwaves/data
made=$root/crates/abtwaves/stdout
words_are_bad='abtwaves: bad command line
usage: abtwaves WORKLOAD LIVES [--steps V] [--journal]'
cannot_read='abtwaves: cannot read'
cannot_write='abtwaves: cannot write'

# The workload without the event that starts stream 1.
stuck_text() { grep -v '^eset 0$' "$lives/made.abt"; }

# Two units that revive each other for ever.
reviving_text() {
    printf '%s\n' 'abt 1' 'streams 1' 'pool 0 fifo mpmc' 'sched 0 prio 0' 'stream 0 main 0' 'units 2' 'unit 0 ult at 0' 'revive 1 0' \
        'unit 1 ult at 0' 'revive 0 0' end
}

# A workload of a hundred units, no lives, and what it prints.
write_long() {
    local unit
    printf '%s\n' 'abt 2' 'streams 1' 'pool 0 fifo mpmc' 'sched 0 prio 0' 'stream 0 main 0' 'units 100' 'many 0 100 ult at 0' 'say hello' \
        end >"$room/long.abt"
    : >"$room/none.lives"
    {
        for unit in $(seq 0 99); do echo "unit $unit done: hello"; done
        printf '%s\n' 'tally units 100 unborn 0 pool 0 stream 0 blocked 0 done 100 asked 0 access 0 steps 100' finished 'wave 0 from 0 streams 0'
    } >"$room/long.out"
}

try_runs() {
    local time
    for time in 1 2 3 4 5 6 7 8 9 10; do
        call "$program" "$lives/made.abt" "$lives/made.lives"
        came "a stream that is born, time $time" 0 "@$made" ""
    done
    stuck_text >"$room/stuck.abt"
    call "$program" "$room/stuck.abt" "$lives/made.lives"
    came "a stream that is never born" 1 "$(printf '%s\n' 'unit 0 done:' 'unit 1 pool 1:' 'tally units 2 unborn 0 pool 1 stream 0 blocked 0 done 1 asked 0 access 0 steps 1' stuck 'wave 0 from 0 streams 0')" ""
    call "$program" "$lives/made.abt" "$room/none.lives"
    holds "without lives both streams run" [ "$status" = 0 ]
    reviving_text >"$room/reviving.abt"
    call "$program" "$room/reviving.abt" "$room/none.lives"
    came "as many steps as a stream may make" 4 "$(printf '%s\n' 'unit 0 stream 0: !unit-state' 'unit 1 done:' 'tally units 2 unborn 0 pool 0 stream 1 blocked 0 done 1 asked 0 access 0 steps 10000' 'budget 0' 'wave 0 from 0 streams 0')" ""
    call "$program" "$room/long.abt" "$room/none.lives"
    came "a hundred units" 0 "@$room/long.out" ""
    local name
    for name in rotate mirror; do
        { cat "$root/crates/abt_examples/data/$name.out" && echo "wave 0 from 0 streams 0"; } >"$room/ordered.out"
        call "$program" "$root/crates/abt_examples/data/$name.abt" "$room/none.lives"
        came "a stored order that is $name" 0 "@$room/ordered.out" ""
    done
    { printf 'life 1 0 1\n\n'; printf '  # both run\n\t\n#' ; } >"$room/skipped.lives"
    call "$program" "$lives/made.abt" "$room/skipped.lives"
    came "lives among skipped lines" 0 "@$made" ""
    printf '%s\n' '# streams of this' '' "$(printf ' \t# workload')" 'life 1 0 1' '#' >"$room/skipped.lives"
    call "$program" "$lives/made.abt" "$room/skipped.lives"
    came "lives behind skipped lines" 0 "@$made" ""
    call "$program" - "$lives/made.lives" <"$lives/made.abt"
    came "the workload on standard input" 0 "@$made" ""
    call "$program" "$lives/made.abt" - <"$lives/made.lives"
    came "the lives on standard input" 0 "@$made" ""
}

# The journal, the number of steps, and what the program says of itself.
try_options() {
    call "$program" "$lives/made.abt" --journal "$lives/made.lives"
    holds "the journal and then the output" [ "$status $(head -n -6 "$room/out" | grep -c '^[0-9]')" = "0 $(($(wc -l <"$room/out") - 6))" ]
    tail -n 6 "$room/out" | diff - "$made" >"$room/diff"
    holds "the output behind the journal" [ ! -s "$room/diff" ]
    call "$program" "$lives/made.abt" "$lives/made.lives" --steps 3
    came "as many steps as there are" 0 "@$made" ""
    call "$program" --steps=100000 "$lives/made.abt" "$lives/made.lives"
    came "as many steps as the first format allows" 0 "@$made" ""
    call "$program" "$lives/made.abt" --steps 100001 "$lives/made.lives"
    came "more steps than the first format allows" 2 "" "$words_are_bad"
    sed 's/^abt 1$/abt 3/' "$lives/made.abt" >"$room/third.abt"
    call "$program" "$room/third.abt" --steps 16777216 "$lives/made.lives"
    came "as many steps as the third format allows" 0 "@$made" ""
    call "$program" "$room/reviving.abt" "$room/none.lives" --steps 8
    came "eight steps" 4 "$(printf '%s\n' 'unit 0 stream 0: !unit-state' 'unit 1 done:' 'tally units 2 unborn 0 pool 0 stream 1 blocked 0 done 1 asked 0 access 0 steps 8' 'budget 0' 'wave 0 from 0 streams 0')" ""
    sed 's/^abt 1$/abt 3/' "$room/reviving.abt" >"$room/third.abt"
    call "$program" "$room/third.abt" "$room/none.lives"
    holds "10,000 steps by the third format too" [ "$status $(grep -c 'steps 10000$' "$room/out")" = "4 1" ]
    call "$program" --help
    came "its words" 0 "$(printf '%s\n' 'abtwaves WORKLOAD LIVES [--steps V] [--journal]' 'abtwaves --help' 'abtwaves --version')" ""
    call "$program" --version
    came "its version" 0 "$(version_of abtwaves)" ""
    cp "$lives/made.abt" "$room/--journal"
    cd "$room" || return
    call "$program" -- --journal "$lives/made.lives"
    came "a name that is spelled as an option" 0 "@$made" ""
    cd "$root" || return
}

# Three streams of which each lives from wave to wave, and whose units hand one another on.
chain_text() {
    local unit
    printf '%s\n' 'abt 2' 'streams 3'
    for unit in 0 1 2; do echo "pool $unit fifo mpmc"; done
    for unit in 0 1 2; do echo "sched $unit prio $unit"; done
    for unit in 0 1 2; do echo "stream $unit main $unit"; done
    for unit in $(seq 0 60); do echo "object $unit eventual"; done
    echo 'units 60'
    for unit in $(seq 0 59); do printf '%s\n' "unit $unit ult at $((unit % 3))" "ewait $((unit + 1))" "eset $unit"; done
}

# Streams that share one thread do not sleep for one another, in any wave.
try_threads() {
    { chain_text | sed 's/^ewait 60$/set 1/' && echo end; } >"$room/chain.abt"
    meddled TRIAL_THREADS=0 TRIAL_SLEEPS="$room/count" "$program" "$room/chain.abt" "$room/none.lives"
    holds "three streams and no further thread" [ "$status $(grep -c '^finished$' "$room/out")" = "0 1" ]
    holds "there were several waves" [ "$(grep -c '^wave ' "$room/out")" -gt 5 ]
    holds "streams that share one thread do not sleep for one another" [ "$(cat "$room/count")" -lt 4 ]
}

try_bad_words() {
    local words
    for words in '' one 'one two three' '- -' '--help one' '--help --help' '-h one' '--version --help' 'one --journal' '--steps 5 one' \
        'one two --steps' 'one two --steps 0' 'one two --steps +5' 'one two --steps 16777217' 'one two --steps 5 --steps 5' \
        'one two --journal --journal' 'one two --journal=x' 'one two --why' '--journal two --steps one' '-- one two --journal'; do
        call "$program" $words
        came "the words '$words'" 2 "" "$words_are_bad"
    done
    call "$program" '' "$lives/made.lives"
    came "an empty word" 2 "" "$words_are_bad"
    call "$program" "$lives/made.abt" ''
    came "an empty second word" 2 "" "$words_are_bad"
    call "$program" "$lives/made.abt" $'a\xff'
    came "a word that is not UTF-8" 2 "" "abtwaves: bad command line"
}

# Lives texts that break a rule, each with its line.
try_bad_lives() {
    local line text hint
    while IFS='|' read -r line text hint; do
        printf "$text" >"$room/bad.lives"
        call "$program" "$lives/made.abt" "$room/bad.lives"
        came "the lives '$text'" 3 "" "abtwaves: line $line: life${hint:+
$hint}"
    done <<'ROWS'
1|life 1 0 0\n
1|life 2 0 1\n
1|life 1 0 2\n
1|life 1 0 1
1|life  1 0 1\n
1|life 01 0 1\n
1|life 1 0\n
1|life 1 0 1 \n
1| life 1 0 1\n
1|\r\n|the line ends with a carriage return
1|\xef\xbb\xbflife 1 0 1\n|the text begins with a byte order mark
1|# a comment that is not UTF-8 \xff\n
1|live 1 0 1\n
2|life 1 0 1\nlife 1 0 1\n
3|\n\nlife 1 0 0\n
4|# first\nlife 1 0 1\n \t\nlife 1 0 1\n
2|#\nlife 1 0 1
2|life 1 0 1\n;\n
ROWS
    head -c 65536 /dev/zero | tr '\0' 'l' >"$room/long.lives"
    call "$program" "$lives/made.abt" "$room/long.lives"
    came "lives of 65,536 bytes that are no lives" 3 "" "abtwaves: line 1: life"
    { cat "$lives/made.lives" && head -c 65525 /dev/zero | tr '\0' '#'; } >"$room/long.lives"
    call "$program" "$lives/made.abt" "$room/long.lives"
    came "lives of 65,536 bytes" 0 "@$made" ""
    printf '#' >>"$room/long.lives"
    call "$program" "$lives/made.abt" "$room/long.lives"
    came "lives of 65,537 bytes" 3 "" "abtwaves: line 0: life"
    echo "abt 4" >"$room/bad.abt"
    call "$program" "$room/bad.abt" "$room/long.lives"
    came "a workload that is refused first" 3 "" "abtwaves: line 1: version"
}

# The longest workload that there may be, and one byte more.
try_lengths() {
    local length
    length=$(wc -c <"$lives/made.abt")
    { cat "$lives/made.abt" && printf '#%*s' $((4194304 - length - 1)) x; } >"$room/longest.abt"
    holds "the longest workload has as many bytes" [ "$(wc -c <"$room/longest.abt")" = 4194304 ]
    call "$program" "$room/longest.abt" "$lives/made.lives"
    came "the longest workload" 0 "@$made" ""
    call "$program" - "$lives/made.lives" <"$room/longest.abt"
    came "the longest workload on standard input" 0 "@$made" ""
    cat "$room/longest.abt" >"$room/fifo" &
    call "$program" "$room/fifo" "$lives/made.lives"
    came "the longest workload through a named pipe" 0 "@$made" ""
    printf y >>"$room/longest.abt"
    call "$program" "$room/longest.abt" "$lives/made.lives"
    came "one byte more" 3 "" "abtwaves: line 0: limit"
}

# A few bytes at a time, in and out; and each read and each write fails in turn.
try_few_bytes() {
    local most number
    for most in 1 7; do
        meddled TRIAL_READ=$most TRIAL_WRITE=$most "$program" "$lives/made.abt" "$lives/made.lives"
        came "reads and writes of $most bytes" 0 "@$made" ""
        meddled TRIAL_READ=$most TRIAL_WRITE=$most "$program" "$lives/made.abt" - <"$lives/made.lives"
        came "reads and writes of $most bytes on standard input" 0 "@$made" ""
        meddled TRIAL_WRITE=$most "$program" walk
        came "writes of $most bytes of a message" 2 "" "$words_are_bad"
    done
    tries_failing_reads "$lives/made.abt" "$lives/made.lives" 100 "$lives/made.abt"
    # (four reads end the workload, and two the lives)
    meddled TRIAL_READ=100 TRIAL_NO_READ=4 "$program" "$lives/made.abt" "$lives/made.lives"
    came "read 4 fails" 5 "" "$(blamed "$lives/made.abt" "cannot be read")"
    for number in 5 6; do
        meddled TRIAL_READ=100 TRIAL_NO_READ=$number "$program" "$lives/made.abt" "$lives/made.lives"
        came "read $number fails" 5 "" "$(blamed "$lives/made.lives" "cannot be read")"
    done
    meddled TRIAL_READ=100 TRIAL_NO_READ=7 "$program" "$lives/made.abt" "$lives/made.lives"
    came "no read fails" 0 "@$made" ""
    tries_failing_writes "$lives/made.abt" "$lives/made.lives" "$made" 10 walk
}

try_names() {
    mkdir -p "$room/lives"
    cd "$room/lives" || return
    tries_long_names "$lives/made.abt" "$lives/made.lives" "@$made"
    tries_names "$lives/made.abt" "$lives/made.lives" "@$made" 'with  blanks' ' ' $'line\nfeed' $'t\tab' 'größe' "quote'\"" '*' '#' life ./-x ./- \
        'a=b' '...'
    mkdir -p "a folder"
    cp "$lives/made.abt" "a folder/a workload"
    call "$program" "a folder/a workload" "$lives/made.lives"
    came "a workload with blanks in its name" 0 "@$made" ""
    cd "$root" || return
}

try_reading() {
    tries_reading "$lives/made.abt" "$lives/made.lives" "@$made"
    call "$program" "$room/absent" "$lives/made.lives"
    came "a workload that is absent" 5 "" "$(blamed "$room/absent" absent)"
    call "$program" "$room" "$lives/made.lives"
    came "a folder as the workload" 5 "" "$(blamed "$room" "a folder")"
    call "$program" - "$lives/made.lives" <&-
    came "a workload on a closed standard input" 5 "" "$(blamed - "cannot be read")"
}

try_writing() {
    tries_writing "$lives/made.abt" "$lives/made.lives" "@$made" walk
    slowly "$program" "$lives/made.abt" "$lives/made.lives"
    came "a slow reader" 0 "@$made" ""
    tries_a_small_file "$room/long.out" "$room/long.abt" "$room/none.lives"
}

if ! make_meddler; then
    miss meddle "trials/meddle.c cannot be compiled"
    return
fi
mkfifo "$room/fifo"
write_long
try_runs
try_options
try_threads
try_bad_words
try_bad_lives
try_lengths
try_few_bytes
try_names
try_reading
try_writing
signalled TERM 143 "$lives/made.lives" "$program" "$lives/made.abt" -
signalled HUP 129 "$lives/made.lives" "$program" "$lives/made.abt" -
signalled KILL 137 "$lives/made.lives" "$program" "$lives/made.abt" -
signalled INT 130 "$lives/made.lives" "$program" "$lives/made.abt" -
refuse_memory
rm "$room/fifo"
