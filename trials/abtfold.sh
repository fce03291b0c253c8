# The program abtfold, as docs/FORMAT.md has it: each status with both outputs, and all ways out.
words_are_bad='abtfold: bad command line
usage: abtfold W N'
cannot_write='abtfold: cannot write'

# Folds, each with its words and what it prints.
try_sums() {
    local words sum
    while read -r words sum; do
        call "$program" ${words//,/ }
        came "the words '${words//,/ }'" 0 "sum $sum" ""
    done <<'ROWS'
1,1 1
8,1 1
1,2 3
2,3 6
3,100 5050
7,4095 8386560
1,4096 8390656
8,4096 8390656
0008,004096 8390656
ROWS
    local time
    for time in 1 2 3 4 5 6 7 8 9 10; do
        call "$program" 8 4096
        came "eight workers, time $time" 0 "sum 8390656" ""
    done
}

# Words that are not as said, each with the words parted by blanks.
try_bad_words() {
    local words
    for words in '' 3 '3 100 1' '0 5' '9 5' '3 0' '3 4097' '-3 5' '+3 5' '3 -5' '3 +5' '3x 5' '3 5x' '3.0 5' '0x3 5' 'three 5' \
        '3 4294967297' '18446744073709551617 5' '3 99999999999999999999999999999999' '-- 3 100' '--help 3' '-h' '--version --help' help; do
        call "$program" $words
        came "the words '$words'" 2 "" "$words_are_bad"
    done
    call "$program" '' 5
    came "an empty word" 2 "" "$words_are_bad"
    call "$program" 3 ''
    came "an empty second word" 2 "" "$words_are_bad"
    call "$program" '3 100'
    came "two words in one" 2 "" "$words_are_bad"
    call "$program" ' 3' 100
    came "a blank before a number" 2 "" "$words_are_bad"
    call "$program" 3 $'100\n'
    came "a line feed after a number" 2 "" "$words_are_bad"
    call "$program" 3 $'1\xff'
    came "a word that is not UTF-8" 2 "" "abtfold: bad command line"
    call "$program" ٣ 100
    came "digits that are not ASCII" 2 "" "$words_are_bad"
}

# What the program says of itself.
try_itself() {
    call "$program" --help
    came "its words" 0 "$(printf 'abtfold %s\n' 'W N' --help --version)" ""
    call "$program" --version
    came "its version" 0 "$(version_of abtfold)" ""
}

# Each write fails in turn, and writes move few bytes.
try_few_bytes() {
    local most
    for most in 1 7; do
        meddled TRIAL_WRITE=$most "$program" 3 100
        came "writes of $most bytes" 0 "sum 5050" ""
    done
    printf 'sum 5050\n' >"$room/whole"
    tries_failing_writes 3 100 "$room/whole" 3 3
    meddled TRIAL_WRITE=1 "$program" 3
    came "a message in writes of one byte" 2 "" "$words_are_bad"
}

try_writing() {
    tries_writing 3 100 "sum 5050" 3
    slowly "$program" 3 100
    came "a slow reader" 0 "sum 5050" ""
    "$program" 0 100 >&- 2>&- <&-
    status=$?
    : >"$room/err"
    ended "bad words with all three closed" 2 ""
    echo 7 7 >"$room/in"
    call "$program" 3 100 <"$room/in"
    came "standard input is not read" 0 "sum 5050" ""
}

# Those who wait for a booth that is held long sleep, and do not look at it again and again: in a test whose program `rt ci` leaves.
try_sleeps() {
    local tests=$root/crates/trials_booth/out/trials_booth_tests
    if [ ! -x "$tests" ]; then
        skip "callers of a booth" "there is no $tests: ./test makes it"
        return
    fi
    meddled TRIAL_SLEEPS="$room/count" "$tests" counters::each_caller_is_answered_once_the_clock_is_worn
    holds "the callers of a booth are answered" [ "$status" = 0 ]
    holds "the callers of a booth sleep" [ "$(cat "$room/count")" -lt 1000 ]
}

if ! make_meddler; then
    miss meddle "trials/meddle.c cannot be compiled"
    return
fi
try_sums
try_bad_words
try_itself
try_few_bytes
try_writing
try_sleeps
refuse_memory
