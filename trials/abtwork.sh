# The program abtwork, as docs/FORMAT.md has it: each command and each status with both outputs, and all ways in and out.
words_are_bad='abtwork: bad command line
usage: abtwork primes N | queens N | lcs FILE FILE | mergesort FILE | mandelbrot WIDTH HEIGHT | turns NODES TURNS [--streams S]'
cannot_read='abtwork: cannot read'
cannot_write='abtwork: cannot write'

# Counts, each with its words, parted by commas, and what it prints.
try_counts() {
    local words line streams
    while read -r words line; do
        call "$program" ${words//,/ }
        came "the words '${words//,/ }'" 0 "$line" ""
    done <<'ROWS'
primes,1 primes 0
primes,2 primes 0
primes,3 primes 1
primes,10 primes 4
primes,1000 primes 168
primes,1024 primes 172
primes,1025 primes 172
primes,0001000 primes 168
primes,1000000 primes 78498
primes,10000000 primes 664579
queens,1 queens 1
queens,2 queens 0
queens,3 queens 0
queens,4 queens 2
queens,5 queens 10
queens,6 queens 4
queens,7 queens 40
queens,8 queens 92
queens,9 queens 352
queens,10 queens 724
queens,12 queens 14200
ROWS
    for streams in 1 2 3 8 64 0064; do
        call "$program" primes 100000 --streams $streams
        came "primes on $streams streams" 0 "primes 9592" ""
        call "$program" queens 8 --streams $streams
        came "queens on $streams streams" 0 "queens 92" ""
    done
}

# common FIRST SECOND LENGTH: the length of the longest common subsequence of two texts.
common() {
    printf %s "$1" >"$room/first"
    printf %s "$2" >"$room/second"
    call "$program" lcs "$room/first" "$room/second"
    came "lcs of '$1' and '$2'" 0 "lcs $3" ""
}

# bytes COUNT: so many bytes.
bytes() { head -c "$1" /dev/zero | tr '\0' a; }

try_common() {
    local streams
    common abcbdab bdcaba 4
    common XMJYAUZ MZJAWXU 4
    common '' '' 0
    common '' abc 0
    common abc '' 0
    common abc abc 3
    common abc def 0
    common $'a\nb' $'\nb' 2
    seq 1 2000 >"$room/first"
    seq 2 2001 >"$room/second"
    for streams in 1 4 64; do
        call "$program" lcs "$room/first" "$room/first" --streams $streams
        came "lcs of a long text and itself" 0 "lcs $(wc -c <"$room/first")" ""
    done
    call "$program" lcs "$room/first" "$room/second"
    cp "$room/out" "$room/wanted"
    call "$program" lcs "$room/second" "$room/first" --streams 1
    came "lcs the other way round" 0 "@$room/wanted" ""
    call "$program" lcs - "$room/first" <"$room/first"
    came "lcs of the standard input and a file" 0 "lcs $(wc -c <"$room/first")" ""
    bytes 65536 >"$room/long"
    bytes 65537 >"$room/longer"
    printf aba >"$room/short"
    call "$program" lcs "$room/long" "$room/short"
    came "the longest text" 0 "lcs 2" ""
    call "$program" lcs "$room/longer" "$room/short"
    came "a first text that is too long" 3 "" "abtwork: line 0: limit"
    call "$program" lcs "$room/short" "$room/longer"
    came "a second text that is too long" 3 "" "abtwork: line 0: limit"
    call "$program" lcs "$room/absent" "$room/short"
    came "an absent first text" 5 "" "$(blamed "$room/absent" absent)"
    call "$program" lcs "$room/short" "$room/absent"
    came "an absent second text" 5 "" "$(blamed "$room/absent" absent)"
    call "$program" lcs "$room/longer" "$room/absent"
    came "a text that is too long and an absent one" 5 "" "$(blamed "$room/absent" absent)"
}

# in_order STREAMS: the numbers on standard input are printed in order.
in_order() {
    cat >"$room/text"
    sort -n "$room/text" >"$room/wanted"
    call "$program" mergesort "$room/text" --streams "$1"
    came "$(wc -l <"$room/text") numbers on $1 streams" 0 "@$room/wanted" ""
}

# refused LINE [HINT]: the numbers on standard input are refused at this line, and this is said further.
refused() {
    cat >"$room/text"
    call "$program" mergesort "$room/text"
    came "refused at line $1" 3 "" "abtwork: line $1: number${2:+
$2}"
}

try_sorting() {
    local streams
    for streams in 1 4 64; do
        in_order $streams </dev/null
        echo 7 | in_order $streams
        printf '%s\n' 3 1 2 2 18446744073709551615 0 10 9 | in_order $streams
        seq 3000 -1 1 | in_order $streams
        awk 'BEGIN { n = 1; for (i = 0; i < 100000; i++) { n = (n * 16807) % 2147483647; print n } }' | in_order $streams
        awk 'BEGIN { for (i = 0; i < 20000; i++) print i % 7 }' | in_order $streams
    done
    printf '002\n1' >"$room/text"
    call "$program" mergesort "$room/text"
    came "leading zeros, and a last line without its end" 0 $'1\n2' ""
    printf '\n' | refused 1
    printf '1\n\n2\n' | refused 2
    printf '1\n2\n-3\n' | refused 3
    printf '+1\n' | refused 1
    printf '1 \n' | refused 1
    printf '1\r\n' | refused 1 "the line ends with a carriage return"
    printf '\xef\xbb\xbf1\n' | refused 1 "the text begins with a byte order mark"
    printf '1\n0x1\n' | refused 2
    printf '1\n18446744073709551616\n' | refused 2
    printf '1\n\xff\n' | refused 2
    { seq 5000 && echo end; } | refused 5001
    awk 'BEGIN { for (i = 0; i < 8388608; i++) print 7 }' >"$room/longest"
    { cat "$room/longest" && printf 7; } >"$room/longer"
    call "$program" mergesort "$room/longer"
    came "a list that is too long" 3 "" "abtwork: line 0: limit"
}

# escape_time X Y: how many steps lead from 0 out of the circle, by whole numbers of which 2^24 stand for 1.
escape_time() {
    local one=16777216 x=0 y=0 n=0 next
    while [ $n -lt 255 ] && [ $((x * x + y * y)) -le $((4 * one * one)) ]; do
        next=$((x * x / one - y * y / one + $1))
        y=$((2 * (x * y / one) + $2))
        x=$next
        n=$((n + 1))
    done
    printf '%b' "\\x$(printf %x $n)"
}

# picture WIDTH HEIGHT: the picture, by the shell.
picture() {
    local one=16777216 line column
    printf 'P5\n%d %d\n255\n' "$1" "$2"
    for ((line = 0; line < $2; line++)); do
        for ((column = 0; column < $1; column++)); do
            escape_time $((7 * one * column / (2 * $1) - 5 * one / 2)) $((5 * one * line / (2 * $2) - 5 * one / 4))
        done
    done
}

try_pictures() {
    local size streams
    for size in '1 1' '7 5' '16 9' '3 20'; do
        picture $size >"$room/wanted"
        for streams in 1 4 64; do
            call "$program" mandelbrot $size --streams $streams
            came "a picture of $size on $streams streams" 0 "@$room/wanted" ""
        done
    done
    for size in '4096 1' '1 4096' '640 480'; do
        call "$program" mandelbrot $size
        holds "a picture of $size has a byte for each pixel" [ "$status $(wc -c <"$room/out")" = "0 $((${size/ / * } + 8 + ${#size}))" ]
    done
}

# turned NODES TURNS: the line of their sum, by the arithmetic of the shell, which is modulo 2^64.
turned() {
    local node turn word sum=0
    for ((node = 0; node < $1; node++)); do
        word=$node
        for ((turn = 0; turn < $2; turn++)); do
            word=$((word * (2 * word + 1) + 7))
        done
        sum=$((sum + word))
    done
    printf 'turns %u\n' "$sum"
}

try_turns() {
    local size streams
    for size in '1 1' '5 3' '100 20'; do
        turned $size >"$room/wanted"
        for streams in 1 4 64; do
            call "$program" turns $size --streams $streams
            came "turns of $size on $streams streams" 0 "@$room/wanted" ""
        done
    done
    call "$program" turns 65536 1
    holds "as many nodes as there may be" [ "$status $(wc -l <"$room/out")" = "0 1" ]
}

# Words that ask for nothing, each with the words parted by blanks.
try_bad_words() {
    local words
    for words in '' primes 'primes 0' 'primes 10000001' 'primes -3' 'primes +3' 'primes 3x' 'primes 1 2' 'primes 18446744073709551617' \
        queens 'queens 0' 'queens 13' 'queens 8 8' 'Queens 8' 'queensx 8' '8 queens' lcs 'lcs f' 'lcs f f f' 'lcs - -' mergesort 'mergesort f f' \
        mandelbrot 'mandelbrot 3' 'mandelbrot 0 3' 'mandelbrot 3 0' 'mandelbrot 4097 3' 'mandelbrot 3 4097' 'mandelbrot 3 4 5' \
        turns 'turns 3' 'turns 0 3' 'turns 3 0' 'turns 65537 3' 'turns 3 65537' 'turns 3 4 5' \
        'primes 9 --streams' 'primes 9 --streams 0' 'primes 9 --streams 65' 'primes 9 --streams +4' 'primes 9 --streams=4' \
        'primes 9 --streams 4 4' 'primes 9 --stream 4' 'primes --streams 4 9' '--streams 4 primes 9' '-- primes 9' '--help 9' '-h' '--version --help' help; do
        call "$program" $words
        came "the words '$words'" 2 "" "$words_are_bad"
    done
    call "$program" '' 5
    came "an empty word" 2 "" "$words_are_bad"
    call "$program" primes ''
    came "an empty number" 2 "" "$words_are_bad"
    call "$program" 'primes 9'
    came "two words in one" 2 "" "$words_are_bad"
    call "$program" primes $'9\n'
    came "a line feed after a number" 2 "" "$words_are_bad"
    call "$program" primes $'9\xff'
    came "a word that is not UTF-8" 2 "" "abtwork: bad command line"
    call "$program" primes ٣
    came "digits that are not ASCII" 2 "" "$words_are_bad"
}

# What the program says of itself.
try_itself() {
    call "$program" --help
    came "its words" 0 "$(printf 'abtwork %s\n' 'primes N [--streams S]' 'queens N [--streams S]' 'lcs FILE FILE [--streams S]' 'mergesort FILE [--streams S]' \
        'mandelbrot WIDTH HEIGHT [--streams S]' 'turns NODES TURNS [--streams S]' --help --version)" ""
    call "$program" --version
    came "its version" 0 "$(version_of abtwork)" ""
    fills "$cannot_write" "$program" --version
}

# A few bytes at a time, in and out; and each read and each write fails in turn.
try_few_bytes() {
    local most
    for most in 1 7; do
        meddled TRIAL_READ=$most TRIAL_WRITE=$most "$program" mergesort "$numbers"
        came "reads and writes of $most bytes" 0 "@$sorted" ""
        meddled TRIAL_WRITE=$most "$program" queens 8
        came "writes of $most bytes" 0 "queens 92" ""
        meddled TRIAL_WRITE=$most "$program" draw
        came "writes of $most bytes of a message" 2 "" "$words_are_bad"
    done
    tries_failing_reads mergesort "$numbers" 25
    tries_failing_writes mergesort "$numbers" "$sorted" 100 draw
}

try_names() {
    mkdir -p "$room/lists"
    cd "$room/lists" || return
    tries_long_names mergesort "$numbers" "@$sorted"
    tries_names mergesort "$numbers" "@$sorted" 'with  blanks' ' ' $'line\nfeed' 'größe' "quote'\"" '*' '#' primes --help -x -- 'a=b' '...'
    cp "$numbers" ./-
    call "$program" mergesort ./-
    came "the name './-'" 0 "@$sorted" ""
    cd "$root" || return
}

try_reading() {
    tries_reading mergesort "$numbers" "@$sorted"
    call "$program" mergesort ''
    came "an empty name" 5 "" "$(blamed "" absent)"
    call "$program" queens 8 <&-
    came "standard input is not read" 0 "queens 92" ""
}

try_writing() {
    tries_writing mergesort "$numbers" "@$sorted" draw
    tries_a_small_file "$sorted" mergesort "$numbers"
    slowly "$program" mergesort "$numbers"
    came "a slow reader" 0 "@$sorted" ""
}

if ! make_meddler; then
    miss meddle "trials/meddle.c cannot be compiled"
    return
fi
numbers=$room/numbers
sorted=$room/sorted
seq 900 -7 3 >"$numbers"
seq 900 7 2000 >>"$numbers"
sort -n "$numbers" >"$sorted"
try_counts
try_common
try_sorting
try_pictures
try_turns
try_bad_words
try_itself
try_few_bytes
try_names
try_reading
try_writing
signalled TERM 143 "$numbers" "$program" mergesort -
signalled INT 130 "$numbers" "$program" mergesort -
refuse_memory
