# What the trials share. A trial is a call and what it must have come to.

# What tools say is the same everywhere.
export LC_ALL=C

# The most seconds that one call may take. It ends a call that hangs, and says nothing of how fast one is.
most_seconds=600
passed=0
failed=0

# What is tried, as the lines of failed trials name it.
subject=

# The folder that `make_room` makes.
room=

pass() { passed=$((passed + 1)); }

# miss TITLE WHY: a trial that failed.
miss() {
    failed=$((failed + 1))
    echo "FAILED: $subject: $1: $2"
}

# skip TITLE WHY: a trial that needs what this machine does not have.
skip() { echo "skipped: $subject: $1: $2"; }

# Sets $room to a new folder in which files can be run, which goes at the end: below the system's folder for temporary files
# or, if nothing can be run there, below out/.
make_room() {
    local parent
    trap 'rm -rf "$room"' EXIT
    trap 'exit 130' INT
    trap 'exit 143' TERM HUP
    for parent in "${TMPDIR:-/tmp}" "$root/out"; do
        room=$(mktemp -d "$parent/trials.XXXXXX") || continue
        printf '#!/bin/sh\n' >"$room/probe" && chmod +x "$room/probe" && "$room/probe" 2>/dev/null && rm "$room/probe" && return
        rm -rf "$room"
    done
    echo "trials: files can be run neither in ${TMPDIR:-/tmp} nor in $root/out" >&2
    exit 70
}

# Whether there is a device that is always full.
has_full_device() { [ -c /dev/full ] && ! echo >/dev/full; } 2>/dev/null

# call COMMAND WORDS..: its status, and its outputs in $room/out and $room/err.
call() {
    timeout -k 5 "$most_seconds" "$@" >"$room/out" 2>"$room/err"
    status=$?
}

# shows FILE TEXT: whether the file has this text and a line feed, or nothing if there is no text; @NAME is the text of a file.
shows() {
    case $2 in
    '') [ ! -s "$1" ] ;;
    @*) cmp -s "$1" "${2#@}" ;;
    *) printf '%s\n' "$2" | cmp -s "$1" - ;;
    esac
}

# came TITLE STATUS OUT ERR: whether the last call ended so, and wrote just these texts.
came() {
    if [ "$status" != "$2" ]; then
        miss "$1" "status $status, not $2; it said: $(head -c 300 "$room/err" | tr '\n' ' ')"
    elif ! shows "$room/out" "$3"; then
        miss "$1" "standard output is: $(head -c 300 "$room/out" | tr -d '\0' | tr '\n' '|')"
    elif ! shows "$room/err" "$4"; then
        miss "$1" "standard error is: $(head -c 300 "$room/err" | tr -d '\0' | tr '\n' '|')"
    else
        pass
    fi
}

# ended TITLE STATUS ERR: as came, for a call that did not write to $room/out.
ended() {
    : >"$room/out"
    came "$1" "$2" "" "$3"
}

# fills ERR COMMAND..: a call that writes to a full device, and what it says.
fills() {
    local said=$1
    shift
    if has_full_device; then
        "$@" >/dev/full 2>"$room/err"
        status=$?
        ended "a full device" 6 "$said"
    else
        skip "a full device" "there is no /dev/full"
    fi
}

# Sets $ways to redirections by which nothing can be written to standard error.
closed_ways() {
    ways=('2>&-' '2>&- <&-')
    if has_full_device; then ways+=('2>/dev/full'); fi
}

# unread COMMAND..: a call that writes to a pipe that nobody reads.
unread() {
    rm -f "$room/gone"
    {
        until_there "$room/gone"
        "$@" 2>"$room/err"
        echo $? >"$room/status"
    } | {
        exec <&-
        echo gone >"$room/gone"
    }
    status=$(cat "$room/status")
}

# limited COMMAND..: a call whose output may have one kilobyte; the write that would pass it moves what fits.
limited() {
    (
        trap '' XFSZ
        ulimit -f 1
        exec "$@"
    ) >"$room/out" 2>"$room/err"
    status=$?
}

# slowly COMMAND..: a call whose output is read after a while, in small pieces.
slowly() {
    "$@" 2>"$room/err" | {
        sleep 0.2
        dd bs=997 status=none
    } >"$room/out"
    status=${PIPESTATUS[0]}
}

# signalled SIGNAL STATUS FILE COMMAND..: the signal ends a command that waits for more on standard input than this file has.
signalled() {
    local signal=$1 wanted=$2 given=$3 pid
    shift 3
    mkfifo "$room/signal"
    # (what ignores a signal where the trials are started must not make the program ignore it)
    env --default-signal "$@" <"$room/signal" >"$room/out" 2>"$room/err" &
    pid=$!
    exec 7>"$room/signal"
    cat "$given" >&7
    sleep 0.2
    kill -s "$signal" "$pid"
    wait "$pid" 2>/dev/null
    status=$?
    exec 7>&-
    rm "$room/signal"
    came "the signal $signal" "$wanted" "" ""
}

# Each allocation of a few runs of the program is refused in turn; prints how many there were.
refuse_memory() {
    trials/fail-alloc "$program" >"$room/sweeps"
    status=$?
    cat "$room/sweeps"
    holds "each allocation refused" [ "$status" = 0 ]
}

# holds TITLE TEST..: whether a test holds.
holds() {
    local title=$1
    shift
    if "$@"; then pass; else miss "$title" "not so: $*"; fi
}

# version_of NAME: the line that a program says of its version, which names the logic of the toolchain that is on the path.
version_of() { echo "$1 1, proved by the logic $(rt version | sed 's/.* logic //')"; }

# Waits until the file has something, at most two minutes.
until_there() {
    local count=0
    until [ -s "$1" ] || [ $((count += 1)) -gt 1200 ]; do sleep 0.1; done
}

# meddled SETTING.. PROGRAM WORDS..: a call of a program that trials/meddle.c meddles with, by these settings.
meddled() { call env LD_PRELOAD="$room/meddle.so" "$@"; }

# Compiles what meddles with a program's calls of the C library (trials/meddle.c), by the toolchain's compiler. Once is enough.
make_meddler() {
    local kit
    [ ! -e "$room/meddle.so" ] || return 0
    kit=$(rt doc) && kit=${kit%/*}/toolchain/bin &&
        "$kit/clang" -shared -fPIC -nostdlib -O1 --ld-path="$kit/ld.lld" -o "$room/meddle.so" trials/meddle.c
}

# What programs do with files and standard streams, tried alike of those that have a command of a word and a file. Its output
# for that file is WANTED, as `came` takes it; $cannot_read and $cannot_write are the program's messages.

# blamed FILE WHY: what is said of a file that cannot be read.
blamed() { printf '%s\n%s: %s\n' "$cannot_read" "$1" "$2"; }

# tries_names WORD FILE WANTED NAME..: a file may have any of these names.
tries_names() {
    local word=$1 file=$2 wanted=$3 name
    shift 3
    for name in "$@"; do
        cp "$file" "./$name"
        call "$program" "$word" "$name"
        came "the name '$name'" 0 "$wanted" ""
    done
}

# tries_long_names WORD FILE WANTED: names that are longer than a part of a name may be, and those that are not.
tries_long_names() {
    local name
    name=$(printf '%0300d' 0)
    call "$program" "$1" "$name"
    came "a name of 300 bytes in one part" 5 "" "$(blamed "$name" "cannot be read")"
    name=$(printf '%0100d/' 1 2 3)file
    mkdir -p "./${name%/*}"
    cp "$2" "./$name"
    call "$program" "$1" "$name"
    came "a name of 307 bytes in four parts" 0 "$3" ""
}

# tries_reading WORD FILE WANTED: what can be read, and what can't.
tries_reading() {
    call "$program" "$1" - <"$2"
    came "standard input" 0 "$3" ""
    call "$program" "$1" "$room/absent"
    came "an absent file" 5 "" "$(blamed "$room/absent" absent)"
    call "$program" "$1" "$room"
    came "a folder" 5 "" "$(blamed "$room" "a folder")"
    call "$program" "$1" "$2/below"
    came "a file as a folder" 5 "" "$(blamed "$2/below" "cannot be read")"
    call "$program" "$1" - <"$room"
    came "a folder on standard input" 5 "" "$(blamed - "a folder")"
    call "$program" "$1" - <&-
    came "a closed standard input" 5 "" "$(blamed - "cannot be read")"
    call "$program" "$1" - 0>"$room/written"
    came "a standard input that is open for writing" 5 "" "$(blamed - "cannot be read")"
    call "$program" "$1" "$2" <&-
    came "a file and a closed standard input" 0 "$3" ""
}

# tries_writing WORD FILE WANTED BAD: outputs that can't be written; BAD is no word of the program.
tries_writing() {
    local way ways
    fills "$cannot_write" "$program" "$1" "$2"
    "$program" "$1" "$2" >&- 2>"$room/err"
    status=$?
    ended "a closed standard output" 6 "$cannot_write"
    "$program" "$1" "$2" 2>"$room/err" 1</dev/null
    status=$?
    ended "a standard output that is open for reading" 6 "$cannot_write"
    unread "$program" "$1" "$2"
    ended "a pipe that nobody reads" 6 "$cannot_write"
    closed_ways
    for way in "${ways[@]}"; do
        eval "\"\$program\" \"\$4\" >\"\$room/out\" $way"
        status=$?
        : >"$room/err"
        came "bad words with $way" 2 "" ""
        eval "\"\$program\" \"\$1\" \"\$2\" >\"\$room/out\" $way"
        status=$?
        : >"$room/err"
        came "an output with $way" 0 "$3" ""
    done
    "$program" "$1" "$2" >&- 2>&- <&-
    status=$?
    : >"$room/err"
    ended "all three closed" 6 ""
    if has_full_device; then
        "$program" "$1" "$2" >/dev/full 2>/dev/full
        status=$?
        : >"$room/err"
        ended "both devices full" 6 ""
    fi
    "$program" "$1" "$2" >"$room/out" 2>&1
    status=$?
    came "both outputs in one file" 0 "$3" ""
    env -i "$program" "$1" "$2" >"$room/out" 2>"$room/err"
    status=$?
    came "no environment" 0 "$3" ""
}

# tries_a_small_file WANTED WORD FILE: an output that must not be as long as the text of the file WANTED.
tries_a_small_file() {
    limited "$program" "$2" "$3"
    head -c 1024 "$1" >"$room/wanted"
    came "a file that must not grow" 6 "@$room/wanted" "$cannot_write"
}

# tries_failing_reads WORD FILE MOST [FIRST]: each of the first three reads of MOST bytes fails in turn; they are of FIRST, or else of FILE.
tries_failing_reads() {
    local number
    for number in 1 2 3; do
        meddled TRIAL_READ="$3" TRIAL_NO_READ=$number "$program" "$1" "$2"
        came "read $number fails" 5 "" "$(blamed "${4:-$2}" "cannot be read")"
    done
}

# tries_failing_writes WORD FILE TEXT MOST BAD: each write of MOST bytes of the output, which the file TEXT has, fails in turn.
tries_failing_writes() {
    local number writes
    writes=$((($(wc -c <"$3") + $4 - 1) / $4))
    for number in $(seq "$writes"); do
        head -c $(($4 * (number - 1))) "$3" >"$room/wanted"
        meddled TRIAL_WRITE="$4" TRIAL_NO_WRITE="$number" "$program" "$1" "$2"
        # (the message is written in such pieces as well, after the write that fails)
        came "write $number fails" 6 "@$room/wanted" "$cannot_write"
    done
    meddled TRIAL_WRITE="$4" TRIAL_NO_WRITE=$((writes + 1)) "$program" "$1" "$2"
    came "no write fails" 0 "@$3" ""
    meddled TRIAL_NO_WRITE=1 "$program" "$5"
    came "a message cannot be written" 2 "" ""
}
