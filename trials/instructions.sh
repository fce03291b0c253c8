# Trials of how many instructions an event of a run takes, which other programs on the machine do not change. `trials/programs` reads
# this file. docs/BENCHMARKS.md has the figures of the day on which the bounds were chosen.

# instructions WORDS..: how many the program executes.
instructions() {
    valgrind --tool=callgrind --callgrind-out-file=/dev/null "$program" "$@" 2>&1 >/dev/null | sed -n 's/.*I *refs: *//p' | tr -d ,
}

# allows TITLE MOST ALL BESIDE EVENTS: all but those beside are at most so many an event.
allows() {
    local each=$(((${3:-0} - ${4:-0}) / ($5 + 1)))
    [ "$each" -gt 0 ] && [ "$each" -le "$2" ] && pass || miss "$1" "$each instructions an event, and at most $2 are allowed"
}

# takes TITLE MOST FILE: what an event of the workload's run takes, beside a run of one step.
takes() {
    "$program" run "$3" --steps 100000 --journal | grep '^[0-9]' >"$3.journal"
    allows "$1" "$2" "$(instructions run "$3" --steps 100000)" "$(instructions run "$3" --steps 1)" "$(wc -l <"$3.journal")"
}

# prints, checks TITLE MOST FILE: what a line of that run's journal takes, printed beside the run, and read and checked.
prints() {
    allows "$1" "$2" "$(instructions run "$3" --steps 100000 --journal)" "$(instructions run "$3" --steps 100000)" "$(wc -l <"$3.journal")"
}

checks() {
    allows "$1" "$2" "$(instructions check "$3" "$3.journal")" "$(instructions check "$3" /dev/null)" "$(wc -l <"$3.journal")"
}

# lines NAME COUNT: a workload of format 3 whose one unit has so many lines of six bytes.
lines() {
    { printf '%s\n' 'abt 3' 'streams 1' 'pool 0 fifo mpmc' 'sched 0 prio 0' 'stream 0 main 0' 'units 1' 'unit 0 ult at 0' &&
        yes yield | head -n "$2" && echo end; } >"$room/$1.abt"
}

# one_stream NAME LINES: a workload of format 2 whose one stream has 256 units with these operations.
one_stream() {
    printf '%s\n' 'abt 2' 'streams 1' 'pool 0 fifo mpmc' 'sched 0 prio 0' 'stream 0 main 0' 'object 0 mutex' 'units 256' \
        'many 0 256 ult at 0' "$2" end >"$room/$1.abt"
}

# beside_idle NAME LINES: the same workload with seven more streams, which have nothing to do.
beside_idle() {
    { streams_text 2 8 && printf '%s\n' 'object 0 mutex' 'units 256' 'many 0 256 ult at 0' "$2" end; } >"$room/$1.abt"
}

# on_four NAME LINES: the same units, 64 in the pool of each of four streams.
on_four() {
    local stream
    { streams_text 2 4 && echo 'units 256' && for stream in 0 1 2 3; do printf '%s\n' "many $((64 * stream)) 64 ult at $stream" "$2"; done && echo end; } >"$room/$1.abt"
}

if ! command -v valgrind >/dev/null; then
    skip instructions "there is no valgrind"
    return
fi
lines few 1
lines many 4096
one_stream yields 'repeat 255 yield'
one_stream adds 'repeat 255 add 1'
one_stream locks "$(for _ in {1..127}; do printf 'lock 0\nunlock 0\n'; done)"
beside_idle idle 'repeat 255 yield'
on_four four 'repeat 255 yield'
takes yields 155 "$room/yields.abt"
takes idle 170 "$room/idle.abt"
takes four 330 "$room/four.abt"
takes adds 200 "$room/adds.abt"
takes locks 295 "$room/locks.abt"
prints printed 200 "$room/yields.abt"
allows read 680 "$(instructions run "$room/many.abt" --steps 1)" "$(instructions run "$room/few.abt" --steps 1)" 4095
checks checked 750 "$room/yields.abt"
