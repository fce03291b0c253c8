# The program abtrun, as docs/FORMAT.md has it: each status with both outputs, and all ways in and out.
data=$root/crates/abt_examples/data
hi=$data/hi.abt
hi_report='unit 0 done: hi
tally units 1 unborn 0 pool 0 stream 0 blocked 0 done 1 asked 0 access 0 steps 1
finished'
# words_are_bad NAME: what is said of bad words whose first is NAME: how the command of that name is called, or all are.
words_are_bad() {
    echo 'abtrun: bad command line'
    printf 'usage: '
    "$program" --help | grep -- "^abtrun $1\( \|\$\)" || "$program" --help
}
cannot_read='abtrun: cannot read'
cannot_write='abtrun: cannot write'

# A workload in which every line is needed.
hello() {
    printf '%s\n' 'abt 1' 'streams 2' 'pool 0 fifo mpmc' 'sched 0 prio 0' 'sched 1 prio 0' 'stream 0 main 0' \
        'stream 1 main 1' 'units 1' 'unit 0 ult at 0' 'say hello' 'end'
}

try_statuses() {
    local file command steps wanted
    call "$program" run "$root/crates/abtrun/data/hi.abt" --journal
    came "hi with its journal" 0 "@$root/crates/abtrun/stdout" ""
    for file in "$data"/*.abt; do
        command=run steps=() wanted=0
        case ${file##*/} in
        flow.abt) command=flow ;;
        stuck.abt) wanted=1 ;;
        steps.abt) wanted=4 steps=(--steps 2) ;;
        budget.abt) wanted=4 steps=(--steps=20) ;;
        esac
        call "$program" "$command" "${steps[@]}" "$file"
        came "the example ${file##*/}" "$wanted" "@${file%.abt}.out" ""
    done
    # Each of the workloads that it makes.
    local units
    for units in $(seq 126); do
        call "$program" self "$units"
        came "self $units" 0 "unit 0 done: $((units * (units + 1) / 2))
tally units $((units + 1)) unborn 0 pool 0 stream 0 blocked 0 done $((units + 1)) asked 0 access 0 steps $((8 * units + 4))
finished" ""
    done
    call "$program" self -- 0003
    came "self -- 0003" 0 'unit 0 done: 6
tally units 4 unborn 0 pool 0 stream 0 blocked 0 done 4 asked 0 access 0 steps 28
finished' ""
}

# A run of the most steps that there may be: two units revive one another.
try_most_steps() {
    printf '%s\n' 'abt 1' 'streams 1' 'pool 0 fifo mpmc' 'sched 0 prio 0' 'stream 0 main 0' 'units 2' 'unit 0 ult at 0' 'revive 1 0' \
        'unit 1 ult at 0' 'revive 0 0' end >"$room/text.abt"
    local report='unit 0 stream 0: !unit-state
unit 1 done:
tally units 2 unborn 0 pool 0 stream 1 blocked 0 done 1 asked 0 access 0 steps 100000
budget 0'
    call "$program" run "$room/text.abt" --steps 100000
    came "the most steps" 4 "$report" ""
    # Its events would take more memory than this, and no event is kept if no journal is printed.
    call bash -c 'ulimit -v 12000 && exec "$@"' - "$program" run "$room/text.abt" --steps 100000
    came "the most steps in little memory" 4 "$report" ""
    call bash -c 'ulimit -v 12000 && exec "$@"' - "$program" run "$room/text.abt" --steps 100000 --journal
    came "their journal in little memory" 7 "" "abtrun: out of memory"
    call "$program" run "$room/text.abt" --steps 100000 --journal
    holds "the journal of the most steps" [ "$status $(grep -c ' step ' "$room/out")" = "4 100000" ]
    grep '^[0-9]' "$room/out" >"$room/most.journal"
    call "$program" check "$room/text.abt" "$room/most.journal"
    came "the journal of the most steps is checked" 0 run ""
}

# streams_text FORMAT STREAMS: the lines of a workload up to its streams, each with a pool of its own that all may use.
streams_text() {
    local stream
    printf '%s\n' "abt $1" "streams $2"
    for stream in $(seq 0 $(($2 - 1))); do echo "pool $stream fifo mpmc"; done
    for stream in $(seq 0 $(($2 - 1))); do echo "sched $stream prio $stream"; done
    for stream in $(seq 0 $(($2 - 1))); do echo "stream $stream main $stream"; done
}

# Sixteen streams, the unit of each of which waits for that of the next.
chain_text() {
    local unit
    streams_text 2 16
    for unit in $(seq 0 16); do echo "object $unit eventual"; done
    echo 'units 17'
    for unit in $(seq 0 15); do printf '%s\n' "unit $unit ult at $unit" "ewait $((unit + 1))" 'add 1' print "eset $unit"; done
    printf '%s\n' 'unit 16 ult at 15' 'eset 16' end
}

# Two units on two streams, each of which waits a hundred times for the other.
turns_text() {
    local time
    streams_text 1 2
    for time in $(seq 0 199); do echo "object $time eventual"; done
    printf '%s\n' 'units 2' 'unit 0 ult at 0'
    for time in $(seq 0 2 199); do printf '%s\n' "eset $time" "ewait $((time + 1))"; done
    echo 'unit 1 ult at 1'
    for time in $(seq 0 2 199); do printf '%s\n' "ewait $time" "eset $((time + 1))"; done
    echo end
}

# Four streams whose units all lock one mutex and unlock it.
fight_text() {
    local stream
    streams_text 3 4
    printf '%s\n' 'object 0 mutex' 'units 256'
    for stream in 0 1 2 3; do
        echo "many $((64 * stream)) 64 ult at $stream"
        for _ in {1..480}; do printf '%s\n' 'lock 0' 'unlock 0'; done
    done
    echo end
}

# Whether one of three runs of the turns starts few threads, of which each wave has one. (A thread that starts late costs waves.)
starts_few() {
    local time
    for time in 1 2 3; do
        meddled TRIAL_STARTS="$room/count" "$program" run "$room/turns.abt"
        [ "$status" = 0 ] && [ "$(cat "$room/count")" -lt 20 ] && return
    done
    return 1
}

# Streams that share a thread, that wait for one another, and that wait for a stream in a call.
try_threads() {
    local threads unit
    chain_text >"$room/text.abt"
    {
        for unit in $(seq 0 15); do echo "unit $unit done: $((16 - unit))"; done
        printf '%s\n' 'unit 16 done:' 'tally units 17 unborn 0 pool 0 stream 0 blocked 0 done 17 asked 0 access 0 steps 65' \
            finished
    } >"$room/chain.out"
    for threads in 0 1 7 15; do
        meddled TRIAL_THREADS=$threads TRIAL_SLEEPS="$room/count" "$program" run "$room/text.abt"
        came "sixteen streams and $threads further threads" 0 "@$room/chain.out" ""
        [ "$threads" != 0 ] || holds "streams that share one thread do not sleep for one another" [ "$(cat "$room/count")" -lt 4 ]
    done
    turns_text >"$room/turns.abt"
    holds "streams that wait for one another stay in their wave" starts_few
    fight_text >"$room/text.abt"
    meddled TRIAL_LATE=3 TRIAL_STARTS="$room/count" "$program" run "$room/text.abt"
    holds "threads that begin late: the status" [ "$status" = 0 ]
    holds "threads that begin late are not taken for ones that lack" [ "$(cat "$room/count")" -lt 1000 ]
    {
        streams_text 3 4
        printf '%s\n' 'units 1' 'unit 0 ult at 0' 'set 1000000' 'call 1' 'print' end
    } >"$room/text.abt"
    meddled TRIAL_SLEEPS="$room/count" "$program" run "$room/text.abt"
    came "a long call" 0 'unit 0 done: 78498
tally units 1 unborn 0 pool 0 stream 0 blocked 0 done 1 asked 0 access 0 steps 3
finished' ""
    holds "streams sleep while another is in a call" [ "$(cat "$room/count")" -lt 1000 ]
}

# neighbours_text LAST: 300 units on stream 0 that put out numbers, and two on stream 1, of which the second ends by this line.
neighbours_text() {
    streams_text 3 2
    printf '%s\n' 'units 302' 'many 0 300 ult at 0' 'repeat 100 print' 'unit 300 ult at 1' 'revive 301 1' 'unit 301 ult at 1' "$1" end
}

# A stream that is out of memory ends the run, although another has work for long.
try_neighbour() {
    local first last
    neighbours_text 'set 1' >"$room/text.abt"
    meddled TRIAL_COUNT="$room/count" "$program" run "$room/text.abt" --steps 1
    first=$(cat "$room/count")
    meddled TRIAL_COUNT="$room/count" "$program" run "$room/text.abt"
    last=$(cat "$room/count")
    holds "units allocate while they run: $first, $last" [ $((last - first)) -gt 600 ]
    neighbours_text 'revive 300 1' >"$room/text.abt"
    call bash -c 'ulimit -t 2 && exec "$@"' - env TRIAL_REFUSE=$(((first + last) / 2)) LD_PRELOAD="$room/meddle.so" \
        "$program" run "$room/text.abt"
    came "a stream without memory beside one at work" 7 "" "abtrun: out of memory"
}

# full_text FORMAT STREAMS POOLS OBJECTS UNITS: a workload whose units all take locks and wait for the last of them.
full_text() {
    awk -v format="$1" -v streams="$2" -v pools="$3" -v objects="$4" -v units="$5" 'BEGIN {
        printf "abt %d\nstreams %d\n", format, streams
        for (p = 0; p < pools; p++) printf "pool %d fifo mpmc\n", p
        for (s = 0; s < streams; s++) printf "sched %d prio %d %d %d %d\n", s, s, s + streams, s + 2 * streams, s + 3 * streams
        for (s = 0; s < streams; s++) printf "stream %d main %d\n", s, s
        printf "object 0 mutex\nobject 1 rwlock\nobject 2 eventual\nobject 3 barrier 4000\nobject 4 future 4000 sum\n"
        for (x = 5; x < objects; x++) printf "object %d mutex\n", x
        printf "units %d\nmany 0 3999 ult at 0\n", units
        printf "lock 0\nload 0\nadd 1\nstore 0\nunlock 0\nwrlock 1\nrwunlock 1\nset 1\nfset 4\nbwait 3\newait 2\n"
        printf "many 3999 %d ult at 1\nlock 0\nload 0\nadd 1\nstore 0\nunlock 0\nrdlock 1\nrwunlock 1\newait 2\n", units - 4000
        printf "unit %d ult at 2\nset 1\nfset 4\nfwait 4\nprint\nbwait 3\neset 2\nend\n", units - 1
    }'
}

# full_report UNITS: its report.
full_report() {
    awk -v units="$1" 'BEGIN {
        for (u = 0; u < units - 1; u++) printf "unit %d done:\n", u
        printf "unit %d done: 4000\n", u
        printf "tally units %d unborn 0 pool 0 stream 0 blocked 0 done %d asked 0 access 0 steps ", units, units
        printf "%d\nfinished\n", 11 * 3999 + 8 * (units - 4000) + 6
    }'
}

# flow_text FORMAT UNITS: units of which all but the last wait for its eventual.
flow_text() {
    printf '%s\n' "abt $1" 'streams 1' 'pool 0 fifo mpmc' 'sched 0 prio 0' 'stream 0 main 0' 'object 0 eventual' "units $2" \
        "many 0 $(($2 - 1)) ult at 0" 'ewait 0' 'add 1' print "unit $(($2 - 1)) ult at 0" 'set 6' 'eset 0' end
}

# tries_full FORMAT STREAMS POOLS OBJECTS UNITS STEPS: a run of at most that many steps a stream, its journal and a flow, of so many parts.
tries_full() {
    local unit
    full_text "$@" >"$room/text.abt"
    full_report "$5" >"$room/full.out"
    call "$program" run "$room/text.abt" --steps "$6"
    came "a run of $5 units" 0 "@$room/full.out" ""
    "$program" run "$room/text.abt" --steps "$6" --journal | grep '^[0-9]' >"$room/full.journal"
    call "$program" check "$room/text.abt" "$room/full.journal"
    came "its journal" 0 run ""
    flow_text "$1" "$5" >"$room/text.abt"
    { for unit in $(seq 0 $(($5 - 2))); do echo "unit $unit: 7"; done && echo "unit $(($5 - 1)):" && echo finishes; } >"$room/full.out"
    call "$program" flow "$room/text.abt"
    came "a flow of $5 units" 0 "@$room/full.out" ""
}

# As many parts as format 2 allows, and as many units as format 3 allows.
try_full() {
    tries_full 2 16 64 256 4096 100000
    tries_full 3 4 16 2000 65536 1000000
}

# many_objects_text: a workload of 65,536 objects, all mutexes but the last, which is a condition of the one before it.
many_objects_text() {
    printf '%s\n' 'abt 3' 'streams 1' 'pool 0 fifo mpmc' 'sched 0 prio 0' 'stream 0 main 0'
    seq 0 65534 | sed 's/.*/object & mutex/'
    printf '%s\n' 'object 65535 cond 65534' 'units 2' 'unit 0 ult at 0' 'lock 65534' 'cwait 65535' 'set 1' 'unlock 65534' print \
        'unit 1 ult at 0' 'lock 65534' 'signal 65535' 'unlock 65534' end
}

# As many objects as there may be, which take time in their number alone.
try_many_objects() {
    many_objects_text >"$room/text.abt"
    call bash -c 'ulimit -t 10 && exec "$@"' - "$program" run "$room/text.abt"
    holds "65,536 objects: the status" [ "$status" = 0 ]
    holds "65,536 objects: what unit 0 prints" grep -qx 'unit 0 done: 1' "$room/out"
    call bash -c 'ulimit -t 10 && exec "$@"' - "$program" run "$room/text.abt" --why
    holds "65,536 objects, replayed: the status" [ "$status" = 0 ]
}

# A program of fifteen operations for 65,536 units, which is in memory once: without it they take 408 bytes each, and with one each 648.
try_shared_programs() {
    printf '%s\n' 'abt 3' 'streams 1' 'pool 0 fifo mpmc' 'sched 0 prio 0' 'stream 0 main 0' 'units 65536' 'many 0 65536 ult at 0' \
        'repeat 15 yield' end >"$room/text.abt"
    call bash -c 'ulimit -v 36000 && exec "$@"' - "$program" run "$room/text.abt"
    holds "a program for 65,536 units: the status" [ "$status" = 0 ]
}

# Words that are no command, each with the words parted by blanks.
try_bad_words() {
    local words
    for words in '' walk run 'run --journal' "run $hi more" "run $hi --journal --steps 5 more" "run $hi --steps" "run $hi --steps 0" "run $hi --steps 100001" \
        "run $hi --steps -1" "run $hi --steps +1" "run $hi --steps 1x" "run $hi --steps 5 --steps=5" "run $hi --journal --journal" \
        "run $hi --journal=x" "run $hi --help" "run $hi -j" "run -x" self 'self 0' 'self 127' 'self 1 2' 'self -1' 'self x' \
        'self 99999999999999999999' 'self 3 --journal' Run '--help self' '-h' '--version --help' help "run $hi --in-turn --in-turn" "run $hi --in-turn=1" \
        "run $hi --seed" "run $hi --seed -1" "run $hi --seed 18446744073709551616" "run $hi --seed 1 --seed 1" "run $hi --seed 1 --in-turn" 'self 3 --seed 1' \
        "run $hi --schedule" "run $hi --schedule=" "run - --schedule -" "run $hi --schedule j --schedule j" "run $hi --schedule j --journal" \
        "run $hi --schedule j --steps 5" "run $hi --schedule j --seed 1" "run $hi --schedule j --in-turn" "check $hi j --end --end" "check $hi j --end=1" "check $hi j --why" "check $hi j --report --end" "check $hi j --report --report" \
        "check - - --report" "-- run $hi" "$hi"; do
        call "$program" $words
        came "the words '$words'" 2 "" "$(words_are_bad "${words%% *}")"
    done
    call "$program" ''
    came "an empty word" 2 "" "$(words_are_bad "")"
    call "$program" run ''
    came "an empty FILE" 2 "" "$(words_are_bad run)"
    call "$program" run $'f\xff'
    came "a word that is not UTF-8" 2 "" "abtrun: bad command line"
    call "$program" "run $hi"
    came "two words in one" 2 "" "$(words_are_bad "run $hi")"
    call "$program" run "$hi" --steps 100000
    came "as many steps as there may be" 0 "$hi_report" ""
    call "$program" run --steps=00001 "$hi"
    came "the fewest steps" 0 "$hi_report" ""
    sed 's/^abt 1$/abt 3/' "$hi" >"$room/third.abt"
    call "$program" run "$room/third.abt" --steps 16777216
    came "as many steps as there may be by format 3" 0 "$hi_report" ""
    call "$program" run "$room/third.abt" --steps 16777217
    came "more than that" 2 "" "$(words_are_bad run)"
}

# is_small WORKLOAD JOURNAL: whether there are at most 7 events for each step and 5 for each unit with a start, misses not counted.
is_small() {
    local steps events starts
    steps=$(grep -cE '^[0-9]+ [0-9]+ (step|call) ' "$2")
    events=$(grep -cvE '^[0-9]+ [0-9]+ miss ' "$2")
    starts=$(grep -cE '^unit .* at [0-9]+' "$1")
    [ "$events" -le $((7 * steps + 5 * starts)) ]
}

# What the program says of itself, and runs in rotation: each is the same, and a run of few events.
try_words() {
    local file turn
    call "$program" --help
    holds "help: the status" [ "$status $(wc -c <"$room/err")" = "0 0" ]
    holds "help: the commands" [ "$(sed 's/^abtrun //; s/ .*//' "$room/out" | xargs)" = "run run self check check flow explore --help --version" ]
    call "$program" --version
    came "the version" 0 "$(version_of abtrun)" ""
    call "$program" run "$data/stuck.abt" --why
    { cat "$data/stuck.out" && printf '%s\n' 'unit 0 at mutex 1, owned by unit 1, which is blocked' \
        'unit 1 at mutex 0, owned by unit 0, which is blocked' 'cycle 0 1'; } >"$room/why.out"
    came "what units wait for" 1 "@$room/why.out" ""
    call "$program" run "$hi" --why
    came "no unit waits" 0 "@$data/hi.out" ""
    for file in hi stealing collatz barrier; do
        for turn in 1 2; do
            call "$program" run "$data/$file.abt" --in-turn --journal
            holds "$file in turn: the status" [ "$status" = 0 ]
            cp "$room/out" "$room/turn.$turn"
        done
        holds "$file in turn: the same again" cmp -s "$room/turn.1" "$room/turn.2"
        grep '^[0-9]' "$room/turn.1" >"$room/turn.journal"
        call "$program" check "$data/$file.abt" "$room/turn.journal"
        came "$file in turn: the journal" 0 "run" ""
        holds "$file in turn: few events" is_small "$data/$file.abt" "$room/turn.journal"
    done
}

# abreast FIRST SECOND: the journal of a run in two rotations whose first streams are these.
abreast() {
    local stamp=0 event
    { for event in "$1 take $1 $1" "$1 look $1" "$1 step $1 0 ok" "$((1 - $1)) take $((1 - $1)) $((1 - $1))" "$((1 - $1)) look $((1 - $1))" \
        "$((1 - $1)) step $((1 - $1)) 0 ok" "$2 end $2 done" "$2 miss $2" "$((1 - $2)) end $((1 - $2)) done" "$((1 - $2)) miss $((1 - $2))"; do
        stamp=$((stamp + 1))
        echo "$stamp $event"
    done; }
}

# Runs by seeds: PCG32's first and third words of sequence 2 are even for seed 0, odd for seed 1, odd and even for seed 2, and even and
# odd for seed 8. Each run is the same again, and a run.
try_seeds() {
    local seed first second file turn
    printf '%s\n' 'abt 1' 'streams 2' 'pool 0 fifo mpmc' 'pool 1 fifo mpmc' 'sched 0 prio 0' 'sched 1 prio 1' 'stream 0 main 0' \
        'stream 1 main 1' 'units 2' 'unit 0 ult at 0' 'say a' 'unit 1 ult at 1' 'say b' end >"$room/abreast.abt"
    while read -r seed first second; do
        call "$program" run "$room/abreast.abt" --seed "$seed" --journal
        { abreast "$first" "$second" && printf '%s\n' 'unit 0 done: a' 'unit 1 done: b' \
            'tally units 2 unborn 0 pool 0 stream 0 blocked 0 done 2 asked 0 access 0 steps 2' finished; } >"$room/abreast.out"
        came "the run of seed $seed" 0 "@$room/abreast.out" ""
    done <<'END'
0 0 0
1 1 1
02 1 0
8 0 1
18446744073709551615 1 1
END
    call "$program" run "$hi" --seed=7 --journal
    cp "$room/out" "$room/seed.7"
    call "$program" run "$hi" --in-turn --journal
    holds "one stream: the seed is without effect" cmp -s "$room/out" "$room/seed.7"
    call "$program" run "$data/stuck.abt" --seed 1 --why
    came "a stuck run of a seed" 1 "@$room/why.out" ""
    for file in hi stealing collatz barrier; do
        for turn in 1 2; do
            call "$program" run "$data/$file.abt" --seed 5 --journal
            holds "$file by seed 5: the status" [ "$status" = 0 ]
            cp "$room/out" "$room/turn.$turn"
        done
        holds "$file by seed 5: the same again" cmp -s "$room/turn.1" "$room/turn.2"
        grep '^[0-9]' "$room/turn.1" >"$room/turn.journal"
        call "$program" check "$data/$file.abt" "$room/turn.journal"
        came "$file by seed 5: the journal" 0 "run" ""
    done
}

# Journals that are followed, and how journals end.
try_schedules() {
    local length seed
    call "$program" run "$data/stuck.abt" --journal
    grep '^[0-9]' "$room/out" >"$room/stuck.journal"
    call "$program" run "$data/stuck.abt" --schedule "$room/stuck.journal" --why
    came "the schedule of a stuck run" 1 "@$room/why.out" ""
    call "$program" check "$data/stuck.abt" "$room/stuck.journal" --end
    came "the end of a stuck run" 0 $'run\nstuck' ""
    for seed in 1 2 8; do
        call "$program" run "$room/abreast.abt" --seed "$seed" --journal
        grep '^[0-9]' "$room/out" >"$room/abreast.journal"
        grep -v '^[0-9]' "$room/out" >"$room/abreast.out"
        call "$program" run "$room/abreast.abt" --schedule "$room/abreast.journal"
        came "the schedule of seed $seed" 0 "@$room/abreast.out" ""
        call "$program" run - --schedule "$room/abreast.journal" <"$room/abreast.abt"
        came "the schedule of seed $seed, the workload from standard input" 0 "@$room/abreast.out" ""
        call "$program" check "$room/abreast.abt" "$room/abreast.journal" --end
        came "the end of seed $seed" 0 $'run\nfinished' ""
    done
    # Of seed 8 unit 0 ends at the last event but one. Before that the run could go on.
    for length in 0 3 6 8; do
        head -n "$length" "$room/abreast.journal" >"$room/part.journal"
        call "$program" run "$room/abreast.abt" --schedule "$room/part.journal"
        came "the first $length events" 8 open ""
        call "$program" check "$room/abreast.abt" "$room/part.journal" --end
        came "the end of the first $length events" 1 $'run\nopen' ""
    done
    call "$program" run "$room/abreast.abt" --schedule "$room/part.journal" --why
    came "where units are after the first events" 8 $'open\nunit 0 on stream 0' ""
    head -n 9 "$room/abreast.journal" >"$room/part.journal"
    call "$program" check "$room/abreast.abt" "$room/part.journal" --end
    came "the end of all events but the last" 0 $'run\nfinished' ""
    sed 3d "$room/abreast.journal" >"$room/part.journal"
    call "$program" run "$room/abreast.abt" --schedule "$room/part.journal"
    came "a schedule without its third event" 3 "bad 3" ""
    call "$program" check "$room/abreast.abt" "$room/part.journal" --end
    came "the end of no run" 1 "bad 3" ""
    echo walk >"$room/part.journal"
    call "$program" run "$room/abreast.abt" --schedule "$room/part.journal"
    came "a schedule that is no journal" 3 "" "abtrun: line 1: journal"
    call "$program" run "$room/abreast.abt" --schedule "$room/no.journal"
    came "a schedule that is not there" 5 "" "$(blamed "$room/no.journal" absent)"
    call "$program" run "$room/no.abt" --schedule "$room/part.journal"
    came "a workload that is not there" 5 "" "$(blamed "$room/no.abt" absent)"
}

# refused FAULT LINE [HINT]: the text on standard input is refused so, and this is said further.
refused() {
    cat >"$room/text.abt"
    call "$program" run "$room/text.abt"
    came "the fault $1 at line $2" 3 "" "abtrun: line $2: $1${3:+
$3}"
}

try_faults() {
    hello >"$room/text.abt"
    call "$program" run "$room/text.abt"
    came "a workload in which each line is needed" 0 'unit 0 done: hello
tally units 1 unborn 0 pool 0 stream 0 blocked 0 done 1 asked 0 access 0 steps 1
finished' ""
    hello | LC_ALL=C sed $'10s/.*/say \xff/' | refused utf8 10
    hello | sed '1s/.*/abt 4/' | refused version 1
    hello | sed '10s/.*/sing hello/' | refused unknown 10
    hello | sed '10s/.*/say hello you/' | refused shape 10 "form: say WORD"
    hello | sed '10s/.*/cwait/' | refused shape 10 "form: cwait X"
    hello | sed '3s/.*/pool 0 fifo/' | refused shape 3 "form: pool P KIND ACCESS"
    hello | sed 2p | refused shape 3 "a line of this form must not stand here"
    hello | sed 9d | refused shape 9 "a line of this form must not stand here"
    hello | sed $'10s/$/\x01/' | refused shape 10 "the line has a control character"
    hello | sed 's/$/\r/' | refused version 1 "the line ends with a carriage return"
    hello | sed '4s/$/\r/' | refused shape 4 "the line ends with a carriage return"
    hello | sed $'1s/^/\xef\xbb\xbf/' | refused version 1 "the text begins with a byte order mark"
    hello | sed '8s/.*/units one/' | refused number 8
    hello | sed '7s/.*/stream 1 main 0/' | refused twice 7
    hello | sed '9s/.*/unit 0 ult at 1/' | refused undeclared 9
    hello | sed '2s/.*/streams 9/' | refused limit 2
    hello | sed '9s/.*/unit 0 task at 0/; 10s/.*/yield/' | refused task-blocks 10
    hello | sed '3s/.*/pool 0 fifo priv of 0/' | refused access 7
    hello | sed 11d | refused no-end 11
    hello | sed 7d | refused missing 7
    refused no-end 1 </dev/null
    { hello && printf '#%*s\n' 4194304 x; } | refused limit 0
}

# The longest text that there may be, and one byte more.
try_lengths() {
    local length
    length=$(hello | wc -c)
    { hello && printf '#%*s' $((4194304 - length - 1)) x; } >"$room/longest.abt"
    holds "the longest text has as many bytes" [ "$(wc -c <"$room/longest.abt")" = 4194304 ]
    call "$program" run "$room/longest.abt"
    came "the longest text" 0 'unit 0 done: hello
tally units 1 unborn 0 pool 0 stream 0 blocked 0 done 1 asked 0 access 0 steps 1
finished' ""
    printf y >>"$room/longest.abt"
    call "$program" run "$room/longest.abt"
    came "one byte more" 3 "" "abtrun: line 0: limit"
    call "$program" run - <"$room/longest.abt"
    came "one byte more on standard input" 3 "" "abtrun: line 0: limit"
    call "$program" run /dev/zero
    came "a file without an end" 3 "" "abtrun: line 0: limit"
}

# A text of a megabyte in which no two lines are alike, and the report that it must have.
write_varied() {
    awk -v text="$room/varied.abt" -v report="$room/varied.out" 'BEGIN {
        printf "abt 1\nstreams 1\npool 0 fifo mpmc\nsched 0 prio 0\nstream 0 main 0\nunits 40\n" >text
        for (u = 0; u < 40; u++) {
            printf "unit %d ult at 0\n", u >text
            printf "unit %d done:", u >report
            for (k = 0; k < 200; k++) {
                printf "# %d comes before %d of %d", u + k, k, u >text
                for (i = 0; i < 20; i++) printf " %d", (u + 1) * (k + 1) * (i + 1) >text
                printf "\nsay u%dw%dx%d\n", u, k, u * k >text
                printf " u%dw%dx%d", u, k, u * k >report
            }
            printf "\n" >report
        }
        printf "end\n" >text
        printf "tally units 40 unborn 0 pool 0 stream 0 blocked 0 done 40 asked 0 access 0 steps 8000\nfinished\n" >report
    }'
}

try_varied() {
    write_varied
    call "$program" run "$room/varied.abt"
    came "a long file" 0 "@$room/varied.out" ""
    call "$program" run - <"$room/varied.abt"
    came "a long file on standard input" 0 "@$room/varied.out" ""
    cat "$room/varied.abt" >"$room/fifo" &
    call "$program" run - <"$room/fifo"
    came "a long text through a pipe" 0 "@$room/varied.out" ""
    cat "$room/varied.abt" >"$room/fifo" &
    call "$program" run "$room/fifo"
    came "a long text through a named pipe" 0 "@$room/varied.out" ""
    # Its fault is far beyond the first reads.
    sed '16000s/.*/say two words/' "$room/varied.abt" >"$room/text.abt"
    call "$program" run "$room/text.abt"
    came "a fault far into a long file" 3 "" "abtrun: line 16000: shape
form: say WORD"
    slowly "$program" run "$room/varied.abt"
    came "a slow reader of a long report" 0 "@$room/varied.out" ""
}

# A few bytes at a time, in and out.
try_few_bytes() {
    while IFS= read -r line; do
        printf '%s' "$line"
        sleep 0.02
        printf '\n'
    done <"$hi" >"$room/fifo" &
    call "$program" run - <"$room/fifo"
    came "a text in pieces" 0 "$hi_report" ""
    local most
    for most in 1 7; do
        meddled TRIAL_READ=$most TRIAL_WRITE=$most "$program" run "$root/crates/abtrun/data/hi.abt" --journal
        came "reads and writes of $most bytes" 0 "@$root/crates/abtrun/stdout" ""
        meddled TRIAL_READ=$most TRIAL_WRITE=$most "$program" run - <"$data/stuck.abt"
        came "reads and writes of $most bytes on standard input" 1 "@$data/stuck.out" ""
        meddled TRIAL_WRITE=$most "$program" walk
        came "writes of $most bytes of a message" 2 "" "$(words_are_bad walk)"
    done
}

# Each read and each write fails in turn.
try_failing_calls() {
    tries_failing_reads run "$data/streams.abt" 100
    printf '%s\n' "$hi_report" >"$room/whole"
    tries_failing_writes run "$hi" "$room/whole" 10 walk
}

try_names() {
    local name
    mkdir -p "$room/names"
    cd "$room/names" || return
    tries_long_names run "$hi" "$hi_report"
    tries_names run "$hi" "$hi_report" 'with  blanks.abt' ' ' $'line\nfeed' $'t\tab' 'größe.abt' "quote'\"" '*' '#' 'run' 'a=b' '...'
    for name in --journal -x -; do
        cp "$hi" "./$name"
        call "$program" run "./$name"
        came "the name './$name'" 0 "$hi_report" ""
    done
    call "$program" run -- --journal
    came "the name '--journal' after --" 0 "$hi_report" ""
    call "$program" run -- -
    came "- after -- is standard input" 3 "" "abtrun: line 1: no-end"
    cp "$data/stuck.abt" hi.abt
    call "$program" run hi.abt
    came "a name in the caller's folder" 1 "@$data/stuck.out" ""
    cd "$root" || return
}

try_reading() {
    tries_reading run "$hi" "$hi_report"
    call "$program" run - --journal <"$root/crates/abtrun/data/hi.abt"
    came "standard input with a journal" 0 "@$root/crates/abtrun/stdout" ""
    call "$program" run -
    came "an empty standard input" 3 "" "abtrun: line 1: no-end"
    if [ "$(id -u)" != 0 ]; then
        cp "$hi" "$room/text.abt"
        chmod 000 "$room/text.abt"
        call "$program" run "$room/text.abt"
        came "a file that must not be read" 5 "" "$(blamed "$room/text.abt" "not allowed")"
        chmod 644 "$room/text.abt"
    else
        skip "a file that must not be read" "root can read every file"
    fi
}

try_writing() {
    tries_writing run "$hi" "$hi_report" walk
    tries_a_small_file "$room/varied.out" run "$room/varied.abt"
}

# Journals that are checked, and flows.
try_checks() {
    local hi=$data/hi.abt journal=crates/abtview/data/hi.journal
    call "$program" check "$hi" "$journal"
    came "a run is checked" 0 "run" ""
    call "$program" check "$hi" - <"$journal"
    came "a journal on standard input" 0 "run" ""
    call "$program" check - "$journal" <"$hi"
    came "a workload on standard input" 0 "run" ""
    "$program" run "$data/streams.abt" --journal | sed '/^unit 0 /,$d' >"$room/streams.journal"
    call "$program" check "$data/streams.abt" "$room/streams.journal"
    came "a run on threads is checked" 0 "run" ""
    call "$program" check "$data/flow.abt" - < <("$program" run "$data/flow.abt" --journal | grep '^[0-9]')
    came "a journal through a pipe" 0 "run" ""
    sed '$d' "$room/streams.journal" >"$room/shorter.journal"
    call "$program" check "$data/streams.abt" "$room/shorter.journal"
    came "its first events" 0 "run" ""
    sed '2d' "$journal" >"$room/less.journal"
    call "$program" check "$hi" "$room/less.journal"
    came "an event that is gone" 1 "bad 2" ""
    sed '1s/^/0/' "$journal" >"$room/zero.journal"
    call "$program" check "$hi" "$room/zero.journal"
    came "a zero before a number" 3 "" "abtrun: line 1: journal"
    call "$program" check "$room/absent" "$journal"
    came "a workload that is absent" 5 "" "$(blamed "$room/absent" absent)"
    call "$program" check "$hi" "$room/absent"
    came "a journal that is absent" 5 "" "$(blamed "$room/absent" absent)"
    call "$program" check - -
    came "standard input twice" 2 "" "$(words_are_bad check)"
    call "$program" flow "$hi"
    came "a flow" 0 $'unit 0: hi\nfinishes' ""
    "$program" run "$data/flow.abt" >"$room/text"
    { sed -n 's/^\(unit [0-9]*\) done:/\1:/p' "$room/text" && echo finishes; } >"$room/flow.out"
    holds "a run puts out the flow" cmp -s "$room/flow.out" "$data/flow.out"
    call "$program" flow "$data/streams.abt"
    came "a workload that is not confluent" 1 $'not confluent\nunit 0 operation 0: lock 0' ""
    call "$program" flow "$hi" "$hi"
    came "a flow of two files" 2 "" "$(words_are_bad flow)"
}

# judged TITLE STATUS OUT [WORDS..]: what is said of the output in $room/output, as that of a run of $file.
judged() {
    local title=$1 wanted=$2 out=$3
    shift 3
    call "$program" check "$file" "$room/output" --report "$@"
    came "the output of ${file##*/}: $title" "$wanted" "$out" ""
}

# differs TITLE LINE EXPECTED FOUND [WORDS..]: of that output this line is the first that is wrong.
differs() {
    local title=$1 line=$2 expected=$3 found=$4
    shift 4
    judged "$title" 1 "bad $line
expected $expected
found $found" "$@"
}

# Outputs of runs that are judged whole, and those of which something was changed or lost.
try_outputs() {
    local file outcome
    for outcome in hi:finished stealing:finished streams:finished stuck:stuck "budget:budget 0"; do
        file=$data/${outcome%%:*}.abt
        "$program" run "$file" --journal >"$room/output"
        judged "as it was printed" 0 "run
${outcome#*:}"
        call "$program" check "$file" - --report < <("$program" run "$file" --journal)
        came "the output of ${file##*/}: through a pipe" 0 "run
${outcome#*:}" ""
    done
    file=$data/stuck.abt
    "$program" run "$file" --journal --why >"$room/output"
    judged "with what units wait for" 0 $'run\nstuck' --why
    differs "with what units wait for, unasked" "$(($(grep -c . "$room/output") - 2))" '""' '"unit 0 at mutex 1, owned by unit 1, which is blocked\n"'
    "$program" run "$file" --journal >"$room/output"
    differs "without what units wait for" "$(($(grep -c . "$room/output") + 1))" '"unit 0 at mutex 1, owned by unit 1, which is blocked\n"' '""' --why
    file=$hi
    "$program" run "$hi" --journal >"$room/whole"
    sed 's/^unit 0 done: hi$/unit 0 done: ho/' "$room/whole" >"$room/output"
    differs "another row" 6 '"unit 0 done: hi\n"' '"unit 0 done: ho\n"'
    sed 's/^tally units 1/tally units 2/' "$room/whole" >"$room/output"
    differs "another tally" 7 "\"$(sed -n 7p "$room/whole")\\n\"" "\"$(sed -n 7p "$room/output")\\n\""
    sed '$d' "$room/whole" >"$room/output"
    differs "without its last line" 8 '"finished\n"' '""'
    head -c -1 "$room/whole" >"$room/output"
    differs "without its last line feed" 8 '"finished\n"' '"finished"'
    head -c -4 "$room/whole" >"$room/output"
    differs "cut off in its last line" 8 '"finished\n"' '"finis"'
    { cat "$room/whole" && echo finished; } >"$room/output"
    differs "with another line" 9 '""' '"finished\n"'
    grep '^[0-9]' "$room/whole" >"$room/output"
    differs "without its report" 6 '"unit 0 done: hi\n"' '""'
    { cat "$room/output" && hello | "$program" run -; } >"$room/other" && mv "$room/other" "$room/output"
    differs "the report of another workload" 6 '"unit 0 done: hi\n"' '"unit 0 done: hello\n"'
    head -n 3 "$room/whole" >"$room/output"
    differs "cut off in its journal" 4 "an event" '""'
    sed 4,5d "$room/whole" >"$room/output"
    differs "a report after the first events" 4 "an event" '"unit 0 done: hi\n"'
    sed 2d "$room/whole" >"$room/output"
    judged "without an event" 1 "bad 2"
    : >"$room/output"
    differs "nothing at all" 1 "an event" '""'
    head -c 17 "$room/whole" >"$room/output"
    call "$program" check "$hi" "$room/output" --report
    came "the output of hi.abt: cut off in a line of its journal" 3 "" "abtrun: line 2: journal"
    call "$program" check "$hi" "$room/absent" --report
    came "an output that is absent" 5 "" "$(blamed "$room/absent" absent)"
}

# streams_apart N THINGS..: the lines of a workload up to its units, one for each of N streams, which has a pool of its own, with objects.
streams_apart() {
    local n=$1 i
    shift
    echo abt 1
    echo streams "$n"
    for ((i = 0; i < n; i++)); do echo pool $i fifo mpmc; done
    for ((i = 0; i < n; i++)); do echo sched $i prio $i; done
    for ((i = 0; i < n; i++)); do echo stream $i main $i; done
    for ((i = 1; i <= $#; i++)); do echo object $((i - 1)) "${!i}"; done
    echo units "$n"
}

# unit U OPERATIONS..: the lines of unit U on stream U.
unit() {
    echo unit "$1" ult at "$1"
    shift
    printf '%s\n' "$@"
}

# rows_and_outcomes: of each report on standard input one line with its rows and its outcome.
rows_and_outcomes() {
    awk '/^unit / { rows = rows $0 "|" } /^(finished|stuck|budget)/ { print rows $0; rows = "" }'
}

# seeds_end_so TITLE FILE N: each of N runs by seeds ends as one of the ends, which `explore` has just printed.
seeds_end_so() {
    local title=$1 file=$2 n=$3 seed
    grep -v '^end ' "$room/out" | rows_and_outcomes | sort -u >"$room/listed"
    for ((seed = 1; seed <= n; seed++)); do "$program" run "$file" --seed "$seed"; done | rows_and_outcomes >"$room/seeded"
    holds "$title: runs by seeds" [ "$(wc -l <"$room/seeded")" = "$n" ]
    sort -u "$room/seeded" | comm -13 "$room/listed" - >"$room/others"
    holds "$title: runs by seeds that end otherwise" [ ! -s "$room/others" ]
}

# has_ends TITLE STATUS END..: the workload on standard input has these ends, each an outcome and what the last unit's line says; and each
# end's journal is a run with the end's report.
has_ends() {
    local title=$1 wanted=$2 count=0 number
    shift 2
    cat >"$room/ends.abt"
    call "$program" explore "$room/ends.abt"
    holds "$title: the status" [ "$status" = "$wanted" ]
    seeds_end_so "$title" "$room/ends.abt" 100
    awk '/^end / { outcome = $3 } /^unit / { line = $0; sub(/^unit [0-9]+ /, "", line) } /^tally / { print outcome ", " line }' "$room/out" | sort >"$room/ends"
    printf '%s\n' "$@" | sort >"$room/wanted"
    holds "$title: the ends" cmp -s "$room/ends" "$room/wanted"
    cp "$room/out" "$room/all"
    while [ "$count" -lt $# ]; do
        count=$((count + 1))
        call "$program" explore "$room/ends.abt" --end "$count" --journal
        grep '^[0-9]' "$room/out" >"$room/end.journal"
        grep -v '^[0-9]' "$room/out" >"$room/end.report"
        awk -v end="$count" '/^end / { on = $2 == end; next } on' "$room/all" >"$room/all.report"
        holds "$title: the report of end $count" cmp -s "$room/end.report" "$room/all.report"
        call "$program" explore "$room/ends.abt" --end "$count"
        holds "$title: the report alone of end $count" cmp -s "$room/out" "$room/all.report"
        number=$(awk -v end="$count" '/^end / && $2 == end { print $5 }' "$room/all")
        holds "$title: the events of end $count" [ "$(wc -l <"$room/end.journal")" = "$number" ]
        call "$program" check "$room/ends.abt" "$room/end.journal"
        came "$title: the journal of end $count" 0 "run" ""
    done
    call "$program" explore "$room/ends.abt" --end "$((count + 1))"
    came "$title: an end that is not there" 8 "ends $count" ""
}

# Every way in which workloads end.
try_ends() {
    local file wanted turn
    {
        streams_apart 2 mutex mutex
        unit 0 'lock 0' 'lock 1' 'unlock 1' 'unlock 0'
        unit 1 'lock 0' 'lock 1' 'unlock 1' 'unlock 0' 'say out'
        echo end
    } | has_ends "two locks in one order" 0 'finished, done: out'
    {
        streams_apart 2 mutex mutex
        unit 0 'lock 0' 'lock 1' 'unlock 1' 'unlock 0'
        unit 1 'lock 1' 'lock 0' 'unlock 0' 'unlock 1' 'say out'
        echo end
    } | has_ends "two locks in two orders" 1 'finished, done: out' 'stuck, object 0:'
    {
        streams_apart 4 mutex
        for turn in 0 1 2; do unit $turn 'lock 0' 'load 0' 'unlock 0' 'add 1' 'lock 0' 'store 0' 'unlock 0'; done
        unit 3 'join 0' 'join 1' 'join 2' 'lock 0' 'load 0' 'print'
        echo end
    } | has_ends "lost updates" 0 'finished, done: 1' 'finished, done: 2' 'finished, done: 3'
    {
        streams_apart 2 mutex 'cond 0'
        unit 0 'lock 0' 'signal 1' 'unlock 0'
        unit 1 'lock 0' 'cwait 1' 'say woken'
        echo end
    } | has_ends "a signal before it is awaited" 1 'finished, done: woken' 'stuck, object 1:'
    {
        streams_apart 3 'barrier 4'
        for turn in 0 1 2; do unit $turn 'bwait 0'; done
        echo end
    } | has_ends "a barrier with a party too few" 1 'stuck, object 0:'
    {
        streams_apart 2 rwlock
        unit 0 'wrlock 0' 'set 5' 'rwstore 0' 'rwunlock 0'
        unit 1 'rdlock 0' 'rwload 0' 'print' 'rwunlock 0'
        echo end
    } | has_ends "a reader and a writer" 0 'finished, done: 0' 'finished, done: 5'
    {
        streams_apart 2 eventual
        unit 0 'call 1' 'eset 0'
        unit 1 'set 100' 'call 1' 'print' 'ewait 0' 'print'
        echo end
    } | sed '1s/1/3/' | has_ends "calls" 0 'finished, done: 25 0'
    for file in "$data"/*.abt; do
        call "$program" explore "$file"
        wanted=0
        case ${file##*/} in
        stuck.abt) wanted=1 ;;
        budget.abt) wanted=4 ;;
        collatz.abt | factors.abt | norm.abt | pipeline.abt | primes.abt | reduce.abt | rotate.abt | stealing.abt | streams.abt | tree.abt) wanted=8 ;;
        esac
        holds "the ends of ${file##*/}" [ "$status" = "$wanted" ]
        [ "$wanted" -lt 4 ] || continue
        # Each run ends as one of them.
        seeds_end_so "${file##*/}" "$file" 300
        grep -v '^states\|^end \|^tally' "$room/out" >"$room/all"
        for turn in 1 2 3 4 5; do
            "$program" run "$file" | grep '^unit ' >"$room/run.rows"
            [ ! -s "$room/run.rows" ] || holds "a run of ${file##*/}" awk 'NR == FNR { wanted[NR] = $0; n = NR; next } /^unit / { if ($0 == wanted[++k]) same++; next } { if (k == n && same == n) found = 1; k = same = 0 } END { exit !found }' "$room/run.rows" "$room/all"
        done
    done
    call "$program" explore "$data/rotate.abt"
    came "an order that rotates" 8 "scheduler 0 changes its order" ""
    # Two units revive each other and put out a word each time: there is no last state.
    printf '%s\n' 'abt 1' 'streams 1' 'pool 0 fifo mpmc' 'sched 0 prio 0' 'stream 0 main 0' 'units 2' 'unit 0 ult at 0' 'say a' 'revive 1 0' \
        'unit 1 ult at 0' 'say b' 'revive 0 0' end >"$room/ends.abt"
    call "$program" explore "$room/ends.abt"
    came "states without end" 8 "too many states" ""
    call "$program" explore "$room/absent"
    came "ends of a file that is absent" 5 "" "$(blamed "$room/absent" absent)"
    call "$program" explore "$hi" --end 0
    came "end 0" 2 "" "$(words_are_bad explore)"
    call "$program" explore "$data/hi.abt" --states 1
    came "too few states" 8 "too many states" ""
}

if ! make_meddler; then
    miss meddle "trials/meddle.c cannot be compiled"
    return
fi
mkfifo "$room/fifo"
try_statuses
try_most_steps
try_threads
try_neighbour
try_full
try_many_objects
try_shared_programs
try_bad_words
try_words
try_seeds
try_schedules
try_faults
try_lengths
try_varied
try_few_bytes
try_failing_calls
try_names
try_reading
try_writing
signalled TERM 143 "$hi" "$program" run -
signalled HUP 129 "$hi" "$program" run -
signalled KILL 137 "$hi" "$program" run -
signalled INT 130 "$hi" "$program" run -
try_checks
try_outputs
try_ends
refuse_memory
rm "$room/fifo"
