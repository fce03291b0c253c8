# The wrapper, the build behind it and ./test, on a repository of four small crates: program `toy` stands on `low`, which stands
# on `deep`, and `other` is beside them. A stand-in for the toolchain builds it at once; the last trials use the toolchain itself.

# The toolchain's stand-in does what $room/mode says, and counts its calls in $room/calls; the words of a call of `rt try` stand in
# $room/words, one a line. The program that it builds says what low's source has, its words, its standard input and what a file
# `here` of its folder has, and ends with the status that its first word names.
make_stand_in() {
    # All commands but the toolchain's.
    mkdir "$room/tools" "$room/bin"
    local folders folder
    IFS=: read -ra folders <<<"$PATH"
    # (of two commands of one name the first stays)
    for folder in "${folders[@]}"; do
        case $folder in /*) find "$folder/" -maxdepth 1 ! -type d ! -name rt -exec ln -s -t "$room/tools" {} + 2>/dev/null ;; esac
    done
    cat >"$room/bin/rt" <<'RT'
#!/bin/sh
room=${0%/bin/rt}
name=${PWD##*/}
mode=$(cat "$room/mode")
echo "$*" >>"$room/calls"
echo "fn low::first: proved"
echo "impl $name::Second: proved"
case $mode in
fail) echo "rt: the library low did not build, so nothing above it was checked"; exit 1 ;;
long) echo $$ >"$room/pid"; exec sleep 300 ;;
wait) until [ -e "$room/go" ]; do sleep 0.1; done ;;
edit) echo changed >>../low/src/lib.rt ;;
tries) printf '%s\n' "$@" >"$room/words" && exit 5 ;;
gate | refuses)
    mkdir -p crates/toy/out
    printf '#!/bin/sh\n' >crates/toy/out/toy
    chmod +x crates/toy/out/toy
    [ "$mode" = gate ]
    exit
    ;;
esac
mkdir -p out
{ echo '#!/bin/sh'; echo "echo \"$(cat ../low/src/lib.rt): \$*\""; echo 'cat; [ ! -e here ] || cat here; exit "${1:-2}"'; } >out/$name
chmod +x out/$name
touch out/$name.stamp
echo "rt: running out/$name; to give it other input, run that file yourself"
RT
    chmod +x "$room/bin/rt"
}

# A repository in a folder below one that is called src, with a blank in its name.
make_toy() {
    toy="$room/src/a clone"
    mkdir -p "$toy/crates/low/src" "$toy/crates/low/specs" "$toy/crates/low/proofs/first" "$toy/crates/toy/src" \
        "$toy/crates/deep/src" "$toy/crates/other/src" "$room/links" "$room/else where"
    cp abtrun "$toy/toy"
    cp -r scripts "$toy/scripts"
    printf '# A comment: of it.\ntoy: low std\nlow: deep\ndeep:\nother: low\n' >"$toy/crates.txt"
    echo one >"$toy/crates/low/src/lib.rt"
    touch "$toy/crates/low/src/more.rt" "$toy/crates/low/specs/Lib.antt" "$toy/crates/low/proofs/first/Proof.antt" \
        "$toy/crates/toy/src/main.rt" "$toy/crates/deep/src/lib.rt" "$toy/crates/other/src/lib.rt"
    ln -s "$toy/toy" "$room/links/toy"
}

# as MODE: how the stand-in builds from here on; its calls so far are forgotten.
as() {
    echo "$1" >"$room/mode"
    : >"$room/calls"
}

built() { wc -l <"$room/calls"; }

# Whether nothing but these files stands in the toy's out/.
leaves() { [ "$(ls "$toy/out" | tr '\n' ' ')" = "$1" ]; }

try_first_call() {
    as build
    PATH=$room/tools call "$toy/toy" 0
    came "no toolchain" 70 "" \
        "toy: it must be built first, and the toolchain's command rt is not on the path: README.md says what is needed"
    PATH=$room/bin:$room/tools
    echo given >"$room/in"
    call "$toy/toy" 3 "two  words" '' '*' <"$room/in"
    came "the first call builds" 3 "$(printf 'one: 3 two  words  *\ngiven')" \
        "toy: building, which proves the crates that it stands on (log: $toy/out/toy.log)"
    holds "the first call builds once" [ "$(cat "$room/calls")" = run ]
    holds "a build leaves what it says" leaves "lock toy toy.built toy.log "
    as fail
    call "$toy/toy" 0 "two  words" '' '*' <"$room/in"
    came "a later call only runs" 0 "$(printf 'one: 0 two  words  *\ngiven')" ""
    cd "$room/else where" || return
    PATH=$room/links:$PATH call toy 4
    came "by a link on the path" 4 "one: 4" ""
    call sh ../src/"a clone"/toy 5
    came "by a relative name" 5 "one: 5" ""
    cd "$toy" || return
    call sh toy 6
    came "by a name without a folder" 6 "one: 6" ""
    cd "$root" || return
    holds "none of these builds" [ "$(built)" = 0 ]
}

# A program runs in the caller's folder, also if the call builds it.
try_folders() {
    echo "from here" >"$room/else where/here"
    as build
    echo moved >"$toy/crates/low/src/lib.rt"
    cd "$room/else where" || return
    call "$toy/toy" 0
    came "a call that builds runs where it is called" 0 "$(printf 'moved: 0\nfrom here')" \
        "toy: building, which proves the crates that it stands on (log: $toy/out/toy.log)"
    call "$toy/toy" 0
    came "a later call runs where it is called" 0 "$(printf 'moved: 0\nfrom here')" ""
    cd "$root" || return
}

# changes TITLE OUT COMMAND..: after this change of the toy a call builds.
changes() {
    local title=$1 out=$2
    shift 2
    as build
    (cd "$toy/crates" && "$@")
    call "$toy/toy" 0
    came "$title" 0 "$out" "toy: building, which proves the crates that it stands on (log: $toy/out/toy.log)"
    holds "$title: builds" [ "$(built)" = 1 ]
    call "$toy/toy" 0
    came "$title: once" 0 "$out" ""
}

# keeps TITLE COMMAND..: after this change it does not.
keeps() {
    local title=$1
    shift
    as fail
    (cd "$toy/crates" && "$@")
    call "$toy/toy" 0
    came "$title" 0 "two: 0" ""
    holds "$title: does not build" [ "$(built)" = 0 ]
}

edit_as_old() {
    echo three >low/src/lib.rt
    touch -d 2001-01-01 low/src/lib.rt
}

copy_toy() {
    cp -a "$toy" "$room/copy"
    as fail
    call "$room/copy/toy" 0
    came "a copied repository" 0 "two: 0" ""
    holds "a copied repository does not build" [ "$(built)" = 0 ]
}

try_changes() {
    changes "a source is edited" "edited: 0" sh -c 'echo edited >low/src/lib.rt'
    changes "a source two crates down is edited" "edited: 0" sh -c 'echo edited >deep/src/lib.rt'
    changes "a source is removed" "edited: 0" rm low/src/more.rt
    changes "a source is put in" "edited: 0" touch low/src/new.rt
    changes "a definition is edited" "edited: 0" sh -c 'echo word >>low/specs/Lib.antt'
    changes "a source gets an old time" "three: 0" edit_as_old
    changes "a crate is taken out" "three: 0" sh -c 'echo "toy: low" >../crates.txt; echo low: other >>../crates.txt; echo other: >>../crates.txt'
    changes "a source changes once more" "two: 0" sh -c 'echo two >low/src/lib.rt'
    changes "the record is damaged" "two: 0" sh -c 'echo >../out/toy.built'
    changes "the program is removed" "two: 0" rm ../out/toy
    keeps "a source is touched" touch low/src/lib.rt
    keeps "a source is edited and put back" sh -c 'cp low/src/lib.rt saved; echo x >low/src/lib.rt; cp saved low/src/lib.rt; rm saved'
    keeps "a proof is edited" sh -c 'echo proof >low/proofs/first/Proof.antt'
    keeps "a crate is put in beside" sh -c 'echo "last: low" >>../crates.txt'
    copy_toy
}

try_failure() {
    as fail
    echo bad >"$toy/crates/low/src/lib.rt"
    call "$toy/toy" 0
    holds "a failed build ends with 70" [ "$status" = 70 ]
    holds "a failed build writes nothing" [ ! -s "$room/out" ]
    holds "a failed build says so" grep -qxF \
        "toy: the build failed, and out/toy is of older sources: nothing was run (log: $toy/out/toy.log)" "$room/err"
    holds "a failed build shows why" grep -q "^toy:   rt: the library low did not build" "$room/err"
    holds "a failed build leaves the old program" leaves "lock toy toy.built toy.log "
    keeps "a failed build, and its edit is undone" sh -c 'echo two >low/src/lib.rt'
    as edit
    echo bad >"$toy/crates/low/src/lib.rt"
    call "$toy/toy" 0
    holds "a source changes during the build" [ "$status $(tail -n 1 "$room/err")" = \
        "70 toy: a source changed during the build: nothing was run" ]
    echo two >"$toy/crates/low/src/lib.rt"
}

# interrupted SIGNAL STATUS: a signal during the build.
interrupted() {
    as long
    echo bad >"$toy/crates/low/src/lib.rt"
    # (a shell has what it starts in the background ignore INT)
    env --default-signal "$toy/toy" 0 >"$room/out" 2>"$room/err" &
    local pid=$!
    until_there "$room/pid"
    kill -s "$1" "$pid"
    wait "$pid" 2>/dev/null
    status=$?
    came "$1 during a build" "$2" "" "toy: building, which proves the crates that it stands on (log: $toy/out/toy.log)"
    holds "$1 during a build leaves no log" leaves "lock toy toy.built "
    holds "$1 during a build leaves no child" [ ! -e "/proc/$(cat "$room/pid")" ]
    rm "$room/pid"
    keeps "$1 during a build, and its edit is undone" sh -c 'echo two >low/src/lib.rt'
}

try_two_at_once() {
    as wait
    echo both >"$toy/crates/low/src/lib.rt"
    timeout "$most_seconds" "$toy/toy" 0 first >"$room/out1" 2>"$room/err1" &
    local first=$! second
    until_there "$room/calls"
    timeout "$most_seconds" "$toy/toy" 0 second >"$room/out" 2>"$room/err" &
    second=$!
    until_there "$room/err"
    touch "$room/go"
    wait "$second"
    status=$?
    came "two calls at once: the second waits" 0 "both: 0 second" "toy: another call is building here; waiting for it"
    wait "$first"
    status=$?
    holds "two calls at once: the first" [ "$status $(cat "$room/out1")" = "0 both: 0 first" ]
    holds "two calls at once build once" [ "$(built)" = 1 ]
    changes "a source changes after that" "two: 0" sh -c 'echo two >low/src/lib.rt'
}

try_signals() {
    changes "a program that waits" "sleeps: 0" sh -c 'echo sleeps >low/src/lib.rt'
    mkfifo "$room/fifo"
    # What an earlier call wrote must not count as this one's first line.
    rm -f "$room/out"
    env --default-signal "$toy/toy" 0 <"$room/fifo" >"$room/out" 2>"$room/err" &
    local pid=$!
    exec 7>"$room/fifo"
    until_there "$room/out"
    kill -TERM "$pid"
    wait "$pid" 2>/dev/null
    status=$?
    exec 7>&-
    rm "$room/fifo"
    came "a signal ends the program" 143 "sleeps: 0" ""
    changes "it goes on" "two: 0" sh -c 'echo two >low/src/lib.rt'
}

# On a terminal a build names each crate.
try_terminal() {
    if ! python3 -c 'import pty; pty.openpty()' 2>/dev/null; then
        skip "progress on a terminal" "python3 cannot open one"
        return
    fi
    as build
    echo term >"$toy/crates/low/src/lib.rt"
    # A first build has no log yet.
    rm -f "$toy/out/toy.log"
    call python3 -c 'import pty, sys; sys.exit(pty.spawn(sys.argv[1:]) >> 8)' \
        sh -c '"$0" "$@" </dev/null' "$toy/toy" 0 shown
    tr -d '\r' <"$room/out" >"$room/shown"
    printf '%s\n' "toy: building, which proves the crates that it stands on (log: $toy/out/toy.log)" \
        "toy: proving low" "toy: proving toy" "term: 0 shown" >"$room/wanted"
    holds "progress on a terminal" cmp "$room/shown" "$room/wanted"
    changes "and off it" "two: 0" sh -c 'echo two >low/src/lib.rt'
}

# For a user who cannot write there, a program that is built runs, and one that is not says so.
try_unwritable() {
    local as_nobody=()
    if [ "$(id -u)" = 0 ]; then
        as_nobody=(setpriv --reuid 65534 --regid 65534 --clear-groups)
        chmod 755 "$room"
        if ! "${as_nobody[@]}" test -x "$toy/toy" 2>/dev/null; then
            skip "a folder that cannot be written" "setpriv cannot run there as another user"
            return
        fi
    else
        chmod -R a-w "$toy"
    fi
    call "${as_nobody[@]}" "$toy/toy" 0
    came "a folder that cannot be written: built" 0 "two: 0" ""
    [ "$(id -u)" = 0 ] || chmod -R u+w "$toy"
    touch "$toy/crates/low/src/lib.rt"
    [ "$(id -u)" = 0 ] || chmod -R a-w "$toy"
    call "${as_nobody[@]}" "$toy/toy" 0
    came "a folder that cannot be written: touched" 0 "two: 0" ""
    [ "$(id -u)" = 0 ] || chmod -R u+w "$toy"
    echo edited >"$toy/crates/low/src/lib.rt"
    [ "$(id -u)" = 0 ] || chmod -R a-w "$toy"
    call "${as_nobody[@]}" "$toy/toy" 0
    came "a folder that cannot be written: stale" 70 "" "toy: it must be built first, and $toy/out cannot be written"
    [ "$(id -u)" = 0 ] || chmod -R u+w "$toy"
    keeps "it can be written again" sh -c 'echo two >low/src/lib.rt'
}

# What ./test takes of the gate.
try_gate() {
    rm -rf "$toy/out"
    mkdir "$toy/out"
    touch "$toy/out/gate.began"
    call "$toy/scripts/build" --gate toy
    came "no program from the gate" 70 "" "toy: rt ci has left no program"
    printf '#!/bin/sh\necho gate\n' >"$toy/crates/toy/out/toy"
    call "$toy/scripts/build" --gate toy
    came "a program from the gate" 0 "" ""
    as fail
    call "$toy/toy"
    came "a program from the gate runs" 0 gate ""
    call "$toy/scripts/build" --look toy
    came "a program from the gate is of the sources" 0 "" ""
    touch "$toy/crates/low/src/lib.rt"
    call "$toy/scripts/build" --gate toy
    came "a source is newer than the gate" 70 "" "toy: a source changed while rt ci ran, so what it has built is not taken"
    echo three >"$toy/crates/low/src/lib.rt"
    call "$toy/scripts/build" --look toy
    came "a program of older sources" 1 "" ""
}

# tested TITLE STATUS LINE MODE TRIALS: ./test where the gate ends by that mode and the trials by that command, its status and its
# last line but for the times.
tested() {
    printf '#!/bin/sh\necho trials >>"%s"\n%s\n' "$room/calls" "$5" >"$toy/trials/programs"
    as "$4"
    call "$toy/test"
    holds "$1" [ "$status $(tail -n 1 "$room/out" | sed 's/[0-9]* min [0-9]* s/TIME/g')" = "$2 $3" ]
}

# ./test ends with the status of the gate or, if that passed, of the trials.
try_test() {
    local all="took rt ci TIME, builds TIME, trials TIME"
    cp test "$toy/test"
    mkdir -p "$toy/trials"
    : >"$toy/trials/programs"
    chmod +x "$toy/trials/programs"
    tested "test: both pass" 0 "$all" gate 'exit 0'
    holds "test: the gate, and then the trials" [ "$(tr '\n' ' ' <"$room/calls")" = "ci trials " ]
    tested "test: the trials fail" 1 "$all" gate 'exit 1'
    tested "test: the gate fails" 1 "took rt ci TIME" refuses 'exit 0'
    holds "test: after a gate that fails, no trials" [ "$(cat "$room/calls")" = ci ]
    PATH=$room/tools call "$toy/test"
    came "test without the toolchain" 70 "" "test: the toolchain's command rt is not on the path: README.md says what is needed"
    rm -r "$toy/test" "$toy/trials"
}

# What ./try asks of the toolchain: files that the words name in the caller's folder come as copies of that name, and those that
# cannot, by their full names.
try_unproved() {
    cp try "$toy/try"
    as tries
    call "$toy/try"
    came "try without a program" 70 "" "try: usage: ./try PROGRAM WORDS.., with one of these programs: toy"
    call "$toy/try" toy --cases absent
    came "try of cases without a folder" 70 "" "try: --cases needs a folder"
    call "$toy/try" other
    came "try of a library" 70 "" "try: usage: ./try PROGRAM WORDS.., with one of these programs: toy"
    PATH=$room/tools call "$toy/try" toy
    came "try without the toolchain" 70 "" "try: the toolchain's command rt is not on the path: README.md says what is needed"
    holds "none of these asks the toolchain" [ "$(built)" = 0 ]
    cd "$room/else where" || return
    echo here >here
    echo two >"two words"
    echo sum >a=b
    call "$toy/try" toy run here ./here "two words" a=b ../in "$room/in" absent
    holds "try passes a name with a blank on" grep -qxF "two words=$room/else where/two words" "$room/words"
    holds "try passes words and files on" [ "$(cat "$room/calls")" = "try --data here=$room/else where/here --data ./here=$room/else \
where/./here --data two words=$room/else where/two words -- run here ./here two words $room/else where/a=b $room/else where/../in $room/in absent" ]
    as tries
    mkdir cases
    call "$toy/try" toy --cases cases run {}
    holds "try passes a folder of cases on" [ "$(cat "$room/calls")" = "try --cases $room/else where/cases -- run {}" ]
    cd "$root" || return
    holds "try ends as the program does" [ "$status" = 5 ]
    holds "try says that nothing is proved" [ "$(cat "$room/err")" = \
        "try: nothing is proved; rt try compiles toy as it stands and runs it, in a minute or two" ]
}

# The toolchain itself builds a program, refuses a wrong one, and runs one without a proof.
try_toolchain() {
    local real="$room/real" most_seconds=1800
    mkdir -p "$real/crates/small/src"
    cp abtrun "$real/small"
    cp -r try scripts "$real"
    echo small: >"$real/crates.txt"
    cat >"$real/crates/small/src/main.rt" <<'RT'
//! Prints what standard input has.
#![tactic(auto)]

use std::io;

fn main(rt: HostRuntime) -> io::Result<()> {
    for line in rt.lines(rt.alloc()) {
        println!(rt; "{}", line?.as_str())?;
    }
    Ok(())
}
RT
    echo given >"$room/in"
    call "$real/small" <"$room/in"
    came "the toolchain builds" 0 given "small: building, which proves the crates that it stands on (log: $real/out/small.log)"
    call "$real/small" <"$room/in"
    came "what the toolchain built runs" 0 given ""
    call "$real/try" small <"$room/in"
    holds "try runs without a proof" [ "$status $(cat "$room/out")" = "0 given" ]
    holds "the toolchain says so" grep -q 'proved=no' "$room/err"
    sed -i 's/Ok(())/let zero = 0; let _ = 1 \/ zero; Ok(())/' "$real/crates/small/src/main.rt"
    call "$real/small" <"$room/in"
    holds "the toolchain refuses" [ "$status" = 70 ]
    holds "what the toolchain refuses does not run" [ ! -s "$room/out" ]
}

PATH_before=$PATH
make_stand_in
make_toy
try_first_call
try_folders
try_changes
try_failure
interrupted TERM 143
interrupted HUP 129
interrupted INT 130
try_two_at_once
try_signals
try_terminal
try_unwritable
try_gate
try_test
try_unproved
PATH=$PATH_before
try_toolchain
