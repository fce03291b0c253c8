# The program abtview, as docs/VIEW.md has it: each status with both outputs, and all ways in and out.
journal=$root/crates/abtview/data/hi.journal
picture=$root/crates/abtview/stdout
words_are_bad='abtview: bad command line
usage: abtview svg|trace JOURNAL [WORKLOAD]'
cannot_read='abtview: cannot read'
cannot_write='abtview: cannot write'
too_large="<svg xmlns='http://www.w3.org/2000/svg' width='720' height='40'><text x='10' y='25'>a picture has at most 20,000 events and no stamp above 20,000: use abtview trace</text></svg>"

# A journal of a refused step, and its trace.
write_refused() {
    printf '%s\n' '1 0 take 0 7' '2 0 step 7 0 absent' >"$room/refused.journal"
    cat >"$room/refused.json" <<'JSON'
{"traceEvents":[
{"ph":"M","pid":0,"name":"process_name","args":{"name":"abtrun"}},
{"ph":"M","pid":0,"tid":0,"name":"thread_name","args":{"name":"stream 0"}},
{"ph":"M","pid":0,"tid":0,"name":"thread_sort_index","args":{"sort_index":0}},
{"ph":"X","pid":0,"tid":0,"ts":1.0,"dur":1.8,"cat":"stretch","name":"unit 7","args":{"unit":7}},
{"ph":"X","pid":0,"tid":0,"ts":1.1,"dur":0.6,"cat":"event","name":"take","args":{"unit":7}},
{"ph":"X","pid":0,"tid":0,"ts":2.1,"dur":0.6,"cat":"event","name":"refused","args":{"unit":7,"code":"absent"}},
{"ph":"i","pid":0,"tid":0,"ts":2.4,"s":"t","name":"refused, unit 7"}
]}
JSON
}

# A journal of COUNT misses, whose stamps exceed 32 bits, and its trace.
write_long() {
    awk -v count="$1" -v journal="$room/long.journal" -v trace="$room/long.json" 'BEGIN {
        printf "{\"traceEvents\":[\n{\"ph\":\"M\",\"pid\":0,\"name\":\"process_name\",\"args\":{\"name\":\"abtrun\"}}" >trace
        printf ",\n{\"ph\":\"M\",\"pid\":0,\"tid\":0,\"name\":\"thread_name\",\"args\":{\"name\":\"stream 0\"}}" >trace
        printf ",\n{\"ph\":\"M\",\"pid\":0,\"tid\":0,\"name\":\"thread_sort_index\",\"args\":{\"sort_index\":0}}" >trace
        for (i = 0; i < count; i++) {
            printf "%.0f 0 miss %d\n", 4294967290 + i, i >journal
            printf ",\n{\"ph\":\"X\",\"pid\":0,\"tid\":0,\"ts\":%.0f.1,\"dur\":0.6,\"cat\":\"event\",\"name\":\"miss\"}", 4294967290 + i >trace
        }
        printf "\n]}\n" >trace
    }'
}

# A journal of COUNT misses with stamps from 1 on.
misses() { awk -v count="$1" 'BEGIN { for (i = 1; i <= count; i++) printf "%d 0 miss 0\n", i }'; }

try_views() {
    call "$program" svg "$journal"
    came "the svg of hi" 0 "@$picture" ""
    call "$program" trace "$room/refused.journal"
    came "the trace of a refused step" 0 "@$room/refused.json" ""
    call "$program" trace "$room/long.journal"
    came "a long trace" 0 "@$room/long.json" ""
    call "$program" trace - <"$room/long.journal"
    came "a long trace of standard input" 0 "@$room/long.json" ""
    cat "$room/long.journal" >"$room/fifo" &
    call "$program" trace "$room/fifo"
    came "a long trace of a named pipe" 0 "@$room/long.json" ""
    slowly "$program" trace "$room/long.journal"
    came "a slow reader of a long trace" 0 "@$room/long.json" ""
    call "$program" svg "$room/long.journal"
    came "a journal that is too long to be drawn" 8 "$too_large" ""
    misses 20000 >"$room/text"
    call "$program" svg "$room/text"
    holds "the longest journal is drawn, in eleven bands" [ "$status $(grep -c "^<svg y='" "$room/out")" = "0 11" ]
    holds "it has each mark once, and its kinds" [ "$(grep -c "href='#miss'" "$room/out")" = 20001 ]
    holds "it is at most 20,000 pixels wide" grep -q "^<svg xmlns='http://www.w3.org/2000/svg' width='19000' " "$room/out"
    misses 20001 >"$room/text"
    call "$program" svg "$room/text"
    came "one event more is not drawn" 8 "$too_large" ""
    printf '%s\n' '1 0 step 37 0 ok' '2 0 step 37 1 ok' '9 0 end 37 done' >"$room/text"
    call "$program" svg "$room/text"
    holds "a bar is hatched where its stamps jump" [ "$(grep -o "<rect class='jump'[^>]*>" "$room/out")" = "<rect class='jump' x='19' width='62' height='20'/>" ]
    printf '%s\n' '1 0 step 37 0 ok' '2 0 put 5 0' '3 0 look 37' >"$room/text"
    call "$program" svg "$room/text"
    holds "where the stream puts another unit there is no jump" [ "$(grep -c "class='jump'" "$room/out")" = 0 ]
    holds "a unit has the colour of its last digit, and the stripes of the one before" grep -q "^<g class='u7' .*<rect class='t3' " "$room/out"
    call "$program" trace - </dev/null
    came "the trace of no event" 0 "$(printf '%s\n' '{"traceEvents":[' \
        '{"ph":"M","pid":0,"name":"process_name","args":{"name":"abtrun"}}' ']}')" ""
}

# A workload whose unit says words with signs that have a meaning in XML or in JSON, a letter of two bytes, and U+FFFF, which XML does not
# have; a journal of it, with an event at a position that it does not have; and the trace, with the operations.
write_named() {
    printf '%s\n' 'abt 1' 'streams 1' 'pool 0 fifo mpmc' 'sched 0 prio 0' 'stream 0 main 0' 'units 1' 'unit 0 ult at 0' \
        'say <&>"\' "say 'ß" $'say \xef\xbf\xbf' 'yield' end >"$room/named.abt"
    printf '%s\n' '1 0 step 0 0 ok' '2 0 step 0 1 ok' '3 0 step 0 2 ok' '4 0 step 0 3 ok' '5 0 step 0 4 ok' '6 0 call 1 0 7' >"$room/named.journal"
    cat >"$room/named.json" <<'JSON'
{"traceEvents":[
{"ph":"M","pid":0,"name":"process_name","args":{"name":"abtrun"}},
{"ph":"M","pid":0,"tid":0,"name":"thread_name","args":{"name":"stream 0"}},
{"ph":"M","pid":0,"tid":0,"name":"thread_sort_index","args":{"sort_index":0}},
{"ph":"X","pid":0,"tid":0,"ts":1.0,"dur":4.8,"cat":"stretch","name":"unit 0","args":{"unit":0}},
{"ph":"X","pid":0,"tid":0,"ts":6.0,"dur":0.8,"cat":"stretch","name":"unit 1","args":{"unit":1}},
{"ph":"X","pid":0,"tid":0,"ts":1.1,"dur":0.6,"cat":"event","name":"step","args":{"unit":0,"operation":"say <&>\"\\","code":"ok"}},
{"ph":"X","pid":0,"tid":0,"ts":2.1,"dur":0.6,"cat":"event","name":"step","args":{"unit":0,"operation":"say 'ß","code":"ok"}},
JSON
    printf '%s\n' '{"ph":"X","pid":0,"tid":0,"ts":3.1,"dur":0.6,"cat":"event","name":"step","args":{"unit":0,"operation":"say '$'\xef\xbf\xbf''","code":"ok"}},' \
        '{"ph":"X","pid":0,"tid":0,"ts":4.1,"dur":0.6,"cat":"event","name":"step","args":{"unit":0,"operation":"yield","code":"ok"}},' \
        '{"ph":"X","pid":0,"tid":0,"ts":5.1,"dur":0.6,"cat":"event","name":"step","args":{"unit":0,"code":"ok"}},' \
        '{"ph":"X","pid":0,"tid":0,"ts":6.1,"dur":0.6,"cat":"event","name":"call","args":{"unit":1,"value":"7"}},' \
        '{"ph":"i","pid":0,"tid":0,"ts":6.4,"s":"t","name":"call, unit 1, returned 7"}' ']}' >>"$room/named.json"
    printf '%s\n' '1 0 step 0 0 ok  say &lt;&amp;&gt;&quot;\' '2 0 step 0 1 ok  say &#39;ß' $'3 0 step 0 2 ok  say \xef\xbf\xbd' \
        '4 0 step 0 3 ok  yield' '5 0 step 0 4 ok' >"$room/named.lines"
}

# A workload that says a word and prints a number, and a run of it.
write_told() {
    printf '%s\n' 'abt 1' 'streams 1' 'pool 0 fifo mpmc' 'sched 0 prio 0' 'stream 0 main 0' 'units 1' 'unit 0 ult at 0' \
        'add 42' 'print' 'say a<b' end >"$room/told.abt"
    printf '%s\n' '1 0 take 0 0' '2 0 look 0' '3 0 step 0 0 ok' '4 0 step 0 1 ok' '5 0 step 0 2 ok' '6 0 end 0 done' >"$room/told.journal"
}

# Views with what a say and a print put out.
try_told() {
    call "$program" svg "$room/told.journal" "$room/told.abt"
    holds "the svg shows what a print put out" grep -qx '4 0 step 0 1 ok  print: 42' "$room/out"
    holds "the svg shows what a say put out" grep -qx '5 0 step 0 2 ok  say a&lt;b: a&lt;b' "$room/out"
    call "$program" trace "$room/told.journal" "$room/told.abt"
    holds "the trace shows what a print put out" grep -q '"operation":"print","code":"ok","output":"42"}' "$room/out"
    holds "the trace shows what a say put out" grep -q '"operation":"say a<b","code":"ok","output":"a<b"}' "$room/out"
    holds "nothing else put out something" [ "$(grep -c '"output"' "$room/out")" = 2 ]
    sed 's/^4 0 step 0 1/4 0 step 0 2/' "$room/told.journal" >"$room/text"
    call "$program" trace "$room/text" "$room/told.abt"
    holds "behind an event that may not come nothing is said" [ "$status $(grep -c '"output"' "$room/out")" = "0 0" ]
}

# Views with the operations of a workload.
try_named() {
    local hi=$root/crates/abt_examples/data/hi.abt view
    call "$program" svg "$journal" "$hi"
    holds "the svg of hi names the operation" grep -qx '3 0 step 0 0 ok  say hi: hi' "$room/out"
    sed "s/  say hi: hi\$//; s|<text class='op'[^>]*>say hi: hi</text>||" "$room/out" >"$room/text"
    holds "and is otherwise the svg without a workload" cmp -s "$room/text" "$picture"
    call "$program" svg - "$hi" <"$journal"
    holds "a journal on standard input" grep -qx '3 0 step 0 0 ok  say hi: hi' "$room/out"
    call "$program" svg "$journal" - <"$hi"
    holds "a workload on standard input" grep -qx '3 0 step 0 0 ok  say hi: hi' "$room/out"
    call "$program" trace "$room/named.journal" "$room/named.abt"
    came "the trace with operations" 0 "@$room/named.json" ""
    call "$program" svg "$room/named.journal" "$room/named.abt"
    grep -E '^(<.*<title>)?[1-5] 0 step' "$room/out" | sed 's/.*<title>//' >"$room/text"
    holds "the svg with operations" cmp -s "$room/text" "$room/named.lines"
    ! has_python || {
        holds "it is XML" is_xml "$room/out"
        call "$program" trace "$room/named.journal" "$room/named.abt"
        holds "the trace with operations is one" is_trace "$room/out"
    }
    call "$program" svg "$room/long.journal" "$hi"
    came "a journal that is too long is not drawn with operations" 8 "$too_large" ""
    for view in svg trace; do
        call "$program" "$view" "$journal" "$journal"
        came "$view: a journal is no workload" 3 "" "abtview: line 1: version"
        sed 's/^say hi$/say/' "$hi" >"$room/text"
        call "$program" "$view" "$room/absent" "$room/text"
        came "$view: the workload is read first" 3 "" "abtview: line $(grep -nx say "$room/text" | cut -d: -f1): shape
form: say WORD"
        call "$program" "$view" "$hi" "$hi"
        came "$view: a workload is no journal" 3 "" "abtview: line 1: journal"
        call "$program" "$view" "$room/absent" "$hi"
        came "$view: an absent journal" 5 "" "$(blamed "$room/absent" absent)"
        call "$program" "$view" "$journal" "$room/absent"
        came "$view: an absent workload" 5 "" "$(blamed "$room/absent" absent)"
        call "$program" "$view" "$journal" "$room"
        came "$view: a folder as the workload" 5 "" "$(blamed "$room" "a folder")"
        call "$program" "$view" "$journal" ''
        came "$view: an empty name of a workload" 2 "" "$words_are_bad"
        call "$program" "$view" - - <"$journal"
        came "$view: both are standard input" 2 "" "$words_are_bad"
    done
}

# Whether python3 is there, which says whether a file is well-formed.
has_python() {
    python3 -c 'import json, xml.dom.minidom' 2>/dev/null || {
        skip "the views are well-formed" "python3 cannot be run"
        false
    }
}

is_xml() { python3 -c 'import sys, xml.dom.minidom; xml.dom.minidom.parse(sys.argv[1])' "$1" 2>/dev/null; }

# Whether a file is a trace: on each track slices nest, and each arrow leads from the slice of an event to that of a later one.
is_trace() {
    python3 - "$1" 2>/dev/null <<'PYTHON'
import collections, fractions, json, sys

items = json.load(open(sys.argv[1]), parse_float=fractions.Fraction)["traceEvents"]
slices, frames, arrows = (collections.defaultdict(list) for _ in range(3))
for item in items:
    phase = item["ph"]
    if phase == "X":
        slices[item["tid"]].append((item["ts"], item["ts"] + item["dur"]))
    elif phase == "B":
        frames[item["tid"]].append(item["ts"])
    elif phase == "E":
        slices[item["tid"]].append((frames[item["tid"]].pop(), item["ts"]))
    elif phase in "stf":
        arrows[item["id"]].append(item)
assert not any(frames.values())
for track in slices.values():
    around = []
    for begin, end in sorted(track, key=lambda slice: (slice[0], -slice[1])):
        while around and around[-1] <= begin:
            around.pop()
        assert not around or end <= around[-1]
        around.append(end)
for points in arrows.values():
    assert "".join(point["ph"] for point in points) in ("sf", "stf")
    assert all(one["ts"] < two["ts"] and one["name"] == two["name"] for one, two in zip(points, points[1:]))
    for point in points:
        assert any(begin <= point["ts"] <= end for begin, end in slices[point["tid"]] if end - begin < 1)
PYTHON
}

# has_args JOURNAL WORKLOAD TRACE REPORT: whether each slice of the trace has the arguments that the texts say.
has_args() {
    python3 - "$@" 2>/dev/null <<'PYTHON'
import json, sys

journal, workload, trace, report = (open(name).read() for name in sys.argv[1:])
operations, kinds, open_units = {}, {}, []
pieces = {}
for line in report.splitlines():
    if line.startswith("unit "):
        head, tail = line.split(":", 1)
        pieces[int(head.split()[1])] = iter(tail.split())
sections = "abt streams keys pool sched stream units end".split()
for words in map(str.split, workload.splitlines()):
    if not words or words[0].startswith("#") or words[0] in sections:
        continue
    if words[0] == "object":
        kinds[words[1]] = words[2].replace("cond", "condition")
    elif words[0] in ("unit", "many"):
        count = int(words[2]) if words[0] == "many" else 1
        open_units = range(int(words[1]), int(words[1]) + count)
    else:
        times, words = (int(words[1]), words[2:]) if words[0] == "repeat" else (1, words)
        for unit in open_units:
            operations.setdefault(unit, []).extend(times * [words])
local = "set add say print kset kget calc call yield yieldto suspend exit resume create join cancel migrate migrateto migratable revive".split()


def args(kind, *words):
    if kind == "miss":
        return {}
    unit = int(words[1 if kind == "take" else 0])
    found = {"unit": unit}
    if kind in ("step", "call"):
        words_of = operations[unit][int(words[1])]
        found["operation"] = " ".join(words_of)
        if words_of[0] not in local:
            found["object"] = kinds[words_of[1]] + " " + words_of[1]
        found["code" if kind == "step" else "value"] = words[2]
        if kind == "step" and words[2] != "ok":
            assert next(pieces[unit]) == "!" + words[2]
        elif words_of[0] in ("say", "print"):
            found["output"] = next(pieces[unit])
    return found


items = json.loads(trace)["traceEvents"]
assert [item.get("args", {}) for item in items if item.get("cat") == "event"] == [
    args(*line.split()[2:]) for line in journal.splitlines()
]
for item in items:
    if item.get("cat") in ("stretch", "frame") and item["ph"] != "E":
        assert item["args"] == {"unit": int(item["name"].split()[-1])}
PYTHON
}

# Whether each bar of an svg in one band has the operations that have room, as the lines of its title say.
has_room_for_texts() {
    python3 - "$1" 2>/dev/null <<'PYTHON'
import sys, xml.etree.ElementTree as tree

svg = "{http://www.w3.org/2000/svg}"
bars = 0
for bar in tree.parse(sys.argv[1]).iter(svg + "g"):
    title = bar.find(svg + "title")
    if title is None or not bar.get("transform") or not title.text[0].isdigit():
        continue
    bars += 1
    number, *found = bar.findall(svg + "text")
    lines = [line.split("  ", 1) for line in title.text.splitlines()]
    since, until = (int(lines[i][0].split()[0]) for i in (0, -1))
    right, wanted = since + len(number.text), []
    for words, *operation in lines:
        stamp = int(words.split()[0])
        if operation and stamp >= right and stamp + len(operation[0].encode()) // 2 <= until:
            right = stamp + len(operation[0].encode()) // 2 + 1
            wanted.append((10 * (stamp - since), operation[0]))
    assert [(int(text.get("x")), text.text) for text in found] == wanted
assert bars
PYTHON
}

# What abtrun prints is drawn as in the documents, and the views are well-formed.
try_runs() {
    local run=${program%/*}/abtrun data=$root/crates/abt_examples/data example
    if [ ! -x "$run" ]; then
        miss abtrun "there is no $run"
        return
    fi
    "$run" run "$root/crates/abt_examples/data/stacked.abt" --journal | grep '^[0-9]' >"$room/text"
    call "$program" svg "$room/text"
    came "the picture of docs/VIEW.md" 0 "@$root/docs/stacked.svg" ""
    ! has_python || for example in stacked streams stealing rwlock condition eventual future barrier pipeline; do
        "$run" run "$root/crates/abt_examples/data/$example.abt" --journal >"$room/whole"
        grep '^[0-9]' "$room/whole" >"$room/text"
        call "$program" svg "$room/text"
        holds "the svg of $example is XML" is_xml "$room/out"
        call "$program" trace "$room/text"
        holds "the trace of $example is one" is_trace "$room/out"
        call "$program" svg "$room/text" "$data/$example.abt"
        holds "the svg of $example with operations is XML" is_xml "$room/out"
        call "$program" trace "$room/text" "$data/$example.abt"
        holds "the trace of $example with operations is one" is_trace "$room/out"
        holds "and has the arguments of $example" has_args "$room/text" "$data/$example.abt" "$room/out" "$room/whole"
        call "$program" svg "$room/text" "$data/$example.abt"
        holds "the bars of $example have the operations that have room" has_room_for_texts "$room/out"
        call "$program" trace "$room/text" "$data/$example.abt"
        holds "and each step and each call has one" [ "$(grep -c '"operation"' "$room/out")" = "$(grep -Ec '^[0-9]* [0-9]* (step|call)' "$room/text")" ]
    done
    "$run" run "$root/crates/abt_examples/data/stacked.abt" --journal >"$room/text"
    call "$program" svg "$room/text"
    came "a journal with its report" 3 "" "abtview: line $(($(grep -c '^[0-9]' "$room/text") + 1)): journal"
}

# Words that ask for no view, each with the words parted by blanks.
try_bad_words() {
    local words
    for words in '' svg trace 'svg f f f' 'draw f' 'draw f f' 'Svg f' 'svgx f' 'f svg' '--svg f' '-- svg f' '--help f' '-h' '--version f' 'f --help' help; do
        call "$program" $words
        came "the words '$words'" 2 "" "$words_are_bad"
    done
    call "$program" '' f
    came "an empty word" 2 "" "$words_are_bad"
    call "$program" "svg $journal"
    came "two words in one" 2 "" "$words_are_bad"
    call "$program" svg -- f
    came "a journal of the name '--'" 5 "" "$(blamed f absent)"
    call "$program" svg $'f\xff'
    came "a word that is not UTF-8" 2 "" "abtview: bad command line"
}

# What the program says of itself.
try_about() {
    call "$program" --help
    holds "--help names both views" [ "$status $(grep -c '^  abtview \(svg\|trace\) JOURNAL \[WORKLOAD\] ' "$room/out") $(wc -c <"$room/err")" = "0 2 0" ]
    holds "--help names each status" [ "$(grep -o '[0-9] [a-z]' "$room/out" | cut -c1 | tr -d '\n')" = 0235678 ]
    call "$program" --version
    came "--version" 0 "$(version_of abtview)" ""
}

# refused LINE [HINT]: the journal on standard input is refused at this line, and this is said further, by both views.
refused() {
    cat >"$room/text"
    local view
    for view in svg trace; do
        call "$program" "$view" "$room/text"
        came "$view: refused at line $1" 3 "" "abtview: line $1: journal${2:+
$2}"
    done
}

try_faults() {
    printf '\n' | refused 1
    printf '1 0 miss 0' | refused 1
    printf '1 0 miss 0\n2 0 miss 00\n' | refused 2
    printf '1 0 miss 0\r\n' | refused 1 "the line ends with a carriage return"
    printf '\xef\xbb\xbf1 0 miss 0\n' | refused 1 "the text begins with a byte order mark"
    printf '1 0 miss 0\n2 0 miss 0\n3 0 look  0\n' | refused 3
    printf '1 0 miss 0\n2 0 step 0 0 fine\n' | refused 2
    printf '1 0 miss 0\n2 0 miss \xff\n' | refused 2
    printf '18446744073709551616 0 miss 0\n' | refused 1
    printf '1 4294967296 miss 0\n' | refused 1
    printf '1 0 miss 0\nfinished\n' | refused 2
    { misses 5000 && echo end; } | refused 5001
    call "$program" svg "$root/crates/abt_examples/data/hi.abt"
    came "a workload is no journal" 3 "" "abtview: line 1: journal"
}

# A few bytes at a time, in and out; and each read and each write fails in turn.
try_few_bytes() {
    local most
    for most in 1 7; do
        meddled TRIAL_READ=$most TRIAL_WRITE=$most "$program" svg "$journal"
        came "reads and writes of $most bytes" 0 "@$picture" ""
        meddled TRIAL_READ=$most TRIAL_WRITE=$most "$program" svg - <"$journal"
        came "reads and writes of $most bytes on standard input" 0 "@$picture" ""
        meddled TRIAL_WRITE=$most "$program" draw
        came "writes of $most bytes of a message" 2 "" "$words_are_bad"
    done
    tries_failing_reads svg "$journal" 25
    tries_failing_writes svg "$journal" "$picture" 100 draw
}

try_names() {
    mkdir -p "$room/views"
    cd "$room/views" || return
    tries_long_names svg "$journal" "@$picture"
    tries_names svg "$journal" "@$picture" 'with  blanks' ' ' $'line\nfeed' $'t\tab' 'größe' "quote'\"" '*' '#' svg --help -x -- 'a=b' '...'
    cp "$journal" ./-
    call "$program" svg ./-
    came "the name './-'" 0 "@$picture" ""
    cd "$root" || return
}

try_reading() {
    tries_reading svg "$journal" "@$picture"
    call "$program" svg ''
    came "an empty name" 5 "" "$(blamed "" absent)"
}

try_writing() {
    tries_writing svg "$journal" "@$picture" draw
    tries_a_small_file "$picture" svg "$journal"
}

if ! make_meddler; then
    miss meddle "trials/meddle.c cannot be compiled"
    return
fi
mkfifo "$room/fifo"
write_refused
write_long 10000
write_named
write_told
try_views
try_named
try_told
try_runs
try_bad_words
try_about
try_faults
try_few_bytes
try_names
try_reading
try_writing
signalled TERM 143 "$journal" "$program" svg -
signalled INT 130 "$journal" "$program" svg -
signalled HUP 129 "$journal" "$program" svg -
signalled KILL 137 "$journal" "$program" svg -
refuse_memory
rm "$room/fifo"
