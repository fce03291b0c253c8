# What is wrong with the pages: a line PAGE, a tab, KIND, a tab and WHAT for each fault, and at last a line `done`.
#   link   a link whose file, folder or heading is not there, or whose names do not stand in the file of code that it leads to
#   cell   a cell of a table that has more than 300 bytes
#   name   a name of a crate's list "Proved", in a parenthesis that begins with a name, which does not stand in the crate's src or specs;
#          a module that ARCHITECTURE lists and the crate does not have; a crate that ARCHITECTURE or PROOFS does not name; a file that
#          GLOSSARY names and that is not there
#   quote  a line of code that LIBRARY quotes, which does not stand in the file of the last link before it
# Called with all files and folders of the repository, a line each, as the first file, and then with the pages.

function fault(page, kind, what) { print page "\t" kind "\t" what }

# The path of a link from a page, without `.` and `..`.
function path_of(page, link,    parts, kept, count, depth, i, path) {
    if (link == "") return page
    sub(/[^\/]*$/, "", page)
    count = split(page link, parts, "/")
    for (i = 1; i <= count; i++)
        if (parts[i] == "..") depth--
        else if (parts[i] != "." && parts[i] != "") kept[++depth] = parts[i]
    for (i = 1; i <= depth; i++) path = path (i > 1 ? "/" : "") kept[i]
    return path
}

# The name by which a link calls a heading.
function anchor_of(heading) {
    sub(/^#+ /, "", heading)
    heading = tolower(heading)
    gsub(/ /, "-", heading)
    gsub(/[^a-z0-9_-]/, "", heading)
    return heading
}

# Notes the words of a file of code, without its comments.
function read_code(file,    line, words, count, i) {
    if (file in is_read) return
    is_read[file] = 1
    while ((getline line < file) > 0) {
        sub(file ~ /\.rt$/ ? "//.*" : "(^| )--.*", "", line)
        count = split(line, words, /[^A-Za-z0-9_-]+/)
        for (i = 1; i <= count; i++) stands[file, words[i]] = 1
    }
    close(file)
}

# Whether a name, of which a dot or a pair of colons may join the words, stands in a file of code.
function stands_in(file, name,    words, count, i) {
    read_code(file)
    count = split(name, words, /::|\./)
    for (i = 1; i <= count; i++)
        if (!((file, words[i]) in stands)) return 0
    return 1
}

# Whether a name stands in some file of the crate's src or specs.
function stands_in_crate(crate, name,    i) {
    for (i = 1; i <= code_count[crate]; i++)
        if (stands_in(code[crate, i], name)) return 1
    return 0
}

# Whether a line stands in a file of code, whatever its indent.
function is_line_of(file, line,    other) {
    if (!(file in is_listed)) {
        is_listed[file] = 1
        while ((getline other < file) > 0) {
            sub(/^ +/, "", other)
            listed[file, other] = 1
        }
        close(file)
    }
    sub(/^ +/, "", line)
    return (file, line) in listed
}

# Whether a link to a file of code shows this name rightly, as a name of the file or the file's own.
function is_named(file, name) { return file ~ ("/" name "\\.[a-z]+$") || stands_in(file, name) }

function check_links(page, line,    shown, link, file, anchor) {
    while (match(line, /\[[^][]*\]\([^()]*\)/)) {
        shown = substr(line, RSTART + 1, RLENGTH - 2)
        line = substr(line, RSTART + RLENGTH)
        link = shown
        sub(/\].*/, "", shown)
        sub(/.*\]\(/, "", link)
        if (link ~ /^https?:/) continue
        anchor = link
        if (!sub(/^[^#]*#/, "", anchor)) anchor = ""
        sub(/#.*/, "", link)
        file = path_of(page, link)
        if (!(file in exists) || (anchor != "" && !((file, anchor) in anchors))) {
            fault(page, "link", link (anchor == "" ? "" : "#" anchor))
            continue
        }
        if (file !~ /\.(rt|antt)$/) continue
        while (match(shown, /`[A-Za-z0-9_-]+`/)) {
            if (!is_named(file, substr(shown, RSTART + 1, RLENGTH - 2)))
                fault(page, "link", substr(shown, RSTART, RLENGTH) " in " link)
            shown = substr(shown, RSTART + RLENGTH)
        }
    }
}

function check_cells(page, line,    cells, count, i) {
    gsub(/\\\|/, " ", line)
    count = split(line, cells, "|")
    for (i = 1; i <= count; i++) {
        gsub(/^ +| +$/, "", cells[i])
        if (length(cells[i]) > 300) fault(page, "cell", "\"" substr(cells[i], 1, 40) "..\"")
    }
}

function check_names(page, crate, line,    names) {
    while (match(line, /\(`[^()]*\)/)) {
        names = substr(line, RSTART, RLENGTH)
        line = substr(line, RSTART + RLENGTH)
        while (match(names, /`[A-Za-z0-9_:.-]+`/)) {
            if (!stands_in_crate(crate, substr(names, RSTART + 1, RLENGTH - 2)))
                fault(page, "name", substr(names, RSTART, RLENGTH))
            names = substr(names, RSTART + RLENGTH)
        }
    }
}

# The modules that the map lists of a crate.
function check_modules(page, crate, line,    name) {
    sub(/^[^:]*:/, "", line)
    while (match(line, /`[A-Za-z_]+`/)) {
        name = substr(line, RSTART + 1, RLENGTH - 2)
        line = substr(line, RSTART + RLENGTH)
        if (!((crate, name) in modules)) fault(page, "name", name " of " crate)
    }
}

# The files in which a row of the glossary says that its word is defined: of abt_machine, if no crate is named.
function check_row(page, line,    cells, count, files, i, crate, name) {
    count = split(line, cells, "|")
    if (cells[count - 1] ~ /\]\(/) return
    count = split(cells[count - 1], files, ";")
    for (i = 1; i <= count; i++) {
        crate = match(files[i], /abt_[a-z]+/) ? substr(files[i], RSTART, RLENGTH) : "abt_machine"
        while (match(files[i], /`(src\/[a-z_]+\.rt|[A-Za-z]+)`/)) {
            name = substr(files[i], RSTART + 1, RLENGTH - 2)
            files[i] = substr(files[i], RSTART + RLENGTH)
            if (!(("crates/" crate "/" name) in exists) && !(("crates/" crate "/specs/" name ".antt") in exists))
                fault(page, "name", name " of " crate)
        }
    }
}

# A paragraph or an item of a list, joined, since links and names may go on in the next line.
function check_text(page, crate, is_proved, text) {
    check_links(page, text)
    if (is_proved) check_names(page, crate, text)
    if (page != map) return
    if (match(text, /^ - \*\*[a-z_]+\*\*/)) mapped = substr(text, 6, RLENGTH - 7)
    if (text ~ /^ - `(src|specs)\/`:/) check_modules(page, mapped, text)
}

# Each crate is named in the map and in the list of what is proved.
function check_crates(    crate) {
    for (crate in code_count) {
        if (!((map, crate) in names)) fault(map, "name", crate)
        if (!((proofs, crate) in names)) fault(proofs, "name", crate)
    }
}

BEGIN {
    map = "docs/ARCHITECTURE.md"
    proofs = "docs/PROOFS.md"
    glossary = "docs/GLOSSARY.md"
    library = "docs/LIBRARY.md"
}

FNR == 1 { file_number++ }

file_number == 1 {
    exists[$0] = 1
    if ($0 ~ /^crates\/[^\/]*\/(src|specs)\/.*\.(rt|antt)$/) {
        split($0, parts, "/")
        code[parts[2], ++code_count[parts[2]]] = $0
        name = $0
        sub(/.*\//, "", name)
        sub(/\..*/, "", name)
        modules[parts[2], name] = 1
    }
    next
}

FNR == 1 {
    pages[++page_count] = FILENAME
    in_code = 0
    quoted = ""
}

FILENAME == library && !in_code && match($0, /\]\([^()]*\.(rt|antt)\)/) { quoted = path_of(library, substr($0, RSTART + 2, RLENGTH - 3)) }

/^```/ { in_code = !in_code; $0 = "" }

in_code {
    if (FILENAME == library && $0 != "" && !is_line_of(quoted, $0)) fault(library, "quote", "\"" $0 "\"")
    $0 = ""
}

/^#/ { anchors[FILENAME, anchor_of($0)] = 1 }

{
    lines[FILENAME, ++line_count[FILENAME]] = $0
    text = $0
    if (FILENAME == map || FILENAME == proofs) {
        count = split(text, parts, /[^a-z_]+/)
        for (i = 1; i <= count; i++) names[FILENAME, parts[i]] = 1
    }
    while (match(text, /<a id="[^"]*"/)) {
        anchors[FILENAME, substr(text, RSTART + 7, RLENGTH - 8)] = 1
        text = substr(text, RSTART + RLENGTH)
    }
}

END {
    for (p = 1; p <= page_count; p++) {
        page = pages[p]
        crate = page ~ /^crates\/[^\/]*\/README.md$/ ? page : ""
        sub(/^crates\//, "", crate)
        sub(/\/README.md$/, "", crate)
        is_proved = 0
        text = ""
        for (i = 1; i <= line_count[page]; i++) {
            line = lines[page, i]
            if (line == "" || line ~ /^ *(- |[0-9]+\. |\||#)/) {
                check_text(page, crate, is_proved, text)
                text = ""
            }
            if (line ~ /^#/) is_proved = crate != "" && line == "## Proved"
            if (line ~ /^\|/) check_cells(page, line)
            if (line ~ /^\|/ && page == glossary) check_row(page, line)
            sub(/^ +/, "", line)
            text = text " " line
        }
        check_text(page, crate, is_proved, text)
    }
    check_crates()
    print "done"
}
