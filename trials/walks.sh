# Trials of docs/TUTORIAL.md and docs/EXPLORE.md: each command prints what the page says. `trials/programs` reads this file.

# walk PAGE: writes the page as a script: blocks of `sh` that make files, and a call of `says` for each command of a block of
# `console`.
walk() {
    awk '
        function end_command() { if (command != "") printf "SAID\nsays \"$said\" <<\"COMMAND\"\n%s\nCOMMAND\n", command; command = "" }
        /^```sh$/ { kind = "sh"; text = ""; next }
        /^```console$/ { kind = "console"; next }
        /^```$/ { if (kind == "sh" && text ~ /^cat /) printf "%s", text; end_command(); kind = ""; next }
        kind == "sh" { text = text $0 "\n" }
        kind == "console" && /^\$ / { end_command(); command = substr($0, 3); print "IFS= read -r -d \"\" said <<\"SAID\""; next }
        kind == "console" { print }
    ' "$root/docs/$1"
}

# says TEXT: the command on standard input prints the text.
says() {
    local line
    IFS= read -r line
    PATH=$folder:$PATH timeout -k 5 "$most_seconds" bash -c "$line" >"$room/out" 2>"$room/err"
    printf '%s' "$1" | cmp -s - "$room/out" && [ ! -s "$room/err" ] && pass || miss "$line" "it prints something else than the page says"
}

for page in TUTORIAL.md EXPLORE.md; do
    subject=$page
    walk "$page" >"$room/walk"
    holds "the page has commands" [ "$(grep -c '^says ' "$room/walk")" -gt 5 ]
    if ! { mkdir "$room/$page.folder" && cd "$room/$page.folder"; }; then
        miss folder "no folder can be made"
        continue
    fi
    . "$room/walk"
    cd "$root" || return
done
