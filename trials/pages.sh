# The pages: manual pages are shown without a warning, with all their examples; each link of a page leads to a file and a heading, the
# names of what a crate's page says is proved stand in its sources, and no cell of a table is long.

# examples FILE: the lines of a manual page that are shown as they stand.
examples() { sed -n '/^\.nf/,/^\.fi/{/^\./d;s/\\-/-/g;s/\\&//g;p}' "$1"; }

# shown FILE: whether each of these lines stands in what the last call has shown.
shown() {
    local line
    while IFS= read -r line; do
        grep -qF -- "$line" "$room/out" || return
    done < <(examples "$1")
}

try_manual_pages() {
    local page
    if ! man --version >/dev/null 2>&1 || ! groff --version >/dev/null 2>&1; then
        skip "manual pages" "the commands man and groff are absent"
        return
    fi
    for page in docs/*.1; do
        MANWIDTH=200 call man --warnings -l "$page"
        holds "$page has no warning" [ "$status $(wc -c <"$room/err")" = "0 0" ]
        holds "$page shows its examples" shown "$page"
    done
}

# The repository's files and folders, without what is built.
all_files() { find . \( -name .git -o -name out \) -prune -o -print | sed 's/^\.\///'; }

no_fault() { [ -z "$1" ]; }

# Links lead to what they name, the lists of crates' pages name what their sources have, and no cell of a table is long.
try_pages() {
    local pages=() page kind what last=
    local -A faults=()
    for page in README.md CHANGELOG.md CONTRIBUTING.md bench/*.md docs/*.md docs/*/*.md crates/*/*.md crates/*/data/*.md; do
        [ ! -f "$page" ] || pages+=("$page")
    done
    while IFS=$'\t' read -r page kind what; do
        last=$page
        [ -z "$kind" ] || faults[$page $kind]+=" $what"
    done < <(awk -f trials/pages.awk <(all_files) "${pages[@]}")
    holds "the pages are read" [ "$last" = done ]
    holds "what docs/LIBRARY.md quotes stands in the sources" no_fault "${faults[docs/LIBRARY.md quote]}"
    for page in "${pages[@]}"; do
        holds "the links of $page lead to what they name" no_fault "${faults[$page link]}"
        holds "no cell of a table of $page has more than 300 bytes" no_fault "${faults[$page cell]}"
        case $page in crates/*/README.md | docs/ARCHITECTURE.md | docs/PROOFS.md | docs/GLOSSARY.md)
            holds "the names of $page are there" no_fault "${faults[$page name]}" ;;
        esac
    done
}

try_manual_pages
try_pages
