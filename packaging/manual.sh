#!/bin/sh
# Writes a manual page by pandoc, from the one file that has its sentences:
#
#     packaging/manual.sh prefixes    prefixes(1), from docs/PREFIXES.md
#     packaging/manual.sh ptree       ptree(1), from docs/PTREE.md
#     packaging/manual.sh patricia    patricia(3), from bindings/c/patricia.h, whose comments are its paragraphs
#
# The date is that of SOURCE_DATE_EPOCH, or else the day on which the file was changed.
set -eu
root=$(cd "$(dirname "$0")/.." && pwd)

# A page of docs without its title and its first paragraph, which is about the page. A code block follows, of how the
# program is called.
of_program() {
    printf '# SYNOPSIS\n\n'
    sed -e '1,4d' -e '5,/^$/b' -e '/^<!--.*-->$/d' -e 's/^## Statuses/## Exit status/' -e 's/^## \(.*\)/# \U\1/' "$1" |
        sed '0,/^$/s/^$/\n# DESCRIPTION\n/'
}

# The comments that begin in the first column as paragraphs, those of a line with an empty one after it as headings, as
# lines in capitals are; and all else as code.
of_header() {
    printf '# SYNOPSIS\n\n    #include <patricia.h>\n    cc program.c $(pkg-config --cflags --libs patricia)\n'
    awk '
        function code() { if (shown ~ /[^\n]/) print "\n```\n" shown "```\n"; shown = "" }
        function told(line) {
            sub(/^(\/\*| \*) */, "", line); sub(/ *\*\/$/, "", line)
            print (line ~ /^[A-Z][A-Z ,]+$/ ? "# " : "") line
        }
        NR == 1 { print "\n# DESCRIPTION"; inside = 1; next }
        title != "" {
            print $0 == "" ? "\n# " toupper(title) "\n" : "\n" title "\n"
            shown = $0 "\n"; title = ""; next
        }
        inside { told($0); inside = $0 !~ /\*\/$/; next }
        /^\/\* .*\*\/$/ { code(); title = substr($0, 4, length($0) - 6); next }
        /^\/\*/ { code(); told($0); inside = 1; next }
        /^(#(if|else|endif|include|define PATRICIA_H$)|extern "C"|}$)/ && !depth { next }
        { shown = shown $0 "\n"; depth += /\{$/; depth -= /^}/ }
        END { code() }' "$1"
}

case ${1-} in
    prefixes) file=$root/docs/PREFIXES.md section=1 other='ptree(1), patricia(3)'
        told='answers questions about prefixes against a list of names' ;;
    ptree) file=$root/docs/PTREE.md section=1 other='prefixes(1), patricia(3)'
        told='answers commands over a map whose keys share their prefixes' ;;
    patricia) file=$root/bindings/c/patricia.h section=3 other='prefixes(1), ptree(1)'
        told=$(sed -n '1s/.* - \(.*\)\.$/\1/p' "$file") ;;
    *) sed -n '2,/^set/s/^#\( \|$\)//p' "$0" >&2; exit 2 ;;
esac
version=$(sed -n 's/^#define PATRICIA_VERSION "\(.*\)"$/\1/p' "$root/bindings/c/patricia.h")
day=$(date -u -d "@${SOURCE_DATE_EPOCH:-$(stat -c %Y "$file")}" +%Y-%m-%d)
{
    printf '# NAME\n\n%s - %s\n\n' "$1" "$told"
    if [ "$section" -eq 3 ]; then of_header "$file"; else of_program "$file"; fi
    printf '\n# SEE ALSO\n\n%s\n' "$other"
} | pandoc -s -f commonmark_x-smart -t man -p --columns=100 -V title="$(echo "$1" | tr a-z A-Z)" -V section="$section" \
    -V date="$day" -V footer="patricia $version" -V adjusting=l |
    sed -e 's/^\.hy$/.nh/' -e '/^\\f\[C\]$/d' -e 's/^\\f\[R\]$/\\\&/' -e 's/\\f\[[CV]\]/\\f[B]/g'
