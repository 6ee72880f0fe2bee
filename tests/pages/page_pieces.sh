#!/usr/bin/env bash
# Looks at the fixed pieces of the page that shows a report, crates/bf_texts/src/page.rt and the files in page/: there are eight, as docs/ARCHITECTURE.md
# has their sizes and the SHA-256 of all, each text
# stands alone between two tags, the policy names the hashes of the styles and of the script, so that a browser runs these and nothing
# else, and the script makes neither elements nor code of a text. It takes python3. The last line is the sum, and the status is 1 where
# something differs.
set -euo pipefail

source "$(dirname "$(readlink -f "${BASH_SOURCE[0]}")")/../shared/count.sh"
command -v python3 > /dev/null || skips_rest 'the pieces of the page: no python3'

found() {
    python3 "$root/tests/shared/page_pieces.py" "$root" "$1"
}

is_same 'the pieces' 'TO_GRAPH_PATH TO_REPORT_PATH TO_ZONE_PATH TO_CELLS TO_GRAPH TO_REPORT TO_TIMES BEHIND_TIMES' "$(found names)"
tags=''
for name in graph-path report-path zone-path cells graph report times; do
    tags+="<script type=\"text/plain\" id=\"$name\"> </script>"$'\n'
done
is_same 'the tags round the texts' "${tags%$'\n'}" "$(found tags)"
architecture=$(< "$root/docs/ARCHITECTURE.md")
while read -r name bytes; do
    case $name in
        TO_GRAPH_PATH | BEHIND_TIMES) is_same "the bytes of $name" "$(sed -E ':a; s/([0-9])([0-9]{3})($|,)/\1,\2\3/; ta' <<< "$bytes")" "$(sed -nE "s/^\| \`$name\` \| ([0-9,]+) \|.*/\1/p" <<< "$architecture")" ;;
        *) holds "the bytes of $name" test 47 -le "$bytes" -a "$bytes" -le 53 ;;
    esac
done < <(found sizes)
is_same 'the SHA-256 of all pieces' "$(found sum)" "$(sed -nE 's/^The SHA-256 .* is `([0-9a-f]{64})`.*/\1/p' <<< "$architecture")"
is_same 'the policy' "$(found hashes)" "$(found policy)"
is_same 'what makes elements or code of a text' '' "$(found makers)"

sum
