#!/bin/sh
# The tables of docs/AUDIT.md, in markdown:
#   sh docs/audit.sh definitions   every file of crates/*/specs (but Lib.antt, lists of modules): its lines and its title
#   sh docs/audit.sh edits         every must-fail edit, and what it shows
#   sh docs/audit.sh times LOG     from a log of .ci/run by the older toolchain, which names seconds: by crate those of its proof and its edits
set -eu
usage() { sed -n '2,5s/^# //p' "$0" >&2; exit 2; }
root=$(cd "$(dirname "$0")/.." && pwd)
crates=$(sed -n 's/^\([a-z][a-z_0-9]*\)\( staticlib\)\{0,1\}:.*/\1/p' "$root/crates.txt")

definitions() {
    echo '| crate | file | lines | what it defines |'
    echo '|---|---|--:|---|'
    files=0 total=0
    for crate in $crates; do
        for file in "$root/crates/$crate/specs"/*.antt; do
            name=$(basename "$file" .antt)
            if [ ! -f "$file" ] || [ "$name" = Lib ]; then continue; fi
            lines=$(($(wc -l <"$file")))
            title=$(sed -n '1s/^-- *//p' "$file")
            echo "| \`$crate\` | \`$name\` | $lines | ${title%.} |"
            files=$((files + 1)) total=$((total + lines))
        done
    done
    echo "| all | $files files | $total | |"
}

edits() {
    echo '| crate | edit | what it shows |'
    echo '|---|---|---|'
    count=0
    for crate in $crates; do
        for file in "$root/crates/$crate/must-fail"/*.edit; do
            [ -f "$file" ] || continue
            shows=$(sed -n '1s/^shows: //p' "$file")
            echo "| \`$crate\` | \`$(basename "$file" .edit)\` | ${shows:-?} |"
            count=$((count + 1))
        done
    done
    echo "| all | $count edits | |"
}

seconds_of() { # LOG
    echo '| crate | proof, s | edits | edits, s |'
    echo '|---|--:|--:|--:|'
    # shellcheck disable=SC2086
    printf '%s\n' $crates | awk '
        function seconds(line) { sub(/ s\)[^)]*$/, "", line); sub(/^.*[(; ]/, "", line); return line + 0 }
        FNR == NR { order[++n] = $1; next }
        /^rt: [^ ]+ proved \([0-9]+ s\)/ { proof[$2] = seconds($0) }
        /^rt: must-fail [^ ]+: refused, as it must be \(/ {
            split($3, label, "/"); edits[label[1]]++; took[label[1]] += seconds($0)
        }
        END {
            for (i = 1; i <= n; i++) {
                c = order[i]
                printf "| `%s` | %s | %d | %d |\n", c, (c in proof) ? proof[c] : "-", edits[c], took[c]
                a += proof[c]; b += edits[c]; d += took[c]
            }
            printf "| all | %d | %d | %d |\n", a, b, d
        }' - "$1"
}

case ${1:-} in
definitions) definitions ;;
edits) edits ;;
times) [ -f "${2:-}" ] || usage; seconds_of "$2" ;;
*) usage ;;
esac
