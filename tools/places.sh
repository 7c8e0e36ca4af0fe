#!/bin/bash
# Counts the places of each point of docs/DESIGN-PASS.md in crates/*/src, and lists them with -l. Run at the top of the repository.
cd "$(dirname "$0")/.." || exit 1
src=(crates/*/src/*.rt)
list=$1

# NAME, then the places, a line each
show() {
    local places; places=$(cat)
    printf '%-4s %4d  %s\n' "$1" "$(printf '%s' "$places" | grep -c .)" "$2"
    [ "$list" = -l ] && printf '%s\n' "$places" | sed 's/^/            /'
}

code() { sed 's,[[:space:]]*//.*,,' "$1"; }

# lines of code, comments left out, that match: FILE:LINE: TEXT
lines() { for f in "${src[@]}"; do code "$f" | grep -nE "$1" | sed "s,^,$f:,"; done; }

lines '^ *(Refused|Failed|Unreached|None|Accepted)(\(.*\))?,$' | show 1a 'variants that say no value, none or a refusal, in enums of the repository'
lines '^ *pub (verdict: (Verdict|Result)|reached: bool|[a-z]+Reached: bool|governs: bool)' | show 1b 'fields that say whether the fields beside them hold a value'
lines '(\b(kind|number|question|environment|strict|cross|paired|apart|seismic|lapping|compression|family|concrete|steel|linkSteel|code|grade): u32)' | show 1c 'numbers for kinds, codes or refusals, in fields and parameters'
for f in "${src[@]}"; do code "$f" | grep -oE '\bfn [a-z_0-9]+' | sed "s,^,$f: ,"; done | grep -v ': fn main$' | sort -u |
    awk '{n[$3]++; at[$3] = at[$3] " " $1} END {for (k in n) if (n[k] > 1) print k ":" at[k]}' | sort | show 2a 'names of functions that more than one file has'
lines '\bfn (and|or|select|smaller|larger|saturating_sub|widen|index|at_most_four|clamped|branchless_[a-z_]+|one_if)\b' | show 2b 'functions that stand for an operator or a method of the library'
lines '\bwhile\b' | show 3a 'loops by while'
lines '^ *(let ok = )?and\(slot_holds' | show 3b 'lines of a loop that is written out'
lines '\bfn (widen|index|same|one_if|number_of|word_of|answer_record|utilization_record|copy_slots|number_read|no_ratio|refused|no_room|of_[a-z]+|in_(units|tenths|hundredths|newtons|millimetres))\b' | show 4a 'functions that compare, copy or convert'
lines '\.in_(newtons|millimetres)\(\) <=|<= [a-z0-9.()]*\.in_(newtons|millimetres)\(\)$' | show 4b 'lines that compare the numbers inside lengths and forces'
for f in "${src[@]}"; do code "$f" | grep -oE 'requires \{.*\}' | sed -E 's/requires \{ //; s/ \}$//; s/ × /\n/g' | sed -E 's/^\(+//; s/\)+$//'; done |
    grep -oE '^(Bounded|AcceptedBeam|AcceptedColumn|AcceptedMesh|BeamInRange|AcceptedGroups?|AcceptedFrom|Given|ExactFigures?|AllInRange|fields_hold|stress ≤ stress_most|mean ≤ stress_most|G x ≤ 50|from ≤ end|end ≤ 40)' | sort | uniq -c | awk '$1 > 2' | show 5a 'facts that three or more contracts ask for'
lines 'out: &mut \[u8\], at: usize' | show 5b 'signatures with a buffer and the place in it'
lines 'src: &\[u8\], at: usize' | show 5c 'signatures with bytes and the place in them'
lines '\[Group; 4\]' | show 6a 'four groups, of which a number beside them says how many are there'
lines '\b(count|tensions|compressions|n|end|len): usize,?' | show 6b 'lengths beside a buffer, in fields and parameters'
lines '\b(fn\(|dyn |\[fn)' | show 7a 'function pointers, dyn and tables of functions'
lines 'match (step|stage|phase|mode|op)\b' | show 7b 'switches on which step to run'
