#!/usr/bin/env bash
# Prints, for each point of docs/DESIGN-PASS.md, the lines of src/ among which its places were read off, or with -c only how many
# there are. usage: tools/design-count.sh [-c] [FOLDER]    FOLDER holds crates/, by default the repository itself
set -u
only_count=
if [ "${1-}" = -c ]; then only_count=yes; shift; fi
top=$(cd "$(dirname "$0")/.." && pwd)
cd "${1-$top}" || exit 2

# The lines of src/, but for its tests, that an expression finds.
lines() { grep -rnE --include='*.rt' "$1" crates/*/src | grep -v '/tests\.rt:'; }

show() {
    printf '%s: ' "$1"
    if [ -n "$only_count" ]; then wc -l; else echo; cat; fi
}

lines '\benum [A-Z]' | show '1, enums'
lines 'fn (number|layer|numbered|sentence|kind|of_bits)\b|layer: 1|number: u8, layer|KINDS|Err\(Refusal::NoSuch\)|UnknownKind\);|place != 1' | show '1, numbers for kinds and refusals'
python3 "$top/tools/look-alikes.py" . | show '2, functions alike but for names and numbers'
lines '(struct|type) [A-Z]' | show '2, types'
lines 'cut\(rest\)' | show '2, loops alike'
lines '^\s*(for|while|loop)\b|\+= 1;|saturating_add\(1\)' | show '3, loops and counters'
lines '\[7\]|, 7\)|\(value / 0x4000\)|is_still\(7\)|wires\[3\]|, h\] =' | show '3, loops written out'
lines 'None => None|\) => Some\(|Ok\(\(\)\) => Ok|Err\(why\) => Err|\{ 1 \} else|Err\(_\) =>|let Some\(.*else|fn numbered|fn (of_)?bits|hundredths:02|as u(8|16)\b|!= self\.' | show '4, by hand'
grep -rhoE --include='*.rt' '(requires|ensures)( \w+)? \{.*\}' crates/*/src | sed 's/^ *//' | sort | uniq -c | awk '$1 >= 3' | show '5, clauses that stand three times or more'
lines 'fn .*,.*,' | show '5, functions of three parameters and more'
lines '\[[A-Za-z0-9_<>]+; [0-9]+\]' | show '6, arrays'
lines 'fn\(|dyn |\bFn(Mut|Once)?\(|const [A-Z]+: \[' | show '7, functions as values, and tables'
find crates -path '*/proofs/*' -name Answers.antt -not -path '*/out/*' | show '8, files of answers'
find crates -path '*/proofs/*' -name '*.antt' -not -path '*/out/*' -exec cat {} + | show '8, lines of proofs/'
