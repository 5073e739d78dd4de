#!/bin/bash
# Lists the places in src/ where an older form may stand, point by point, with a count before each list.
# Run at the top of the repository; with a commit as its argument it lists those of that commit.
at=${1:-HEAD}
src=(-- 'crates/*/src/*.rt')
show() { echo "== $1: $(printf '%s' "$2" | grep -c .)"; printf '%s\n' "$2"; }
find_lines() { git grep -nE "$1" "$at" "${src[@]}" | sed "s/^[^:]*://" | grep -vE '^[^:]*:[0-9]+: *//' | grep -vE "${2:-^$}"; }

show "1 enums" "$(find_lines '^\s*(pub(\(crate\))? )?enum ')"
show "1 arms that give a number" "$(find_lines '=> [0-9_]+,$')"
show "1 flags among fields and parameters" "$(find_lines '\b[a-z_]+: bool\b')"
show "2 function names that stand more than once" "$(git grep -hoE '\bfn [a-z_]+' "$at" "${src[@]}" | sort | uniq -c | sort -rn | awk '$1 > 1')"
show "2 impls of a trait of this repository" "$(find_lines '^impl.* (BaudGenerator|ChipKind|Chip|EventSource|EventSet|EventKind|Wire|Steps|Selected) for ')"
show "3 loops" "$(find_lines '\b(while|loop)\b|\bfor [a-z_(][^{]* in ' '_tests/src')"
show "3 places of a list by a number" "$(find_lines '[a-z_)]\[[a-z0-9_. -]+(\.\.[^]]*)?\]' 'ghost|#\[|_tests/src')"
show "4 conversions and texts" "$(find_lines 'fn (number|name|text|index|bits|from_bits|events|from_events|hertz|refusal|from_word|from_source|refusal_name|source_code|stop_code|bits_of|set_of|reset_field|into_chip|is_word)\b')"
show "4 types with no Debug" "$(git grep -hE -B1 '^(pub(\(crate\))? )?(struct|enum) ' "$at" "${src[@]}" | awk '/derive/ {d = $0; next} /struct|enum/ {if (d !~ /Debug/) print; d = ""} /^--$/ {d = ""}')"
show "5 clauses that stand three times or more" "$(git grep -hoE '(requires|ensures)[ a-z_]*\{.*' "$at" "${src[@]}" | sed -E 's/;$//; s/^(requires|ensures) [a-z_]* *\{/\1 {/' | sort | uniq -c | sort -rn | awk '$1 >= 3')"
show "5 clauses that name a state twice round writes" "$(find_lines 'with_rest \(')"
show "6 arrays, slices and vectors" "$(find_lines '&(mut )?\[|&.a \[|\[u32; |Vec<' '_tests/src|ghost')"
show "7 matches" "$(find_lines '\bmatch [a-z&*(]' '_tests/src')"
show "7 functions as values" "$(find_lines '\bdyn |\bfn\(|impl Fn|: Fn(Mut|Once)?\(')"
echo "== 8 lines of proofs: lemmas, answers, invariants"
for crate in $(git ls-tree --name-only "$at" crates/ | sed 's|crates/||'); do
  count() { git ls-tree -r --name-only "$at" "crates/$crate/proofs/" | grep -E "$1" | while read -r f; do git show "$at:$f"; done | wc -l; }
  echo "$crate $(count 'proofs/[A-Z][A-Za-z]*\.antt$') $(count 'Answers\.antt$') $(count 'Invariants\.antt$')"
done
