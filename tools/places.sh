#!/bin/bash
# Lists the lines of src/ at which each point of docs/DESIGN-PASS.md was looked for: tools/places.sh [COMMIT] [POINT]
commit=${1:-HEAD}
only=$2
src=':(glob)crates/*/src/**/*.rt'
look() { # point, what, pattern, pattern of lines that don't count
    [ -n "$only" ] && [ "$only" != "$1" ] && return
    echo "== $1. $2"
    git grep -nE "$3" "$commit" -- "$src" | sed "s/^[^:]*:crates.//" | grep -vE "${4:-^$}"
}
look 1 'flags, options and results taken apart by hand, numbers for refusals' \
    '\bbool\b|Option<\(\)>|None => (None|false|Err|unreachable)|Some\(.*\) => (Some|Ok)\(|let (Some|Ok)\(.*else \{|Err\(_\)|Err\(AllocError\)|\[usize; [24]\]|return 0;|past the end' 'tables.rt:.*b"'
look 2 'rows, limits and lines made or asked in one way' \
    'Row \{$|fn (target_of|set_take|set_pass|take_arcs?|pass_arcs?|take_off|add_route|part|next)\b|limit (<=|>=|>) |let line = lines.line\(\)|show\(&rt,|check_refused\(&rt|const (NODES|MAX_NODES|ARCS|CELLS|BLANK|MAX_COLOURS|COLOURS|MAX_COUNT|MOST_ITEMS|MAX_NUMBER|LARGEST|LIMIT|FIELDS)\b|fn field_count'
look 3 'loops' '^ *(for|while|loop) '
look 4 'equality, order, copies, conversions and printing by hand' \
    'fn (same|equals|same_end|same_ends|same_station|line|numbers|prints|line_of|bytes_of|fmt|from)\b|\.(item|count|bits|x|y|z|w) == |format!'
look 6 'arrays and lent memory, with lengths beside them' \
    '^ *(pub(\(crate\))? )?[a-z_]+: (&.a (mut )?\[|\[[A-Za-z0-9]+; |usize,)|= \[0; '
look 7 'a choice by the variant of a step' 'match (lead|call|\*self|limits.base|base|fields.letter\(\))'
if [ -z "$only" ] || [ "$only" = 5 ]; then
    echo '== 5. facts that stand in the contracts of three functions or more'
    git grep -hE '^ *requires' "$commit" -- "$src" | sed -E 's/^ *requires ([a-z_]+ )?\{/{/; s/\.(old|new|now|entry)//g' | sort | uniq -c | sort -rn | awk '$1 >= 3'
fi
if [ -z "$only" ] || [ "$only" = 8 ]; then
    echo '== 8. lines of proof by crate'
    for crate in $(git show "$commit:crates.txt" | sed 's/:.*//'); do
        n=$(git ls-tree -r --name-only "$commit" "crates/$crate/proofs" | while read -r f; do git show "$commit:$f"; done | wc -l)
        echo "$crate $n"
    done
fi
