#!/bin/sh
# Lists the candidates of docs/DESIGN-PASS.md at a commit (HEAD by default), a count and then the lines for each point.
# A candidate is a line to read; which of them are places is for the reader to say.
at=${1:-HEAD}

list() {
    found=$(git grep -nE "$2" "$at" -- 'crates/*/src/*.rt' | sed "s/^$at:crates.//")
    echo "== point $1: $(printf '%s' "$found" | grep -c '')"
    printf '%s\n' "$found"
}

list 1 '^ *let (Some|Ok)\(.*\) = .* else|=> return Err\(|^ *None =>|^ *Err\([a-z]+\) =>|return Err\(Refusal|const NUMBER|fn is_graded|fn told|outcome: Result|number\(\) <'
list 2 '^ *(pub |pub\(crate\) )?(fn|struct) |^impl'
list 3 '^ *(for|while|loop)\b'
list 4 'fn (new|get|number|weight|same|screen_of|on_road|told|bits|signed|pair|push_[a-z]+|top_level|kind_number)\b|impl (fmt::)?Display|impl (PartialEq|PartialOrd|Ord|Clone)'
list 5 'requires |ensures settled|rows: &|sheet: &mut|^    ghost [a-z]+: '
list 6 '&mut \[|: \[[^]]*; |= \[[^]]*; '
list 7 '% 2 == 0|match (algebra|call|sheet)|is_graded\(input\)|-> fn\(|dyn '
echo "== point 8"
git ls-tree -r --name-only "$at" -- crates | grep -E '/proofs/.*\.antt$' > /tmp/places.$$
echo "proof files $(grep -c '' /tmp/places.$$), answers $(grep -c Answers.antt /tmp/places.$$), lines $(while read -r file; do git show "$at:$file"; done < /tmp/places.$$ | wc -l)"
rm -f /tmp/places.$$
