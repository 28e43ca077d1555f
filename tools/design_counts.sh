#!/bin/sh
# Counts the places that docs/DESIGN-PASS.md speaks of, at a commit: tools/design_counts.sh COMMIT [LETTERS]
# With a second argument, as 1a, it lists the places of that count.
commit=${1:-HEAD}
only=$2

find_in() { git grep -nE "$2" "$commit" -- "$1"; }

count() {
    name=$1; shift
    if [ -n "$only" ]; then
        [ "$only" = "${name%% *}" ] && "$@"
        return 0
    fi
    printf '%4d  %s\n' "$("$@" | wc -l)" "$name"
}

src='crates/*/src/*.rt'
clauses() { git grep -hE '^ +(requires|ensures) ' "$commit" -- "$src" | sed 's/^ *//' | sort | uniq -c | awk '$1 > 2'; }
travelling() { git grep -nE '^ +(pub(\(crate\))? )?fn [a-z_0-9]+(<[^(]*>)?\($|^(pub(\(crate\))? )?fn [a-z_0-9]+(<[^(]*>)?\($' "$commit" -- "$src"; }
twice() { git grep -hoE '^pub (fn|struct|enum) [A-Za-z_]+' "$commit" -- 'crates/trial/src/*.rt' 'crates/bench/src/*.rt' | sort | uniq -d; }
answers() { git grep -nE '^pub [^ ]+ : goal\.' "$commit" -- 'crates/*/proofs/*.antt'; }
proof_lines() { git grep -h '' "$commit" -- 'crates/*/proofs/*.antt'; }

count '1a an error passed on by a match or an if let' find_in "$src" 'Err\((why|_)\) => (return )?Err\(|if let Err\(why\) = may_|if let Err\(why\) = fitting'
count '1b an Option or a bool that stands for a refusal' find_in "$src" '^\) -> Option<(usize|Step)>|let Some\(.*\) else \{$|io::Result<bool>|Err\(_\) => (false|None)|-> Option<(Judgement|Self)>'
count '1c a value beside a flag or a count: struct Step' find_in "$src" 'struct Step\b'
count '1d numbers for kinds and refusals' find_in "$src" '^ *(pub )?const (SUB|ONE|SUC|LES|SUM|EMP): (u8|Predicate)|^        [0-5_] => Rows|Refusal::[A-Za-z]+ => [0-9]'
count '1e error enums' find_in "$src" 'pub enum (NoAnswer|Unexplored|Unsaved|Refusal|Unfit|Unread)\b'
count '1f of these with Display and Error' find_in "$src" '^impl Error for '
count '2a public functions and types that stand in two crates' twice
count '2b explorations of the tray that are copied and passed on by hand' find_in "$src" 'copy_table\(fresh|match (single_table|joined|placed|hidden)\b'
count '2c copies of a slice' find_in "$src" 'fn (copy|copy_table)\b'
count '2d definitions of the automaton of rows' git grep -nE '^described ' "$commit" -- 'crates/*/specs/*.antt'
count '2e walks back through a table' find_in crates/judging/src/walk.rt '^ *(for|while) '
count '3a loops' find_in "$src" '^ *(for|while|loop)\b'
count '3b of these with an index or a count moved by hand' find_in "$src" '^ *(at|count|now_met|end) \+= |^ *end = lay_|^ *at = lay_|^ *now_met = '
count '3c loops over the indices of a slice' find_in "$src" 'for [a-z]+ in \(?0\.\.(word\.len\(\)|listed\.len\(\)|met|8|8u16|count|many|columns)\b'
count '4a equality, conversion and printing by hand' find_in "$src" 'fn (equals|name_of|words_of|board_named|numbers)\b'
count '5a clauses that stand three times or more' clauses
count '5b functions whose parameters take a line each' travelling
count '6a parallel arrays and switches that stand for one' find_in "$src" 'const NAMES|^    match p \{$|^    (adder|counter): Option'
count '7a enums that only choose a step or a list' find_in "$src" 'enum (Join|Telling|Part)\b'
count '8a answers' answers
count '8b lines of proofs' proof_lines
