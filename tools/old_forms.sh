#!/usr/bin/env bash
# Counts the places of src/ that docs/DESIGN-PASS.md speaks of, point by point, in the tree that it stands in. With -l it lists them.
cd "$(dirname "$0")/.." || exit 1
list=$1

# NAME REGEX: the lines of src/ that match
count() {
    local hits
    hits=$(grep -rnE "$2" crates/*/src --include='*.rt')
    printf '%-58s %4d\n' "$1" "$(printf '%s' "$hits" | grep -c .)"
    if [ "$list" = -l ]; then printf '%s\n' "$hits" | sed 's/^crates./    /'; fi
}

# NAME: a grep of code alone, without its comments
code() {
    local hits
    hits=$(grep -rnE "$2" crates/*/src --include='*.rt' | grep -vE '^[^:]*:[0-9]+: *//')
    printf '%-58s %4d\n' "$1" "$(printf '%s' "$hits" | grep -c .)"
    if [ "$list" = -l ]; then printf '%s\n' "$hits" | sed 's/^crates./    /'; fi
}

code '1 enums' '^ *(pub(\(crate\))? )?enum '
code '1 structs' '^ *(pub(\(crate\))? )?struct '
count '1 a value that stands for none, told in a comment' '^ *///? .*(if there is none|where none is|or the number of|if each has one|or how many stretches|its length is 0|and the place is .at.|; 0 if there is no)'
code '1 functions whose bool says whether something was done' '^ *(pub )?fn (print|tell|write|save)\(.*-> bool'
code '1 fields for a number of document 01' '^ *pub (number|origin|verdict): (u32|usize)'
code '3 while and loop' "^ *('[a-z]+: )?(while|loop)\b"
code '3 an index that is added to by hand' '^ *[a-z]+ \+= 1;'
code '4 casts by as' ' as (u8|u16|u32|u64|usize)\b'
code '4 struct fields written twice (n: n)' '^ *([a-z0-9]+): \1,$'
code '4 functions that convert or tell by hand' '^ *(pub )?fn (wide|tell|reply_of|claim_reply_of|write_reply_of|plain_reply|refusal_reply|of_verdict|same_name|above|number_of|sizes_of|at_most_four|put_decimal|digit)\('
count '5 clauses with Planned' 'Planned (s|self|result)'
code '5 clauses that a memory has room for a plan' 's\.w ≤ (room|length) mem'
code '5 parameters put: bool' '^.*\bput: bool'
code '5 parameters (plan, memory that is read)' 's: Plan, (mem: &\[u8\]|.*mem: &\[u8\])'
code '5 parameters pops beside pushes or counts' '^ *pops: &(mut )?\[u8'
code '6 a lent line with its length as the result' 'out: &mut \[u8; ROOM\]'
code '6 rows with their number beside them' '(rows|steps|errors): &\[u8[^,]*\], n: usize'
code '6 fields numbered by hand (l0, l1 ..)' '^ *(pub )?l[0-3]: usize,'
code '7 a switch or flag on which step to run' '(kind: Kind|same: bool|put: bool)'
printf '%-58s %4d\n' '8 files of answers' "$(find crates/*/proofs -name Answers.antt | wc -l)"
printf '%-58s %4d\n' '8 answers' "$(find crates/*/proofs -name Answers.antt -exec cat {} + | grep -cE '^pub [a-z_A-Z0-9-]+ :')"
printf '%-58s %4d\n' '8 lines of answers and invariants' "$(find crates/*/proofs -name Answers.antt -o -name Invariants.antt | xargs cat | wc -l)"
printf '%-58s %4d\n' '8 lets of answers that stand twice or more' "$(find crates/*/proofs -name Answers.antt -exec cat {} + | grep -E '^ +let .* in$' | sort | uniq -d | wc -l)"
printf '%-58s %4d\n' '8 lines of proof in all' "$(find crates/*/proofs -name '*.antt' -exec cat {} + | wc -l)"
