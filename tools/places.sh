#!/bin/sh
# Counts, in the crates of a checkout, what docs/DESIGN-PASS.md speaks of: tools/places.sh [-v] [FOLDER]. With -v each line is printed.
# The patterns are wide: what they meet is looked through by eye, and the page says what stays and why.
verbose=
[ "$1" = -v ] && { verbose=1; shift; }
cd "${1:-.}" || exit 1

places() {
    title=$1
    pattern=$2
    met=$(grep -rnE -e "$pattern" crates/*/src --include='*.rt' | grep -vE ':[0-9]+: *//')
    if [ -n "$verbose" ]; then
        printf '== %s\n%s\n' "$title" "$met"
    else
        printf '%5d %s\n' "$(printf '%s\n' "$met" | grep -c .)" "$title"
    fi
}

places '1 a number for a refusal in an answer' '(Turned|Refused)(\(u64\)| \{$)|(Turned|Refused)\(refusal\.number|Turned \{ number'
places '1 an enum' '^ *(pub |pub\(crate\) )?enum [A-Z]'
places '1 a pair of numbers for an answer, or a number for a rule' '-> \(u64, u64\)|, expected: u64|refusal: u64|-> \(\(u64, u64\)|unreachable\(\)'
places '2 a type' '^ *(pub |pub\(crate\) )?(struct|enum) [A-Z]'
places '2 a function' '^ *(pub |pub\(crate\) )?fn [a-z_]+'
places '2 a function with a lifetime of its own' '^(pub |pub\(crate\) )?fn [a-z_]+<.a>\('
places '3 a loop over a range of numbers' 'for [a-z_]+ in \(?[0-9A-Za-z_]+\.\.'
places '3 while' '^ *while '
places '4 equality, order, conversion or printing by hand' 'impl (Partial)?(Eq|Ord) for|fn (same|equals|larger|capped|is_digit|print|turned_away|hidden)\(|match .*\.binary_search'
places '5 states, arrows and events side by side' 'states: u(64|16), arrows|^ *states: u64,$'
places '5 a clause that asks for a fact' '^ *requires '
places '6 an array in a type' '^ *(pub )?[a-z_]+: \[[A-Za-z0-9]+; '
places '6 a length beside it' '^ *(pub )?(len|count|numbers): u(size|16|64),$'
places '7 a function pointer, or an enum that chooses a step' '[:(] *fn\(|enum (Mark|Damage|Side)'
