#!/usr/bin/env bash
# Lists the places of a point of docs/DESIGN-PASS.md in the crates' sources, by their text: tools/places.sh 1a. With no point it counts all.
set -euo pipefail
cd "$(dirname "$0")/.."
declare -A of=(
    # 1: variants that say 'none' or 'refused' in an enum of our own; refusals as numbers; fields that are a flag or stand beside one; a number that means none
    [1a]='^    (Refused|Bad|Wrong|Neither|Other|Violation)(\([a-z0-9, ]*\))?,$'
    [1b]='(Refused|Bad|refused)\([0-9]+'
    [1c]='^    (pub )?(made|fits|checked|verdict|latest|band|day|length): '
    [1d]='(==|!=|<|\b)[ ]?(65535|255)\b'
    # 2: functions of one of the groups of twins that the page names
    [2]='^ *(pub )?fn (wide|flag|first_not_event|first_not_below|first_bad|until|saturating_add|add_saturating|wrapping_mul|smaller|rig_form|stop_form|day_form|gap_form|go_form|open_form|bal_form|amp_form|only_number|only_signed|is_mon|mon_states|band_of|day_steps|outside|outside_signed|joint_next|first_onward|field_length|fields_length|write_field|write_fields|part_length|write_part|legs_length|write_legs|leg_length|write_leg|measure|write_sheet|tell_counted|tell_listed|tell_answered|first_failed|write_draws|cell_from|push|onward|choose_event|find_event|count_cells|list_cells|scenarios|scenarios_small|say|say_number|say_byte|answer|outcome)[<(]'
    # 3: loops whose index is counted by hand, and loops over a range of indices
    [3a]='^ *while '
    [3b]="^ *('[a-z]+: )?for [a-z_]+ in .*\.\."
    # 4: functions that compare, convert or bound a number by hand; conversions by `as`
    [4a]='^ *(pub )?fn (wide|flag|as_byte|at_most_word|smaller|below|same_event|same|alike|asks|wrapping_mul|saturating_add|add_saturating|seven|one_entry|counted|first_lines)\('
    [4b]=' as (u8|u16|u64|usize|i64)\b'
    # 5: clauses with a fact about a value that stands in three contracts or more; parameters that travel together
    [5a]='^ *(pub )?(requires|ensures) .*\b(Lent|RowsOf|RowOf|Bounded|WellFormed|Fits|FitsFor|Allowed|p ≤ 1024)\b'
    [5b]='^ *(moves|counts|stops|given|starts|digits|table|states|cells): &|^ *(pub )?fn .*(table|cells|moves): &.*, p: usize'
    # 6: parallel arrays, and a position beside the buffer that it is in
    [6]='^ *(states|left|scratch): &mut \[|, at: usize, out: &mut \['
    # 7: choices by a tag of what to do
    [7]='if same\(word|match rows|step: u64\)|^ *if is_mon'
)
if [ $# -gt 0 ]; then
    grep -nE "${of[$1]}" crates/*/src/*.rt
else
    for point in $(printf '%s\n' "${!of[@]}" | sort); do
        printf '%s\t%s\n' "$point" "$(cat crates/*/src/*.rt | grep -cE "${of[$point]}" || true)"
    done
fi
