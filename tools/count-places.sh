#!/bin/sh
# Lists the places in src/ that docs/DESIGN-PASS.md counts, by point, at a commit.
#
#     sh tools/count-places.sh COMMIT [-l]
#
# Without -l it prints a count for each pattern, with it every line as well.
commit=${1:?a commit}
list=$2

count() {
    found=$(git grep -nE -e "$2" "$commit" -- 'crates/*/src/*.rt' | sed "s/^$commit://" | grep -vE "${3:-^$}" | grep -vE ':[0-9]+: *//')
    lines=$(printf '%s' "$found" | grep -c '')
    printf '%-58s %4s\n' "$1" "$lines"
    if [ "$list" = -l ] && [ -n "$found" ]; then
        printf '%s\n' "$found" | sed 's/^/    /'
    fi
}

count '1a enums of the shape of Option, Result or Ordering' '^(pub )?enum (Cell|Seek|View|Step|Head|Ahead)\b'
count '1a all enums' '^(pub )?enum '
count '1b flags in structs' '^    pub [a-z_]+: bool,'
count '1b pairs of flags' '\(bool, bool\)'
count '1c numbers for kinds in structs' '^    pub (side|kind|term|marks|instruction|latency_sensitive|mark|lot): u(8|32),'
count '1c numbers that mean nothing' 'fn [a-z_]+\(\) -> u8'
count '1d arms that only hand a failure on' 'Err\(_\) =>|None => (Err|return Err|0,|None|Price|Lot)|Seek::(Open\(_p\)|Full) => None|Cell::Free => None'
count '2a helpers that std has (smaller, larger)' 'fn (smaller|larger)\('
count '2b tests for one kind of order' 'fn (is_iceberg|is_a_peg|is_day|is_off|are_opposite)\('
count '3a loops over a range' '^ *for [a-z_]+ in [^ ]*\.\.'
count '3b while loops' '^ *(.[a-z]+: )?while '
count '4a equality and order by hand' 'fn (same|is_same_price|are_opposite|is_better|preferred|or_else)\('
count '4b conversions by hand' 'fn (mark|number|code|from_code|code_of|kind_from_code|from_shares|refusal|name_of|message_of|[a-z]+_word)\('
count '4c constructors that set each field to zero' '^            (other|price|volume|mark|order): 0,'
count '5a journal and ends beside the table' 'journal: &mut Journal'
count '5b clauses with Sound' '(requires|ensures).*\bSound\b'
count '5c clauses with Moved or Kept' '(requires|ensures).*\b(Moved|Kept)\b'
count '5d clauses over the parts of a sheet' 'sheet\.old\.reports\.now'
count '5e clauses that the memory is still the lent one' 'ensures (lent|named|tied) '
count '5f clauses on what rests' 'requires.*(rests_at|live ≡ true|AllMayRest|Undrawn|VolumesFit|Numbered)'
count '5g clauses that numbers do not run out' 'requires.*(next|count|in_play.*) \+ .*< 2 \^ 64|requires.*< 2 \^ 32'
count '5h a sheet handed on beside a table or an order' 'sheet: &mut EventSheet' 'trade|decrement|cancel_both|cancel_active|cancel_resting|conclude|meet_resting'
count '6a arrays and lent slices with a length beside' '^    pub (count|used|frames|n): usize,'
count '7 functions picked at run time' 'fn\(|dyn |Box<dyn'
