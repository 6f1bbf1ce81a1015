#!/usr/bin/env bash
# Three misuses do not compile: asking a file that has not been checked for a tier, assessing over one, and posting to a closed
# account. This script holds each as text, adds it to a copy of a crate, and expects the compiler's words; and the lawful use
# beside it compiles.
# Usage: scripts/misuse.sh [--keep]     (--keep leaves the copy in place)
# Prints a line for each try and ends 'N passed, M failed'.
set -u

# ---- the misuses, as text: each with the crate that it is added to, and the file in which it is put at the end ----------
library=parameter_file
library_file=crates/parameter_file/src/lib.rt
program=margin_call
program_file=crates/margin_call/src/main.rt

of_an_unchecked_file=$(cat <<'RATTLE'

pub fn tier_before_the_check(file: &Received<'_>, stock: u32) -> Option<return_source::Tier> {
    file.tier(stock)
}
RATTLE
)
of_an_unchecked_file_words="error[unknown-method]: no method named \`tier\` found for type \`Received\`"
of_a_checked_file=$(sed 's/before_the_check/after_the_check/; s/Received/CheckedFile/' <<<"$of_an_unchecked_file")

over_an_unchecked_file=$(cat <<'RATTLE'

pub fn assess_before_the_check(
    account: &ClosedAccount<'_>,
    file: &Received<'_>,
    totals: &mut [i64],
    row: &mut [i32],
    tail: &mut [Outcome],
    holdings: &mut [Holding],
) {
    let _ = account.assess(file, totals, row, tail, holdings);
}
RATTLE
)
over_an_unchecked_file_words="the trait bound \`Received: ReturnSource\` is not satisfied"
over_a_checked_file=$(sed 's/before_the_check/after_the_check/; s/Received/parameter_file::CheckedFile/' <<<"$over_an_unchecked_file")

to_a_closed_account=$(cat <<'RATTLE'

pub fn post_after_closing(account: &mut ClosedAccount<'_>, posting: ledger::Posting) {
    let _ = account.post(posting);
}
RATTLE
)
to_a_closed_account_words="no method named \`post\` found for type \`ClosedAccount\`"
to_an_open_account=$(sed 's/after_closing/before_closing/; s/ClosedAccount/OpenAccount/' <<<"$to_a_closed_account")
# ---------------------------------------------------------------------------------------------------------------------

root=$(cd "$(dirname "$0")/.." && pwd)
keep=no
[ "${1:-}" = --keep ] && keep=yes
folder=$(mktemp -d)
if [ "$keep" = no ]; then trap 'rm -rf "$folder"' EXIT; fi
passed=0
failed=0

# answer NAME OK: counts a try and prints its line.
answer() {
    if [ "$2" = yes ]; then
        passed=$((passed + 1))
        echo "ok      $1"
    else
        failed=$((failed + 1))
        echo "FAILED  $1"
        tail -30 "$folder/said" | sed 's/^/        /'
    fi
}

# try CRATE FILE TEXT: what the compiler says of the crate with the text at the end of its file; leaves status.
try() {
    printf '%s\n' "$3" >>"$folder/copy/$2"
    (cd "$folder/copy/crates/$1" && rt check) >"$folder/said" 2>&1 </dev/null
    status=$?
    cp "$root/$2" "$folder/copy/$2"
}

# refused NAME CRATE FILE TEXT WORDS: the text does not compile, and the compiler says why.
refused() {
    local ok=no
    try "$2" "$3" "$4"
    [ "$status" != 0 ] && grep -qF -- "$5" "$folder/said" && ok=yes
    answer "$1" "$ok"
}

# accepted NAME CRATE FILE TEXT: the text compiles and is proved.
accepted() {
    local ok=no
    try "$2" "$3" "$4"
    [ "$status" = 0 ] && ok=yes
    answer "$1" "$ok"
}

for file in "$library_file" "$program_file"; do
    if [ ! -f "$root/$file" ]; then
        echo "$file is not there: see the top of $0" >&2
        exit 1
    fi
done

# The copy takes what was proved before along, so that only the added function is new.
mkdir "$folder/copy"
(cd "$root" && tar cf - --exclude=./.git --exclude=./bench/target .) | (cd "$folder/copy" && tar xf -)

refused "asking an unchecked file is refused" "$library" "$library_file" "$of_an_unchecked_file" "$of_an_unchecked_file_words"
accepted "asking a checked file is accepted" "$library" "$library_file" "$of_a_checked_file"
refused "assessing over an unchecked file is refused" "$program" "$program_file" "$over_an_unchecked_file" "$over_an_unchecked_file_words"
accepted "assessing over a checked file is accepted" "$program" "$program_file" "$over_a_checked_file"
refused "posting to a closed account is refused" "$program" "$program_file" "$to_a_closed_account" "$to_a_closed_account_words"
accepted "posting to an open account is accepted" "$program" "$program_file" "$to_an_open_account"

[ "$keep" = yes ] && echo "the copy is in $folder"
echo "$passed passed, $failed failed"
[ "$failed" = 0 ]
