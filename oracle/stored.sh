#!/bin/sh
# Writes the stored answers of the programs anew, from the paper and the routed
# Rust: the hours that `vectors` replays (after ROUNDS of search, 50 by default),
# the sheets of `sheet` and `sheet_trials`, the pages of `show` and `show_trials`,
# the pictures of `plot` and `plot_trials`, the file and sheet that `mark` marks,
# and the circuit MUFs of `muf_records_trials`. To be run after oracle/build.sh,
# whenever an elementary function, a line of the sheet or of the page or the
# picture changes.
set -e
cd "$(dirname "$0")/.."
made=oracle/target/release
# the stored hours, and those found that tell more wrong edits of the Rust: the fewest
"$made/wrong" find "${ROUNDS:-50}" < crates/vectors/stdin > "$made/hours"
"$made/wrong" fewest < "$made/hours" > crates/vectors/stdin
hours=$("$made/wrong" count < crates/vectors/stdin)
printf '%s hours as stored\n0 hours different\n0 breaks in the list\n' "$hours" > crates/vectors/stdout
"$made/expected" sheet < crates/sheet/stdin > crates/sheet/stdout
"$made/expected" plot < crates/plot/stdin > crates/plot/stdout
"$made/marking" sample < crates/sheet/stdin > crates/mark/stdin
"$made/expected" mark < crates/mark/stdin > crates/mark/stdout
"$made/sheet_trials" > crates/sheet_trials/stdout
"$made/plot_trials" files > crates/plot_trials/stdin
"$made/plot_trials" > crates/plot_trials/stdout
"$made/muf_records_trials" > crates/muf_records_trials/stdout
"$made/expected" show < crates/show/stdin > crates/show/stdout
"$made/pages" stdin > crates/show_trials/stdin
"$made/pages" stdout > crates/show_trials/stdout
