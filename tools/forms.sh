#!/bin/sh
# forms.sh [FOLDER]: counts the places in src/ that read like an older language, for each point of docs/DESIGN-PASS.md.
set -eu
cd "${1:-$(dirname "$0")/..}"
of() { grep -hE "$1" crates/*/src/*.rt | wc -l; }
named() { printf '%-72s %s\n' "$1" "$2"; }
named '1 enums of the shape of Option or Result' "$(of '^pub enum (Found|Split|WriteId|Plain|Count|Resolved|Inserted|Store(Inserted|Used|Removed|Expired)|Looked|Number|Time|Size) ')"
named '1 functions that answer a number for a reason (-> u8)' "$(of '^\)? ?.*-> u8$|fn .*-> u8 \{')"
named '1 refusals by a literal number' "$(of 'Refused\([0-9]+\)')"
named '1 flags in structs' "$(of '^    pub [a-z_]+: bool,')"
named '2 functions named by a type' "$(of 'fn [a-z]+_(usize|u32|u64|f64)\b')"
named '3 while and loop' "$(of '^ *(while|loop)\b')"
named '3 for' "$(of '^ *for ')"
named '4 ladders of return true, return false' "$(of 'return (true|false);')"
named '4 impls, derives' "$(of '^impl|^ +impl') $(of '#\[derive')"
named '5 slices as parameters, one by one' "$(of '^ +[a-z_]+: &(mut )?\[(usize|u64|u32|f64|u8)\],$')"
named '6 a buffer with its length beside it (out: &mut [u8; N], at: usize)' "$(of '^ +out: &mut \[u8; [0-9]+\],|^ +out: &mut \[u8\],|\(out: &mut \[u8\]')"
named '6 arrays in structs' "$(of '^    (pub )?[a-z_]+: \[[a-z0-9]+; [0-9A-Z]+\],')"
named '7 matches' "$(of '\bmatch ')"
named '8 lines of Answers.antt and Invariants.antt' "$(find crates -path '*/proofs/*' \( -name Answers.antt -o -name Invariants.antt \) ! -path '*/out/*' -exec cat {} + | wc -l)"
named '  lines of src' "$(cat crates/*/src/*.rt | wc -l)"
