#!/bin/sh
# Counts, in the sources below the folder given (or here), the places that docs/DESIGN-PASS.md speaks of.
cd "${1:-.}" || exit 1
all() { cat crates/*/src/*.rt; }
flat() { all | tr '\n' ' '; }
n() { printf '%-58s %s\n' "$1" "$2"; }
n '1 enums' "$(all | grep -cE '^ *(pub )?enum [A-Z]')"
n '1 uses of own enums of the shape of Result' "$(all | grep -oE '\b(Verdict|Followed|Number|FileRead|MapRead|FileWritten|TextRead|Step|Judged)::[A-Z]' | wc -l)"
n '1 numbers of refusals' "$(all | grep -cE 'number: [0-9]+,')"
n '1 flags beside values' "$(all | grep -cE '\b(ok|found|have|wrong|tracked|beside): bool')"
n '2 functions' "$(all | grep -cE '^ *(pub )?(const )?fn ')"
n '3 while' "$(all | grep -cE '^ *while ')"
n '3 for over a range' "$(all | grep -cE '^ *(.[a-z]+: )?for [a-z_]+ in [^{]*\.\.')"
n '3 for over anything else' "$(all | grep -cE '^ *(.[a-z]+: )?for .* in [^.]*\{$|^ *for .*\.(iter|zip|enumerate|rev|chunks|lines|split).*\{$')"
n '4 wide, copy, put, get by hand' "$(all | grep -cE '\bfn (wide|copy|put|get|pick|or_else|exchange)\(')"
n '4 printing by hand (fn say..)' "$(all | grep -cE '\bfn say')"
n '4 as' "$(all | grep -oE ' as (u8|u16|u32|u64|usize)' | wc -l)"
n '5 functions of n and m' "$(flat | grep -oE 'fn [a-z_0-9]+\([^)]*\bn: usize, +m: usize' | wc -l)"
n '5 functions of seven parameters or more' "$(flat | grep -oE 'fn [a-z_0-9]+\(([^(),]+:[^(),]+,){6,}[^()]*\)' | wc -l)"
n '5 lengths of 1,024 in clauses' "$(all | grep -oE 'length [a-z_.]+ ≡ 1024' | wc -l)"
n '5 sizes of at most 30 in clauses' "$(all | grep -oE 'n ≤ 30' | wc -l)"
n '6 buffers filled to an offset that is given back' "$(flat | grep -oE 'fn [a-z_0-9]+\([^)]*out: &mut \[[^)]*\) -> usize' | wc -l)"
n '6 parallel arrays as parameters' "$(flat | grep -oE 'fn [a-z_0-9]+\([^)]*(rows: &(mut )?\[u8\]|lo: &(mut )?\[u8\]|ways: &(mut )?\[u8\]|south: &(mut )?\[u8\])' | wc -l)"
n '7 match on a kind or a planner' "$(all | grep -cE '\bmatch (kind|planner|call|asked|setting|layer|step|part)\b')"
n '8 lines in the proofs of functions' "$(find crates/*/proofs -mindepth 2 -name '*.antt' -exec cat {} + | wc -l)"
n '8 lines of lemmas' "$(find crates/*/proofs -maxdepth 1 -name '*.antt' -exec cat {} + | wc -l)"
n '8 functions with a proof by hand' "$(find crates/*/proofs -mindepth 2 -name '*.antt' -printf '%h\n' | sort -u | wc -l)"
