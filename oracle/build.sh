#!/usr/bin/env bash
# build.sh KEWB_SRC OUT
#
# Assembles kewb 0.4.3 in OUT/kewb from a folder of its source and builds the oracle's programs over it:
#     OUT/bin/published/{oracle,findings}                      ALL_MOVES exactly as in the text
#     OUT/bin/mended/{oracle,findings,gen,requests,record}     feature `mended`: entry 14 of ALL_MOVES F2 -> F3
#     OUT/bin/{published,mended}-checked/{oracle,findings}     the same with overflow checks and debug assertions
#
# KEWB_SRC holds the crate's tree (src/cube/cubie.rs, or cube/cubie.rs if it is the src folder itself) or the same files
# flattened (src--src--cube--cubie.rs.txt). No network is used and no other crate.
#
# The crate's files are copied into OUT as they are; ONLY these changes follow:
#   S1  two_phase/{moves,pruning,utils}.rs: the line `use bincode::{Decode, Encode};` deleted
#   S2  two_phase/{moves,pruning}.rs: the line `#[derive(Encode, Decode)]` deleted;
#       two_phase/utils.rs: `#[derive(Default, Encode, Decode)]` -> `#[derive(Default)]`
#   S3  error.rs: the lines `use bincode..`, `use std::io;`, `use thiserror::Error;`, every `#[error(..)]`
#       and the variants IOError, DecodeError, EncodeError deleted; `#[derive(Error, Debug)]` -> `#[derive(Debug)]`
#   S4  lib.rs: the modules `fs` and `generators` (not in the text given) deleted, with their doc lines
#   S5  lib.rs: `pub mod oracle {..}` appended, which only re-exports what is private
#   S6  two_phase/utils.rs: `#[cfg(not(feature = "mended"))]` put before the const ALL_MOVES, and a copy of that
#       const put after it under `#[cfg(feature = "mended")]` with `F, F2, F2, B` -> `F, F2, F3, B`
#   W1  cube/mod.rs and two_phase/mod.rs written (not in the text given)
#   W2  cube/utils.rs with has_duplicates written (not in the text given: the obvious one, two equal elements);
#       where KEWB_SRC does hold cube/utils.rs, that one is taken instead
#   W3  Cargo.toml written
#   C   two_phase/counted.rs: a copy of two_phase/solver.rs with four insertions (solver.rs itself stays as it is):
#       C1 three fields `entries`, `budget`, `spent` at the end of struct Solver
#       C2 their start values 0, u64::MAX, false in Solver::new
#       C3, C4 as the first statement of solve_phase1 and of solve_phase2:
#            if self.entries == self.budget { self.spent = true; return true; }
#            self.entries += 1;
#          (`true` is the crate's own way to leave the search; best_solution is then None)
# Every change is followed by a test that it took hold the expected number of times.
set -euo pipefail

die() { echo "build.sh: $*" >&2; exit 2; }

[ $# -eq 2 ] || die "usage: build.sh KEWB_SRC OUT"
[ -d "$1" ] || die "no folder $1: KEWB_SRC is the folder of kewb's source"
command -v cargo >/dev/null || die "cargo not found: the oracle is built with Rust's cargo"
SRC=$(cd "$1" && pwd)
HERE=$(cd "$(dirname "$0")" && pwd)
mkdir -p "$2"; OUT=$(cd "$2" && pwd)
KEWB=$OUT/kewb

# path of a crate file in SRC, or nothing
find_src() {
    local c
    for c in "$SRC/src--src--${1//\//--}.txt" "$SRC/src/$1" "$SRC/$1"; do
        if [ -f "$c" ]; then echo "$c"; return; fi
    done
}

# expect N RE FILE: N lines of FILE match RE
expect() {
    local n
    n=$(grep -cE -- "$2" "$3" || true)
    [ "$n" = "$1" ] || die "$3: $n lines match '$2', expected $1"
}

copy_text() {
    local f p
    rm -rf "$KEWB"; mkdir -p "$KEWB/src/cube" "$KEWB/src/two_phase"
    for f in lib.rs error.rs cube/{constants,cubie,facelet,index,moves,scramble}.rs two_phase/{moves,pruning,solver,utils}.rs; do
        p=$(find_src "$f"); [ -n "$p" ] || die "no $f in $SRC"
        cp "$p" "$KEWB/src/$f"; chmod u+w "$KEWB/src/$f"
    done
}

# S1 to S4
drop_dependencies() {
    local f
    for f in two_phase/{moves,pruning,utils}.rs; do
        expect 1 '^use bincode::\{Decode, Encode\};$' "$f"
        sed -i '/^use bincode::{Decode, Encode};$/d' "$f"
    done
    for f in two_phase/{moves,pruning}.rs; do
        expect 1 '^#\[derive\(Encode, Decode\)\]$' "$f"
        sed -i '/^#\[derive(Encode, Decode)\]$/d' "$f"
    done
    expect 1 '^#\[derive\(Default, Encode, Decode\)\]$' two_phase/utils.rs
    sed -i 's/^#\[derive(Default, Encode, Decode)\]$/#[derive(Default)]/' two_phase/utils.rs
    expect 3 '^    (IOError|DecodeError|EncodeError)\(' error.rs
    sed -i -e '/^use bincode::/d' -e '/^use std::io;$/d' -e '/^use thiserror::Error;$/d' -e '/^    #\[error(.*)\]$/d' \
           -e '/^    \(IOError\|DecodeError\|EncodeError\)(/d' -e 's/^#\[derive(Error, Debug)\]$/#[derive(Debug)]/' error.rs
    expect 1 '^#\[derive\(Debug\)\]$' error.rs
    expect 2 '^pub mod (fs|generators) \{$' lib.rs
    sed -i -e '/^\/\/\/ Module containing table read and write operations\.$/d' -e '/^pub mod fs {$/,/^}$/d' \
           -e '/^\/\/\/ Module containing functions for generating states on the cubie level\.$/d' \
           -e '/^pub mod generators {$/,/^}$/d' lib.rs
    expect 0 'fs::|generators' lib.rs
}

# S5
open_private() {
    cat >> lib.rs <<'END'

/// Added by build.sh: what the oracle needs and the crate keeps private.
pub mod oracle {
    pub use crate::cube::{cubie, facelet, moves};
    pub use crate::two_phase::{counted, utils};
}
END
}

# S6
mend_moves() {
    local f=two_phase/utils.rs list=$OUT/all_moves.mended
    expect 1 '^pub const ALL_MOVES: \[Move; 18\] = \[$' "$f"
    expect 1 'F, F2, F2, B' "$f"
    { echo '#[cfg(feature = "mended")]'
      sed -n '/^pub const ALL_MOVES: /,/^\];$/p' "$f" | sed 's/F, F2, F2, B/F, F2, F3, B/'; } > "$list"
    sed -i '/^pub const ALL_MOVES: /i #[cfg(not(feature = "mended"))]' "$f"
    sed -i "/^pub const ALL_MOVES: /,/^\];\$/{/^\];\$/r $list
}" "$f"
    expect 2 '^pub const ALL_MOVES: ' "$f"
    expect 1 'F, F2, F3, B' "$f"
}

# W1 to W3
write_missing() {
    local p
    printf 'pub mod %s;\n' constants cubie facelet index moves scramble utils > cube/mod.rs
    printf 'pub mod %s;\n' counted moves pruning solver utils > two_phase/mod.rs
    p=$(find_src cube/utils.rs)
    if [ -n "$p" ]; then cp "$p" cube/utils.rs; else cat > cube/utils.rs <<'END'
pub fn has_duplicates<T: PartialEq>(slice: &[T]) -> bool {
    (0..slice.len()).any(|i| slice[i + 1..].contains(&slice[i]))
}
END
    fi
    printf '[package]\nname = "kewb"\nversion = "0.4.3"\nedition = "2021"\n\n[features]\nmended = []\n' > "$KEWB/Cargo.toml"
}

# C
count_entries() {
    local f=two_phase/counted.rs
    cp two_phase/solver.rs "$f"
    expect 1 '^    best_solution: Option<Solution>,$' "$f"
    expect 1 '^            best_solution: None,$' "$f"
    expect 2 '^    fn solve_phase[12]\(.*\) -> bool \{$' "$f"
    sed -i -e '/^    best_solution: Option<Solution>,$/a\    pub entries: u64,\n    pub budget: u64,\n    pub spent: bool,' \
           -e '/^            best_solution: None,$/a\            entries: 0,\n            budget: u64::MAX,\n            spent: false,' \
           -e '/^    fn solve_phase[12](.*) -> bool {$/a\        if self.entries == self.budget {\n            self.spent = true;\n            return true;\n        }\n        self.entries += 1;\n' "$f"
    expect 2 'self\.entries \+= 1;' "$f"
}

write_workspace() {
    rm -rf "$OUT/tool" "$OUT/wire"
    cp -r "$HERE/tool" "$HERE/wire" "$OUT/"
    cat > "$OUT/Cargo.toml" <<'END'
[workspace]
resolver = "2"
members = ["kewb", "tool", "wire"]

[profile.release]
opt-level = 3
lto = true
codegen-units = 1

[profile.checked]
inherits = "release"
overflow-checks = true
debug-assertions = true
END
}

# compile VARIANT PROFILE FOLDER PROGRAM...
compile() {
    local variant=$1 profile=$2 folder=$OUT/bin/$3 program words=(); shift 3
    for program in "$@"; do words+=(--bin "$program"); done
    if [ "$variant" = mended ]; then words+=(--features mended); fi
    cargo build --quiet --offline --manifest-path "$OUT/tool/Cargo.toml" --target-dir "$OUT/target/$variant" \
        --profile "$profile" "${words[@]}"
    mkdir -p "$folder"
    for program in "$@"; do cp "$OUT/target/$variant/$profile/$program" "$folder/"; done
}

copy_text
cd "$KEWB/src"
drop_dependencies
open_private
mend_moves
write_missing
count_entries
write_workspace
compile published release published oracle findings
compile mended release mended oracle findings gen requests record
compile published checked published-checked oracle findings
compile mended checked mended-checked oracle findings
echo "build.sh: built in $2/bin"
