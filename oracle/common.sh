# shellcheck shell=bash disable=SC2034
# Shared by the commands of this folder; to be sourced.
ORACLE=$(cd "$(dirname "${BASH_SOURCE[0]}")" && pwd)
ROOT=$(dirname "$ORACLE")
OUT=$ORACLE/out
BIN=$OUT/bin

# Exit status 2: something is missing; 1 is for answers that differ.
die() { echo "${0##*/}: $*" >&2; exit 2; }

need() { command -v "$1" >/dev/null || die "$1 not found: $2"; }

# build_oracle [KEWB_SRC]: builds kewb and the tool where they or their sources have changed since.
build_oracle() {
    local src=${1:-${KEWB_SRC:-}} mark
    [ -d "$src" ] || die "no folder '$src': give the folder of kewb 0.4.3's source as the last argument, or in KEWB_SRC"
    need cargo "the oracle is built with Rust's cargo"
    mark=$( (cd "$ORACLE" && find build.sh tool wire -type f | sort | xargs sha256sum
             cd "$src" && find . -name '*.rs*' -type f | sort | xargs sha256sum) | sha256sum)
    if [ "$(cat "$OUT/mark" 2>/dev/null)" != "$mark" ]; then
        echo "building the oracle (a minute or two)" >&2
        mkdir -p "$OUT"; rm -f "$OUT/mark"
        "$ORACLE/build.sh" "$src" "$OUT" >&2
        echo "$mark" > "$OUT/mark"
    fi
}

# build_library: proves the product's library, or takes the one in UNIT_LIB.
build_library() {
    if [ -z "${UNIT_LIB:-}" ]; then
        need rt "the product's library is made by tools/staticlib, with rt"
        "$ROOT/tools/staticlib" >&2 || die "tools/staticlib failed"
        UNIT_LIB=$ROOT/target/staticlib/libunit.a
    fi
    [ -f "$UNIT_LIB" ] || die "no library $UNIT_LIB"
}

# build_program NAME: proves and builds one of the product's programs, which stays as crates/NAME/out/NAME. Its input is empty here.
build_program() {
    need rt "the product's programs are built by it"
    (cd "$ROOT/crates/$1" && rt run < /dev/null > /dev/null) || die "rt run failed in crates/$1"
    [ -x "$ROOT/crates/$1/out/$1" ] || die "no program crates/$1/out/$1"
}

# build_driver: links the driver with the product's library.
build_driver() {
    need cargo "the driver is built with Rust's cargo"
    need nm "it says which functions the library has"
    build_library
    UNIT_LIB=$(realpath "$UNIT_LIB") cargo build --quiet --release --offline --locked \
        --manifest-path "$ORACLE/Cargo.toml" --target-dir "$OUT/driver" || die "the driver doesn't build"
    DRIVER=$OUT/driver/release/driver
    COMPARE=$OUT/driver/release/compare
}

# drive FOLDER: the driver's answers to FOLDER/requests against FOLDER/wanted; status 1 if any differ.
drive() {
    local status=0
    "$DRIVER" < "$1/requests" > "$1/given" || { echo "the driver ended with status $?" >&2; status=1; }
    "$COMPARE" "$1/requests" "$1/wanted" "$1/given" || status=$?
    return $status
}

# replay FOLDER FILE...: the same for files of REQUEST<TAB>ANSWER lines; lines that start with # are comments.
replay() {
    local folder=$1; shift
    mkdir -p "$folder"
    cat -- "$@" | grep -v '^#' > "$folder/both"
    cut -f1 "$folder/both" > "$folder/requests"
    cut -f2 "$folder/both" > "$folder/wanted"
    drive "$folder"
}
