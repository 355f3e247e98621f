# What `run` and `mutants` share: a copy of the definitions, and the table of cases in place of the proofs. Sets `root`.
root=$(cd "$(dirname "${BASH_SOURCE[0]}")/../.." && pwd) || exit 1

# copy_definitions FOLDER: a repository with the crate of the definitions alone. What rt kept there of an earlier copy stays.
copy_definitions() {
    local crate=$1/crates/fdoca
    mkdir -p "$crate" &&
        rm -rf "$crate"/{src,specs,proofs} &&
        cp -r "$root"/crates/fdoca/{src,specs,proofs} "$crate" &&
        echo "fdoca:" > "$1/crates.txt"
}

# only_table FOLDER TABLE: the proofs make way for a table of cases.
only_table() {
    local proofs=$1/crates/fdoca/proofs
    find "$proofs" -name '*.antt' ! -name Everything.antt ! -name Examples.antt -delete &&
        printf 'pub mod Everything\npub mod Examples\npub mod Random\n' > "$proofs/Lib.antt" &&
        cat "$root/tests/definitions/prelude.txt" "$2" > "$proofs/Random.antt"
}

# shown LOG: the first lines of what rt said that tell why a check failed.
shown() { grep -Ev '^(statements|logic|crate|struct|enum|note:|rt: (chose|[a-z]+: begins)) ?' "$1" | head -n 5 | cut -c 1-200; }

# reader_binary NAME WORDS..: a program of the second reader.
reader_binary() {
    local name=$1
    shift
    CARGO_TARGET_DIR=$root/target/cargo cargo run -q --release --offline --manifest-path "$root/tests/reader/Cargo.toml" --bin "$name" "$@"
}
