# Blocks for tests, from hexadecimal. Sourced by bash.

# bytes HEX: writes these bytes
bytes() { printf '%b' "$(sed 's/../\\x&/g' <<<"$1")"; }

# block FILE DESCRIPTOR DATA: makes a block file of both
block() {
    bytes "$(printf '%08X%08X%s%s' $((${#2} / 2)) $((${#3} / 2)) "$2" "$3")" >"$1"
}
