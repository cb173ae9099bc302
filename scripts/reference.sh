# Read by the scripts of reference/ and bench/, after common.sh: Rust is compiled, and the reference compiled and tried.
# shellcheck shell=sh

reference=$home/target/reference

# `rust_flags` is empty where the script does not set it.
rust() { # WHAT WORDS...
    what=$1
    shift
    # shellcheck disable=SC2086
    step "compiling $what" rustc -O ${rust_flags-} --edition 2021 "$@" || die "$what can't be compiled"
}

# Leaves the program target/reference/reference and, for compare, target/reference/libreference.rlib; the paper's worked cases are run.
build_reference() {
    mkdir -p "$reference" || die "$reference can't be made"
    rust "the reference" --crate-type rlib --crate-name reference -o "$reference/libreference.rlib" "$home/reference/src/lib.rs"
    rust "its program" --extern reference="$reference/libreference.rlib" -o "$reference/reference" "$home/reference/src/main.rs"
    rust "its cases" --test --crate-name cases -o "$reference/cases" "$home/reference/src/lib.rs"
    step "running the paper's cases" "$reference/cases" --quiet >"$reference/cases.log" ||
        { cat "$reference/cases.log" >&2; say "the reference fails the paper's worked cases"; exit 1; }
}
