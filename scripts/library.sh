# Read by the scripts that link the proved library, after proving.sh.
# shellcheck shell=sh

cc=${CC:-cc}

# Copies a file where the bytes differ, so that nothing that depends on it looks newer than it is.
place() { # FROM TO
    cmp -s "$1" "$2" || cp "$1" "$2" || die "$2 can't be written"
}

# Proves a static library, and leaves the archive that rt writes.
make_archive() { # ../CRATE.a
    crate=$(basename "$1" .a)
    prove lib "$crate"
    keep "$home/crates/$crate/out/lib$crate.a" "$1"
}

# `archive` is that of a static library of crates.txt, proved and built where that has not been done.
archive_of() { # CRATE
    archive=$home/target/archives/$1.a
    build "$archive" "$1" make_archive
}

# The archive that C and Rust programs link: the crate desk_c exports what include/savuneco.h declares.
library() { # OUT.a
    archive_of desk_c
    place "$archive" "$1"
}
