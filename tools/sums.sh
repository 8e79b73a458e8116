# Sums that tell of which code a program was built, for the launcher and the gate, which source this file with `top` as the top of the
# repository. Beside a program is PROGRAM.sums, lines of a word and what it says: `program`, the sum of the program's own bytes;
# `code`, that of the code it was built from; and where it is proved `proofs`, that of code, definitions and proofs, and `by`, who proved
# and built it: `gate`, or `use` for a call of the launcher.
# shellcheck shell=bash disable=SC2154

# One sum of the files whose names are read, each name ended by a zero byte.
sum_of_files() { LC_ALL=C sort -z | xargs -0 sha256sum | sha256sum | cut -c 1-64; }

sum_of_code() { (cd "$top" && find crates.txt crates/*/src -type f -print0 | sum_of_files); }
sum_of_proofs() {
    (cd "$top" && find crates.txt HANDLES crates/*/src crates/*/specs crates/*/proofs -type f -print0 2>/dev/null | sum_of_files)
}
sum_of_file() { sha256sum <"$1" | cut -c 1-64; }

# What is noted of a program under a word.
noted() { # PROGRAM WORD
    sed -n "s/^$2 //p" "$1.sums" 2>/dev/null
}

# Notes what a program was built from, of which the sums were taken before the build.
note() { # PROGRAM CODE_SUM [PROOFS_SUM BY]
    {
        printf 'program %s\ncode %s\n' "$(sum_of_file "$1")" "$2"
        [ $# -lt 4 ] || printf 'proofs %s\nby %s\n' "$3" "$4"
    } >"$1.sums"
}

# Whether the file is the program that was built, and of the code as it is here.
is_of_this_code() { # PROGRAM
    [ -x "$1" ] && [ "$(noted "$1" program)" = "$(sum_of_file "$1")" ] && [ "$(noted "$1" code)" = "$(sum_of_code)" ]
}
