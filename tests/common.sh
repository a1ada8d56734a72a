# Sourced by the scripts of tests/: the root of the repository as the current folder, counts, the closing line, and copies to try things on.
# shellcheck shell=bash
set -uo pipefail
self=$(readlink -f -- "${BASH_SOURCE[0]}")
root=${self%/tests/*}
cd -- "$root" || exit 1
passed=0
failed=0

pass() { passed=$((passed + 1)); }

fail() {
    failed=$((failed + 1))
    printf 'FAILED %s\n' "$1"
}

# The last line of a script, 'N passed, M failed'; the exit status says the same.
closing() {
    echo "$passed passed, $failed failed"
    [ "$failed" -eq 0 ]
}

# Ends a script that cannot go on.
stop() {
    fail "$1"
    closing
    exit 1
}

# same NAME WANTED GOT: compares two texts.
same() {
    if [ "$2" = "$3" ]; then
        pass
    else
        fail "$1: '$3', where '$2' is due"
    fi
}

# Copies the repository, with what is built but without what rt keeps of proofs, to a new folder. The times of files are kept, so that nothing is built
# again there.
copy_to() {
    mkdir -- "$1" "$1/target" &&
        find . -mindepth 1 -maxdepth 1 ! -name .git ! -name target ! -name crates -exec cp -a -t "$1" -- {} + &&
        find crates -mindepth 2 -maxdepth 2 ! -name out -exec cp -a --parents -t "$1" -- {} + &&
        cp -a target/bin target/staticlib target/built-* "$1/target/"
}

# Makes a command of a few lines.
make_command() {
    printf '#!/usr/bin/env bash\n%s\n' "$2" >"$1" && chmod 755 "$1"
}
