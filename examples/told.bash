# shellcheck shell=bash disable=SC2034 # used by those that source this
# What the tests of the commands for people share. Sourced; makes a folder to work in, which is gone
# when the test ends, and goes there. A test counts its cases by told, and ends with all_told.
top=$(cd "$(dirname "${BASH_SOURCE[0]}")/.." && pwd)
work=$(mktemp -d)
trap 'rm -rf "$work"' EXIT
cd "$work" || exit
cases=0
wrong=0

# A case: status, standard output and standard error, the latter two as patterns, then the command.
# Shows one that is not as it must be.
told() { # STATUS OUT ERR COMMAND…
    local want=$1 out=$2 err=$3 status=0
    shift 3
    "$@" >out 2>err || status=$?
    cases=$((cases + 1))
    # shellcheck disable=SC2053 # patterns
    if [ "$status" -eq "$want" ] && [[ $(<out) == $out ]] && [[ $(<err) == $err ]]; then return 0; fi
    wrong=$((wrong + 1))
    printf 'not as it must be: %s\nmust end with %s, print\n%s\nand tell\n%s\nends with %s, prints\n' "$*" "$want" "$out" "$err" "$status"
    cat out
    echo 'and tells'
    cat err
}
input() { local file=$1; shift; "$@" <"$file"; } # FILE COMMAND…

# A copy of a file that may not be read, and what to put before a command so that this holds for
# root too.
lock() { # FILE COPY
    cp "$1" "$2"
    chmod 0 "$2"
    as=()
    if [ -r "$2" ]; then as=(setpriv '--bounding-set=-dac_override,-dac_read_search'); fi # root reads everything
}

# A fresh copy of a command in the folder fresh, where its program is missing, and a command rt in
# kit that only says that it was called.
make_fresh() { # COMMAND
    mkdir -p fresh/crates/model fresh/tools kit
    cp -r "$top/$1" "$top/sheets.bash" "$top/people" "$top/crates.txt" fresh
    cp "$top/tools/build" fresh/tools/
    printf '#!/bin/sh\necho called >>"%s/called"\nexit 1\n' "$work" >kit/rt
    chmod +x kit/rt
}

all_told() {
    echo "$(basename "$0"): $((cases - wrong)) of $cases told as they must be"
    [ "$wrong" -eq 0 ]
}
