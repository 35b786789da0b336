# shellcheck shell=sh disable=SC2034
# How a script tests: it reads this file, calls check for each test and exits with $status. One that
# gathers the results of many says them, which keeps them in the file $results, and adds them up.

status=0

# Says whether the command that follows the name succeeds. Its complaint goes behind FAIL.
check() { # NAME COMMAND WORDS...
    name=$1
    shift
    if complaint=$("$@" 2>&1); then
        echo "ok $name"
    else
        echo "FAIL $name: $(echo "$complaint" | head -n 5 | tr '\n' ' ')"
        status=1
    fi
}

say() {
    echo "$*" | tee -a "$results"
}

# Keeps what a test printed with the results, its last line ended: what is said next stands at the
# start of a line, where it counts.
keep() { # FILE
    awk 1 "$1" >>"$results"
}

# One that ends badly and says FAIL of nothing counts as a failed test, and so does one that says
# nothing at all.
tell_end() { # NAME STATUS FILE
    if [ "$2" != 0 ]; then
        grep -q '^FAIL ' "$3" || say "FAIL $1: ended with status $2"
    else
        grep -q -e '^ok ' -e '^FAIL ' "$3" || say "FAIL $1: said nothing"
    fi
}

# Runs a script that says ok and FAIL itself: shows and keeps what it prints, and tells a bad end.
tell() { # NAME FILE COMMAND WORDS...
    told=$1 out=$2
    shift 2
    { "$@" 2>&1; echo $? >"$out.ended"; } | tee "$out"
    keep "$out"
    tell_end "$told" "$(cat "$out.ended")" "$out"
}

# The archive can be read, and wants nothing of the world but these.
needs_only_memory_functions() { # ARCHIVE
    needed=$("${prefix-}nm" --undefined-only "$1") || return 1
    ! echo "$needed" | awk '$1 == "U" { print $2 }' | sort -u |
        grep -vx -e memcpy -e memmove -e memset
}

# Whether rt ci says in its line `rt: ok` that a must-fail edit is bad, one that cannot be applied, say. Such an edit
# shows nothing of a contract, and rt ci passes all the same.
has_bad_edits() { # FILE
    grep -q '^rt: ok.*, [0-9][0-9]* bad' "$1"
}

# Prints the last line of all; fails unless all passed.
add_up() {
    passed=$(grep -c '^ok ' "$results")
    failed=$(grep -c '^FAIL ' "$results")
    echo "$passed passed, $failed failed"
    [ "$failed" -eq 0 ] && [ "$passed" -gt 0 ]
}
