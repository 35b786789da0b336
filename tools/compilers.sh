# shellcheck shell=sh disable=SC2034
# What every script that compiles C shares: the warnings, where the kit has its own compilers, and
# how others are installed. A script reads this file from the repository's root.

warnings='-Wall -Wextra -Wpedantic -Wconversion'

kit_folder() {
    dirname "$(rt doc)"
}

# The folder of the kit's clang and llvm-ar.
kit_compilers() {
    echo "$(kit_folder)/toolchain/bin"
}

install_from_debian() { # PACKAGES...
    as_root=''
    [ "$(id -u)" = 0 ] || as_root=sudo
    $as_root apt-get update -qq && $as_root apt-get install -y -qq --no-install-recommends "$@" >&2
}
