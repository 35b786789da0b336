# shellcheck shell=sh disable=SC2034
# How this machine compiles for x86-64, which the archive is made for on every machine, and how it
# runs what comes out. A script reads this file from the repository's root: . tools/machine.sh

. tools/compilers.sh

if [ "$(uname -m)" = x86_64 ]; then
    prefix='' link='' emulator=''
    compilers='gcc g++ libc6-dev binutils'
else
    prefix=x86_64-linux-gnu- link=-static emulator=qemu-x86_64
    export QEMU_LD_PREFIX=/usr/x86_64-linux-gnu
    compilers='gcc-x86-64-linux-gnu g++-x86-64-linux-gnu libc6-dev-amd64-cross qemu-user'
fi

# Installs Debian packages unless all these tools are there, and says which.
install_packages() { # PACKAGES TOOLS...
    packages=$1 missing=''
    shift
    for tool in "$@"; do
        command -v "$tool" >/dev/null || missing="$missing $tool"
    done
    [ -n "$missing" ] || return 0
    echo "Installing from Debian, for$missing: $packages"
    # shellcheck disable=SC2086
    install_from_debian $packages
}

# What the tests and the demo need.
install_compilers() {
    # shellcheck disable=SC2086
    install_packages "$compilers make pkg-config" "${prefix}gcc" "${prefix}g++" "${prefix}nm" $emulator make pkg-config
}
