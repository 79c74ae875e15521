# Sourced by the scripts that build and run the project's programs, which are x86-64 code. The script that sources it stands in
# the repository's folder, and has set `me`, its own name for messages, and `logs`, a folder for what the commands below say.
# It sets `emulator`, the words in front of a program's, how a program is run in `how`, and in `missing` the Debian packages that
# are not there. None of these functions reads standard input or writes to standard output.
# shellcheck shell=bash

tell() { printf '%s: %s\n' "$me" "$*" >&2; }
fail() { tell "$@"; exit 1; }

machine=$(uname -m)
emulator=() missing=()
case $machine in
x86_64) how="run by this machine itself ($machine), with no emulator" ;;
aarch64)
    libraries=/usr/x86_64-linux-gnu # where libc6-amd64-cross puts the C library
    emulator=(qemu-x86_64 -L "$libraries")
    how="run under an emulator, qemu-x86_64, since this machine is $machine and the program x86-64 code"
    command -v qemu-x86_64 >/dev/null || missing+=(qemu-user)
    [ -e "$libraries/lib64/ld-linux-x86-64.so.2" ] || missing+=(libc6-amd64-cross)
    ;;
*) fail "the programs are x86-64 code, and this script knows no emulator for $machine" ;;
esac

# Sets `compiler`, a C compiler for x86-64: a cross compiler where programs run under an emulator.
find_compiler() {
    if [ "${#emulator[@]}" -eq 0 ]; then
        compiler=cc
        command -v cc >/dev/null || missing+=(gcc libc6-dev)
    else
        compiler=x86_64-linux-gnu-gcc
        command -v "$compiler" >/dev/null || missing+=(gcc-x86-64-linux-gnu)
        [ -f /usr/x86_64-linux-gnu/include/stdio.h ] || missing+=(libc6-dev-amd64-cross)
    fi
}

# The package lists are fetched only where the ones at hand, if any, do not do.
get_packages() {
    local get=(env DEBIAN_FRONTEND=noninteractive apt-get install -y -qq --no-install-recommends "${missing[@]}")
    "${get[@]}" || { apt-get update -qq && "${get[@]}"; }
}

# Installs what is missing, or says what to install.
install_missing() {
    [ "${#missing[@]}" -gt 0 ] || return 0
    if [ "$(id -u)" -ne 0 ] || ! command -v apt-get >/dev/null; then fail "install these Debian packages first: ${missing[*]}"; fi
    tell "installing ${missing[*]}"
    get_packages </dev/null >"$logs/install.log" 2>&1 || fail "could not install ${missing[*]}: $(tail -n 3 "$logs/install.log")"
}
