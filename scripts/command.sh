# Sourced, after library.sh, by the scripts that need the command `nos` (cli/, docs/NOS.md): x86-64 code, over the proved archive.
# shellcheck shell=bash

command=target/nos/nos
# shellcheck disable=SC2034 # also for the scripts that build it in their own way
command_words=(-std=c99 -D_POSIX_C_SOURCE=200809L -Wall -Wextra -pedantic -Werror -Iinclude -Iexamples/c -Icli)
command_sources=(cli/*.c examples/c/tables.c)

# The command, where it is not there or older than what it is made of.
make_command() {
    find_compiler
    install_missing
    make_archive
    alone compile_command
}

compile_command() {
    if [ -f "$command" ] && [ -z "$(find cli examples/c/tables.[ch] include "$archive" scripts/command.sh -newer "$command" -print -quit)" ]; then return; fi
    mkdir -p "${command%/*}"
    "$compiler" "${command_words[@]}" -O2 -o "$command.new" "${command_sources[@]}" "$archive"
    mv "$command.new" "$command"
}
