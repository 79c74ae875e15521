# Sourced by the scripts that hold the library's C face to the oracle, with every lent byte watched (tests/face.c). The script that
# sources it stands in the repository's folder, and has set `me`, its own name for messages. It sets `logs`, a folder under target/.
# shellcheck shell=bash

logs=target/${me##*/}
oracle=oracle/target/release/oracle
patience=600 # seconds for the cases of one comparison: what takes longer counts as a difference
mkdir -p "$logs"
. scripts/x86_64.sh
. scripts/library.sh

# The program that answers cases through the C face, $logs/face.
build_face() {
    find_compiler
    install_missing
    make_archive
    "$compiler" -std=c99 -pedantic -Wall -Wextra -Werror -O2 -Iinclude -o "$logs/face" tests/face.c "$archive"
}

# The oracle, and in `work` a new folder for what is compared.
build_oracle() {
    cargo build --release --offline --locked --quiet --manifest-path oracle/Cargo.toml --target-dir oracle/target
    work=$(mktemp -d "$logs/XXXXXX")
}

# Prints the first case with two answers, and ends.
differ() {
    local number which
    number=$(awk -v other="$work/library" '(getline line <other) <= 0 || line != $0 { print NR; exit }' "$work/oracle")
    for which in cases oracle library; do
        printf '%-8s%s\n' "${which/cases/case}" "$(sed -n "${number:-1}p" "$work/$which")"
    done >"$work/difference"
    tell "case ${number:-1} of $1 has two answers; the C face ended with status $2 (124: it took over $patience seconds); $how"
    cut -c 1-2000 "$work/difference" >&2
    fail "the whole lines are in $work/difference, all cases of that turn in $work/cases"
}

# compare WHERE: the cases of $work/cases through both programs, whose answers are in $work/library and $work/oracle then.
compare() {
    local status=0
    "$oracle" answer <"$work/cases" >"$work/oracle"
    timeout "$patience" "${emulator[@]}" "$logs/face" <"$work/cases" >"$work/library" || status=$?
    if [ "$status" -ne 0 ] || ! cmp -s "$work/oracle" "$work/library"; then differ "$1" "$status"; fi
}
