# Sourced, after x86_64.sh, by the scripts that need something which rt proves and makes: the archive, or a program. What was made
# stands with a stamp in target/made, one for all scripts, so that nothing is proved twice; while one script makes something the others
# wait. None of these functions reads standard input, and make_by and make_archive write nothing to standard output.
# shellcheck shell=bash

archive=target/staticlib/libnosgoludd.a
# shellcheck disable=SC2034 # for the scripts that source this
native_library=target/native/libnosgoludd.a
made=target/made

# Sets `clang`, the toolchain's own, which compiles the library.
find_kit() {
    command -v rt >/dev/null || fail "rt, which proves the library and compiles it, is not on the PATH"
    clang=$(dirname "$(rt doc)")/toolchain/bin/clang
    [ -x "$clang" ] || fail "no $clang"
}

# sources: a sum of all that a proof reads. Must-fail edits and what a program is run on are not among it: nothing is made of them.
sources() { find crates.txt crates/*/src crates/*/specs crates/*/proofs -type f -exec sha256sum {} + | LC_ALL=C sort | sha256sum; }

# stamp_of FILE: where the sum of what a file was made from is kept.
stamp_of() { echo "$made/${1//\//.}"; }

# is_made FILE: whether it is there, and was made from the crates as they are.
is_made() { [ -f "$1" ] && [ -f "$(stamp_of "$1")" ] && [ "$(sources)" = "$(cat "$(stamp_of "$1")")" ]; }

# crates_under NAME: the crates that are proved for this one, lowest first and it the last: those that crates.txt names for it, and theirs.
crates_under() {
    awk -v top="$1" '
        /^[^#]/ {
            name = $1; sub(/:$/, "", name); order[++listed] = name
            for (i = 2; i <= NF; i++) uses[name, $i] = 1
        }
        END {
            wanted[top] = 1
            for (k = listed; k >= 1; k--) if (order[k] in wanted) for (i = 1; i < k; i++) if ((order[k], order[i]) in uses) wanted[order[i]] = 1
            for (i = 1; i <= listed; i++) if (order[i] in wanted) print order[i]
        }' crates.txt
}

# run_rt FILE CRATE WORD..: a command of rt in a crate's folder, for a file; what it says is kept beside the file's stamp. Answers whether
# something was proved.
run_rt() {
    local log said crate=$2
    log=$(stamp_of "$1").log said=$(stamp_of "$1").said
    shift 2
    (cd "crates/$crate" && rt "$@") </dev/null >"$said" 2>&1 || fail "rt $* in crates/$crate failed: $(tail -n 20 "$said")"
    cat "$said" >>"$log"
    grep -q '^logic=proved' "$said"
}

# make_by FILE CRATE LEFT WORD..: makes a file by a command of rt in a crate's folder, which leaves it in out/ under the name LEFT, where
# is_made says that it has to be.
make_by() { alone make_where_missing "$@"; }

# alone COMMAND..: runs a command while no other script makes something.
alone() {
    mkdir -p "$made"
    {
        if command -v flock >/dev/null; then flock 9; fi
        "$@"
    } 9>"$made/lock"
}

# The crates under the one in question are built one after the other, so that it can be said how far this is; rt uses several cores for each.
make_where_missing() {
    local file=$1 crate=$2 left=$3 stamp from all number
    shift 3
    if is_made "$file"; then return; fi
    command -v rt >/dev/null || fail "rt, which proves the crates and makes $file, is not on the PATH"
    stamp=$(stamp_of "$file") from=$(sources)
    mapfile -t all < <(crates_under "$crate")
    tell "proving ${#all[@]} crates for $file; from nothing this takes some minutes"
    rm -f "$stamp" "$stamp.log"
    for number in "${!all[@]}"; do
        if [ "${all[number]}" = "$crate" ]; then
            run_rt "$file" "$crate" "$@"
        else
            run_rt "$file" "${all[number]}" lib
        fi && tell "proved ${all[number]}, $((number + 1)) of ${#all[@]}"
    done
    mkdir -p "${file%/*}"
    cp "crates/$crate/out/$left" "$file.new"
    mv "$file.new" "$file"
    echo "$from" >"$stamp"
}

# The archive, code for every x86-64 processor: by itself rt takes one that has SSE4.
make_archive() { make_by "$archive" nosgoludd_c libnosgoludd_c.a lib --cpu x86-64; }

# The same proved library as code for an Arm machine.
make_native() { make_by "$native_library" nosgoludd_c libnosgoludd_c.a lib --target aarch64-unknown-linux-gnu; }
