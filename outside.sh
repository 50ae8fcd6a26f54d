#!/bin/sh
# outside.sh [PART..]: what the gate does not run, a line for each part. Ends with status 1 where a part failed.
#
# The gate, rt ci, needs rt alone. The parts here need more than that, or more time: cargo, rustfmt, python3, the Rust's own files. A part
# whose needs are not met is not run, and says so; that is no failure. outside.sh --list names the parts; without a PART all are run, in
# that order. What a part prints goes to target/outside/PART.log. The work tree is left as it is.
#
# NVS_SOURCE names the folder of the Rust's files, src of esp-nvs 0.6.3, from the repository's root where it is no absolute path.
set -u

parts='rust_layout picture archive rust_tests compare_tests compare fault tried'

title() { # PART
    case $1 in
    rust_layout) echo 'the files of rust/, compare/ and bench/ are laid out as rustfmt does it' ;;
    picture) echo 'docs/house.svg is the picture that crates.txt gives' ;;
    archive) echo 'boundary/archive.sh makes the archive, which needs memcpy and memset alone' ;;
    rust_tests) echo 'the tests of rust/ pass' ;;
    compare_tests) echo 'the tests of compare/ pass' ;;
    compare) echo 'our calls and the Rust agree on the same inputs' ;;
    fault) echo 'a fault planted in our side is found' ;;
    tried) echo 'each edit of crates/*/tried/ is refused' ;;
    *) return 1 ;;
    esac
}

# ---- the parts
#
# A part ends with 0 where it is good, and with 77 where it was not run. Its line adds the note, if there is one.

skip() { # REASON
    note=$*
    return 77
}

part_rust_layout() {
    cargo fmt --version || { skip 'cargo fmt is not at hand'; return; }
    wrong=0
    for folder in rust compare bench; do
        # --all: the packages below compare/standins/ too
        (cd "$folder" && cargo fmt --all --check) || wrong=1
    done
    return "$wrong"
}

part_picture() {
    command -v python3 || { skip 'python3 is not at hand'; return; }
    python3 docs/house.py --check
}

part_archive() {
    # An archive of an earlier run must not pass for this one's.
    rm -f "$archive"
    boundary/archive.sh "$archive" || return
    # What the firmware that links it has to bring.
    command -v nm || { note='nm is not at hand, so what it needs was not looked at'; return 0; }
    needs=$(nm -u "$archive" | awk '$1 == "U" { print $2 }' | sort -u | tr '\n' ' ')
    echo "the archive needs: $needs"
    [ "$needs" = 'memcpy memset ' ]
}

# Without an archive the tests of rust/ pass, and test no call.
with_archive() {
    command -v cargo || { skip 'cargo is not at hand'; return; }
    [ -f "$archive" ] || skip 'there is no archive'
}

with_source() {
    [ -n "${NVS_SOURCE:-}" ] || { skip 'NVS_SOURCE names no folder'; return; }
    with_archive
}

part_rust_tests() { with_archive && (cd rust && cargo test); }

part_compare_tests() { with_source && (cd compare && cargo test --release); }

# The whole comparison: it takes about half a minute.
part_compare() { with_source && (cd compare && cargo run --release); }

part_fault() {
    with_source || return
    # One case, so no histories: the fault is found long before them.
    (cd compare && cargo run --release -- --fault 1 --cases 1)
    status=$?
    # A wrong option ends with status 1 too.
    [ "$status" -eq 1 ] && grep -qx 'the two sides differ' "$log"
}

# In a copy of the repository, where the edits of tried/ stand in for those of must-fail/.
part_tried() {
    copy=$out/tried
    rm -rf "$copy"
    mkdir -p "$copy" && tar -c --exclude=out crates.txt crates | tar -x -C "$copy" || return
    rm -rf "$copy"/crates/*/must-fail
    set --
    for folder in "$copy"/crates/*/tried; do
        [ -d "$folder" ] || continue
        mv "$folder" "${folder%/tried}/must-fail"
        set -- "$@" "$(basename "${folder%/tried}")"
    done
    [ $# -gt 0 ] || { skip 'there is none'; return; }
    # An edit is tried over what a check of its crate kept.
    for crate; do
        (cd "$copy/crates/$crate" && rt check) || return
    done
    (cd "$copy" && rt must-fail "$@")
    status=$?
    edits=$(find "$copy"/crates/*/must-fail -name '*.edit' | wc -l)
    refused=$(grep -c '^rt: must-fail .*: refused, as it must be' "$log")
    note="$refused of $((edits))"
    [ "$status" -eq 0 ] && [ "$refused" -eq "$edits" ] && rm -rf "$copy"
}

# ---- which parts are run, and what is said of each

passed=0 failed=0 skipped=0

run() { # PART
    log=$out/$1.log note='' began=$(date +%s)
    "part_$1" >"$log" 2>&1
    case $? in
    0) result="ok${note:+, $note}" passed=$((passed + 1)) ;;
    77) result="not run: $note" skipped=$((skipped + 1)) ;;
    *) result="FAILED${note:+, $note}, see ${log#"$PWD"/}" failed=$((failed + 1)) ;;
    esac
    printf '%-13s  %s: %s (%s s)\n' "$1" "$(title "$1")" "$result" $(($(date +%s) - began))
}

list() { for part in $parts; do printf '%-13s  %s\n' "$part" "$(title "$part")"; done; }

[ "$*" != --list ] || { list; exit; }
asked=$*
for part; do
    title "$part" >/dev/null || { echo "outside.sh: there is no part $part; the parts are: $parts" >&2; exit 2; }
    # These link the archive, so it is made first.
    case $part in rust_tests | compare_tests | compare | fault) asked="archive $asked" ;; esac
done

cd "$(dirname "$0")" || exit 2
out=$PWD/target/outside
mkdir -p "$out" || exit 2
archive=$out/libboundary.a
export NVS_PAGE_LIB="$archive" CARGO_NET_OFFLINE=true

for part in $parts; do
    case " ${asked:-$parts} " in *" $part "*) run "$part" ;; esac
done
echo "$passed ok, $failed failed, $skipped not run"
[ "$failed" -eq 0 ]
