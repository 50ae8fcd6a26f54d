#!/bin/sh
# archive.sh OUT.a: the C functions of nvs_page.h as a static library for x86-64 Linux.
#
# It is the library of the crate `boundary_c`, which `rt lib` proves and builds in that crate's folder. The compiler builds for x86-64
# alone: on another processor this says so, and makes nothing.
set -eu

fail() {
    echo "archive.sh: $*" >&2
    exit 1
}

[ $# -eq 1 ] || fail "name the archive to make, as in: boundary/archive.sh libboundary.a"
command -v rt >/dev/null || fail "rt is not on the path"
case $1 in /*) out=$1 ;; *) out=$PWD/$1 ;; esac
cd "$(dirname "$0")/../crates/boundary_c"

machine=$(uname -m)
[ "$machine" = x86_64 ] || fail "the kit has no compiler for $machine"
said=$(rt lib 2>&1) ||
    { printf '%s\n' "$said" >&2; fail "rt lib failed in crates/boundary_c"; }
mkdir -p "$(dirname "$out")"
cp out/libboundary_c.a "$out"
