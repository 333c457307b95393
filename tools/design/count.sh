#!/usr/bin/env bash
# count.sh [COMMIT]: the places of each point of docs/DESIGN-PASS.md in crates/*/src, by its command; `-l` lists them.
set -euo pipefail
cd "$(dirname "$0")/../.."
list=no
[ "${1:-}" = -l ] && { list=yes; shift; }
at=${1:-HEAD}
row() {
    local name=$1 found
    shift
    found=$(git grep -nE "$@" "$at" -- 'crates/*/src/*.rt' || true)
    printf '%4d  %s\n' "$(printf '%s' "$found" | grep -c . || true)" "$name"
    if [ $list = yes ] && [ -n "$found" ]; then printf '%s\n' "$found" | sed 's/^[^:]*:/      /'; fi
}
echo '1 Option, Result, numbers'
row 'variants of a refusal, a failure or nothing in an own enum' '^    (Refused\(u8\)|Bad\(Fault, usize\)|Failed|Absent|Nowhere|Nothing|None|Fine),$'
row 'functions that answer a refusal or a kind by a u8 or an isize' -e '^ *(pub )?fn .*-> (u8|isize)( \{)?$' -e '^\) -> (u8|isize)$'
row 'refusals handed on by a test for 0' 'if [fg] != 0 \{'
row 'searches that answer a length where nothing is found' -e '^    (n|met|probe\.n|ids\.len\(\)|numbers\.len\(\)|indexes\.len\(\))$' -e '^ *\.unwrap_or\((n|met|[a-z]+\.len\(\))\)$'
row 'parameters and fields that are a kind by number' -e '\b(answer|relation|number|k|f|fault|came): u8\b' -e '(Place|Pair|Refused|RefusedAt)\([a-z, ]*\bu8\b'
echo '2 twins'
row 'functions of one body in two sizes, types or kinds (by name)' -e 'fn (copy_classes|copy_numbers|cut_small|cut_large|find_small|find_large|make_small|make_large|far_few|far_many|leave_chord|leave_float_chord|leave|leave_float|leave_point|leave_arc|quadrant|quadrant_by|lesser|greater|at|raw|write_corners|write_normals|first_zero|first_unmet|put_turned|put_sure|put_ring)\b'
row 'functions that are one call of their namesake' 'pub extern "C" fn .*'
echo '3 loops'
row 'while and loop' '^ *(while|loop) '
row 'for over a range of indexes' 'for [a-z_]+ in [^.]*\.\.'
echo '4 by hand'
row 'equality, predicates on one variant' -e 'fn (equals|is_[a-z_]+)\(([a-z]+: (State|Location|Side|Contact|Mode|Insides|Point|Placed|Place|Found|Report|Option<[^)]*>)|self, o: Vec3)\) -> bool'
row 'conversions between a kind and its number' -e 'fn (state_of|state_code|mode_of|is_long|fault_number|rank|class_of|class_by|collinear|yes|side_no|present|placed|answered|related|sided|held|number|tell[a-z_]*|modes_fault|large_fault|ring_only)\b'
row 'digits and words put by hand' -e 'fn put_(digit|number|bits|byte)\b|fn hex_byte'
echo '5 facts and parameters together'
row 'parameters positions, normals' -e 'positions: &(mut )?\[f64\]'
row 'clauses with 3 * n or 3 * h.count at most a length' -e 'requires.*3 \* [a-z.]+ ≤ length'
echo '6 buffers, parallel arrays'
row 'arrays with a length beside them' -e 'let mut [a-z]+ = \[0[a-z0-9.]*; [0-9]+\];|\[Area; 16\]'
echo '7 switches'
row 'enums that say which step to run' -e 'pub enum (Question|Comparison)|fn (vector|number|case)\(op: u32'
row 'chains of ifs on a number' -e 'if (export|kind|op|relation|answer) == [0-9]+ \{'
echo '8 proofs'
printf '%4d  walks (proofs/F/Proof.antt)\n' "$(git ls-tree -r --name-only "$at" -- crates | grep -c '/Proof\.antt$' || true)"
printf '%4d  lines of proofs/\n' "$(git grep -c '' "$at" -- 'crates/*/proofs/*.antt' | awk -F: '{s += $NF} END {print s + 0}')"
