#!/usr/bin/env bash
# restore.sh: puts together, in assembled/, the crates that the comparison asks. The text of dbn 0.73.0 is not kept here:
# DBN_SRC names its src/ folder. Each crate is our shims, the given files byte for byte, and one of two made sheets.
#
#   dbn, dbn2              the text unchanged, with the first and the second sheet
#   dbn_size, dbn2_size    without one line of validate.rs: the call of check_size
#   dbn_align, dbn2_align  also with document 01's alignment of a struct: padding and struct entries count as 1, at least 1
set -euo pipefail
cd "$(dirname "$0")"
src=${DBN_SRC:-../../shared/docs/src/src}
[ -f "$src/layout/wire.rs" ] || { echo "restore.sh: no text of the crate at $src (DBN_SRC names its src/ folder)" >&2; exit 1; }
given="layout.rs layout/wire.rs layout/validate.rs layout/upgrade.rs metadata.rs metadata/lengths.rs
 decode/dbn.rs decode/dbn/fsm.rs decode/dbn/aligned_buffer.rs encode/dbn/sync.rs"

# Takes out, or changes, a line that must stand exactly once.
edit() { # FILE LINE SED
    [ "$(grep -cxF "$2" "$1")" = 1 ] || { echo "restore.sh: not once in $1: $2" >&2; exit 1; }
    sed -i "$3" "$1"
}

make() { # NAME SHEET
    mkdir -p "$1/src"
    cp -r shims/. "$1/src/"
    cp "sheets/$2.rs" "$1/src/v4/sheet.rs"
    for file in $given; do
        [ ! -e "shims/$file" ] || { echo "restore.sh: $file is given and a shim" >&2; exit 1; }
        mkdir -p "$(dirname "$1/src/$file")"
        cp "$src/$file" "$1/src/$file"
    done
    # The constants and version_symbol_cstr_len of compat.rs; the rest of it leans on what is not at hand.
    sed -n '5,37p' "$src/compat.rs" >"$1/src/compat_cut.rs"
    printf '[package]\nname = "%s"\nversion = "0.73.0"\nedition = "2021"\n\n' "$(basename "$1")" >"$1/Cargo.toml"
    printf '[dependencies]\ntime = { path = "../../time" }\ndbn_macros = { path = "../../dbn_macros" }\n' >>"$1/Cargo.toml"
}

work=$(mktemp -d)
trap 'rm -rf "$work"' EXIT
for pair in dbn:one dbn2:two; do
    name=${pair%:*} sheet=${pair#*:}
    for change in "" _size _align; do
        make "$work/$name$change" "$sheet"
        [ -n "$change" ] || continue
        line='        check_size(ctx, f, nested)?;'
        edit "$work/$name$change/src/layout/validate.rs" "$line" "/^$line\$/d"
        [ "$change" = _align ] || continue
        line='            .filter_map(|f| fields::scalar_size(f.type_id))'
        edit "$work/$name$change/src/layout.rs" "$line" "s/^$line\$/            .filter(|f| !f.is_padding() \&\& f.type_id != fields::STRUCT_ID)\n&/"
        line='            .unwrap_or(1)'
        edit "$work/$name$change/src/layout.rs" "$line" "s/^$line\$/&\n            .max(1)/"
    done
done
# What is already there and the same stays, so that nothing is compiled again.
if ! diff -rq "$work" assembled >/dev/null 2>&1; then
    rm -rf assembled
    mkdir assembled
    cp -r "$work/." assembled/
    echo "restored the crate's text from $src"
fi
