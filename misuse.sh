#!/bin/sh
# Shows that misuses are refused when a program is built. It stands at the top of the repository and works on copies of it.
# Each misuse is a function that is added to a crate: with the line that ends in '// misuse' the check of the crate must
# fail, with the one error that is named and no other; without that line the crate must pass.
set -eu

top=$(cd "$(dirname "$0")" && pwd)
work=$(mktemp -d)
trap 'rm -rf "$work"' EXIT
trap 'exit 1' HUP INT TERM

copy_to() {
    mkdir "$1"
    (cd "$top" && tar --exclude=out -cf - crates crates.txt) | (cd "$1" && tar -xf -)
}

fail() {
    echo "misuse.sh: $1" >&2
    exit 1
}

# fail_by_log MESSAGE: with the last lines of the log
fail_by_log() {
    tail -n 20 "$work/log" >&2
    fail "$1"
}

copy_to "$work/allowed"
crates=

# misuse LABEL CRATE ERROR, with the function on the standard input; the functions of one crate have different names
misuse() {
    cat > "$work/function"
    [ "$(grep -c '// misuse$' "$work/function")" = 1 ] || fail "$1: one line is to end in '// misuse'"
    grep -v '// misuse$' "$work/function" >> "$work/allowed/crates/$2/src/lib.rt"
    case "$crates " in
        *" $2 "*) ;;
        *) crates="$crates $2" ;;
    esac

    rm -rf "$work/refused"
    copy_to "$work/refused"
    cat "$work/function" >> "$work/refused/crates/$2/src/lib.rt"
    if (cd "$work/refused/crates/$2" && rt check) > "$work/log" 2>&1; then
        fail "$1: NOT REFUSED"
    fi
    grep -F "error[$3]" "$work/log" > "$work/wanted" || fail_by_log "$1: refused, but not by $3"
    [ "$(grep -c ': error' "$work/log")" = 1 ] || fail_by_log "$1: refused, but not by $3 alone"
    echo "$1: refused: $(sed 's/^[^ ]* //; s/: note:.*//' "$work/wanted")"
}

# The same functions without their misuse.
without_misuse() {
    for crate in $crates; do
        (cd "$work/allowed/crates/$crate" && rt check) > "$work/log" 2>&1 || fail_by_log "$crate: a function does not pass without its misuse either"
        echo "$crate: without its misuse each function passes"
    done
}

misuse 'a write into the pair table while a trial holds it' trial borrow-e0506 <<'END'

pub fn write_during_a_trial(table: &mut [u32; 2048]) {
    let mut trial = crate::guard::Trial::of(&mut *table);
    table[0] = 1; // misuse
    trial.kept = true;
}
END

misuse 'an entry'\''s run kept across an enter' catalogue borrow-e0502 <<'END'

pub fn keep_a_run<K: crate::kind::Kind, H: hashing::hasher::Hasher>(
    cat: &mut crate::record::Catalogue<H>,
    kind: &K,
    slots: &mut [crate::record::Slot],
    units: &mut [K::Unit],
    run: &[K::Unit],
) -> usize {
    let mut len = 0;
    if let Ok(held) = crate::asking::run_of(cat, slots, units, 0) {
        let _ = crate::calls::enter::<K, H>(cat, kind, slots, units, run); // misuse
        len = held.len();
    }
    len
}
END

without_misuse
