#!/bin/sh
# Plants each misuse of misuse/*.edit in a copy of the repository, and demands that the compiler refuses it with the
# error that it names, and with no error of another kind.
# What is proved already is taken over from the folders out/. RT names the command to check with (default: rt).
set -eu
root=$(cd "$(dirname "$0")/.." && pwd)
rt=${RT:-rt}
work=$(mktemp -d)
trap 'rm -rf "$work"' EXIT
cp -R "$root/crates" "$root/crates.txt" "$work"

check() { (cd "$work/crates/$1" && "$rt" check >"$work/log" 2>&1); }

# The copy is proved as it stands, so that each refusal is the edit's.
for crate in $(sed -n 's/^crate: //p' "$root"/misuse/*.edit | sort -u); do
    check "$crate" || { echo "misuse: $crate is not proved without an edit"; exit 1; }
done

status=0
for edit in "$root"/misuse/*.edit; do
    name=${edit##*/}
    field() { sed -n "s/^$1: //p" "$edit"; }
    crate=$(field crate) want=$(field expect) path=$work/crates/$(field crate)/$(field file)
    kind=${want%%]*}]
    cp "$path" "$work/kept"
    OLD=$(field old) NEW=$(field new) awk '
        { at = index($0, ENVIRON["OLD"]); if (at) { n++; $0 = substr($0, 1, at - 1) ENVIRON["NEW"] substr($0, at + length(ENVIRON["OLD"])) } print }
        END { exit n != 1 }' "$work/kept" >"$path" || { echo "misuse $name: its old text is not there once"; exit 1; }
    if check "$crate"; then
        echo "misuse $name: NOT REFUSED"; status=1
    elif grep -qF "$want" "$work/log" && ! grep -F ': error' "$work/log" | grep -qvF "$kind"; then
        echo "misuse $name: refused, as it must be: $(grep -m 1 -oF "$want" "$work/log")"
    else
        echo "misuse $name: refused, but not with $want"; head -n 5 "$work/log"; status=1
    fi
    cp "$work/kept" "$path"
done
exit $status
