#!/usr/bin/env bash
# Shows that the compiler refuses each misuse of tools/misuse: an edit of a crate's source, tried on a copy. A misuse that
# compiles, or that is refused for another reason than the edit says, fails. An edit says the error by its code, as
# error[mismatched-types]: only the compiler gives those, and a proof that fails has none.
set -euo pipefail
cd "$(dirname "$0")/.."

field() { sed -n "s/^$1: //p" "$2"; }

work=$(mktemp -d)
trap 'rm -rf "$work"' EXIT
for edit in tools/misuse/*.edit; do
    name=$(basename "$edit" .edit)
    crate=$(field crate "$edit")
    old=$(field old "$edit")
    new=$(field new "$edit")
    says=$(field says "$edit")
    rm -rf "$work/repo"
    mkdir "$work/repo"
    tar -c --exclude=out crates crates.txt | tar -x -C "$work/repo"
    source="$work/repo/crates/$crate/$(field file "$edit")"
    text=$(<"$source")
    [[ "$text" == *"$old"* ]] || { echo "misuse $name: its old text does not stand in $crate"; exit 1; }
    printf '%s\n' "${text/"$old"/"$new"}" > "$source"
    if (cd "$work/repo/crates/$crate" && rt check) > "$work/log" 2>&1; then
        echo "misuse $name: it compiles, and must not"
        exit 1
    fi
    grep -qF "$says" "$work/log" || { echo "misuse $name: refused, but not by '$says':"; head -n 5 "$work/log"; exit 1; }
    echo "misuse $name: refused by the compiler, as it must be ($says)"
done
