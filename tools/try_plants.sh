#!/usr/bin/env bash
# Tries edits that turn the meaning of a crate's public functions: the prover must refuse each.
#
#     tools/try_plants.sh CRATE..
#
# The edits are tools/plants/CRATE/*.edit, in the form of must-fail/. They are tried on a copy in a temporary folder,
# so no file here changes, and none of them is part of the gate. A line comes for each edit:
#
#     refused     the prover refuses it
#     PROVED      the crate is still proved with it: a contract says too little
#     BAD EDIT    it can't be applied, compiled or read, so it shows nothing
#     NOT TRIED   the check was cut off, or the crate itself isn't proved
#
# The status is 0 where every edit is refused, 1 where one isn't, and 2 where a crate has none.
# What the prover said stays in the file that the last line names where the status is 1.
set -u
cd "$(dirname "$0")/.." || exit 2
if [ $# -eq 0 ]; then
    echo "usage: tools/try_plants.sh CRATE.." >&2
    exit 2
fi
for crate in "$@"; do
    if ! ls "tools/plants/$crate"/*.edit >/dev/null 2>&1; then
        echo "tools/plants/$crate has no edit" >&2
        exit 2
    fi
done

copy=$(mktemp -d)
trap 'rm -rf "$copy"' EXIT
tar -cf - --exclude=out --exclude=must-fail crates crates.txt HANDLES | tar -xf - -C "$copy"
for crate in "$@"; do
    mkdir "$copy/crates/$crate/must-fail"
    cp "tools/plants/$crate"/*.edit "$copy/crates/$crate/must-fail/"
done

said=$(mktemp)
(cd "$copy" && rt must-fail "$@") >"$said" 2>&1
failed=0
for crate in "$@"; do
    for edit in "tools/plants/$crate"/*.edit; do
        line=$(grep -F "must-fail $crate/$(basename "$edit"): " "$said" | tail -n 1)
        case "$line" in
            *".edit: refused"*) answer="refused" ;;
            *".edit: NOT REFUSED"*) answer="PROVED" ;;
            *".edit: BAD EDIT"*) answer="BAD EDIT" ;;
            *) answer="NOT TRIED" ;;
        esac
        [ "$answer" = "refused" ] || failed=1
        printf '%-10s %s/%s\n' "$answer" "$crate" "$(basename "$edit" .edit)"
    done
done
if [ $failed -eq 0 ]; then
    rm "$said"
else
    echo "what the prover said: $said"
fi
exit $failed
