#!/usr/bin/env bash
# one-edit.sh CRATE [LABEL..]: tries the must-fail edits of one crate, or those named, and prints the first error of
# each whole, where `rt must-fail` prints its beginning. It works from any folder. The crates below are proved first
# where they are not.
set -euo pipefail
top=$(cd "$(dirname "$0")/../../.." && pwd -P)

usage() {
  echo "usage: one-edit.sh CRATE [LABEL..]" >&2
  exit 2
}
[ $# -ge 1 ] || usage
crate=$1
shift
edits=$top/crates/$crate/must-fail
[ -d "$top/crates/$crate" ] || { echo "one-edit.sh: there is no crates/$crate" >&2; usage; }
[ -d "$edits" ] || { echo "one-edit.sh: $crate has no must-fail edits" >&2; exit 2; }
if [ $# -eq 0 ]; then
  for edit in "$edits"/*.edit; do set -- "$@" "$(basename "$edit" .edit)"; done
fi
for label; do
  [ -f "$edits/$label.edit" ] && continue
  echo "one-edit.sh: $crate has no edit $label; it has:" $(basename -s .edit "$edits"/*.edit) >&2
  exit 2
done

# A copy of the crates for each edit, with what was proved of them.
work=$(mktemp -d)
trap 'rm -rf "$work"' EXIT
(cd "$top/crates/$crate" && rt check) >"$work/log" 2>&1 || { cat "$work/log"; exit 1; }
status=0
for label; do
  python3 "$top/docs/src/checks/first_error.py" "$crate" "$label" || status=1
done
exit "$status"
