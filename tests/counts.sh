# What scripts of tests/ share: the top of the clone, a folder that is removed at the end, counts, and other users. Each
# script prints a line for each that is not as it should be, and then how many were. The status is 1 where one was not.
set -u
top=$(cd "$(dirname "$(readlink -f "${BASH_SOURCE[0]}")")/.." && pwd)
folder=$(mktemp -d) || exit 2
trap 'rm -rf "$folder"' EXIT
passed=0 failed=0
as_other=()
[ "$(id -u)" != 0 ] || as_other=(setpriv --reuid 65534 --regid 65534 --clear-groups)

# counted STATUS NAME: counts whether the status is 0.
counted() {
  [ "$1" = 0 ] && passed=$((passed + 1)) && return
  echo "not as it should be: $2"
  failed=$((failed + 1))
}

# is NAME COMMAND..: counts whether a command, as a test, is right.
is() {
  "${@:2}"
  counted $? "$1"
}

# passes_over TOOL WHAT: whether a tool is missing; then a line says what is passed over.
passes_over() {
  ! command -v "$1" >"$folder/none" && echo "no $1: $2 passed over"
}

# finish WHAT: ends with how many were as they should be.
finish() {
  echo "$1 as they should be, $failed not"
  exit $((failed > 0))
}
