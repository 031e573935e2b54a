#!/bin/sh
# sh bench/tool/run.sh PROGRAM [ROUNDS]: the tool beside `cat` and a Go program over gopacket that reads the same lines and prints the same
# kind of lines, in turns, over inputs that are made here. The Go program needs the Debian packages golang-go and
# golang-github-google-gopacket-dev; without them it is left out.
usage() {
    sed -n '/^#!/d; /^#/!q; s/^# *//p' "$0"
    exit "$1"
}
case $#:${1:-} in
[12]:[!-]*) ;;
*:--help) usage 0 ;;
*) usage 2 >&2 ;;
esac
set -eu
here=$(cd "$(dirname "$0")" && pwd)
program=$(realpath "${1:?the built program}")
work=$(mktemp -d)
trap 'rm -rf "$work"' EXIT
python3 "$here/inputs.py" "$work/inputs"
peer=
if command -v go > /dev/null 2>&1; then
    (cd "$here/gptool" && GOCACHE="$work/cache" GO111MODULE=off GOPATH=/usr/share/gocode go build -o "$work/gptool" .) && peer="go=$work/gptool"
else
    echo 'left out: the Go program, since go is not installed'
fi
for file in example frames cut len_36 len_256 len_1024 len_4096; do
    echo "-- $file"
    python3 "$here/race.py" "$work/inputs/$file.txt" "${2:-5}" -- "cat=$(command -v cat)" "tool=$program eth" ${peer:+"$peer"}
done
