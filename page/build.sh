#!/bin/sh
# build.sh [proved | cargo]: makes page/out/index.html, the page, its script and the module in one file. The module is the library for C, built
# for WebAssembly: by the kit, which proves its crate, and those below it unless the word `proved` says that they are; or where there is no kit,
# or with the word `cargo`, by cargo and clang (module.sh).
usage() {
    sed -n '/^#!/d; /^#/!q; s/^# *//p' "$0"
    exit "$1"
}
case $#:${1:-} in
0: | 1:proved | 1:cargo) ;;
*:--help) usage 0 ;;
*) usage 2 >&2 ;;
esac
set -eu
cd "$(dirname "$0")"
mkdir -p out
if [ "${1:-}" = cargo ] || ! command -v rt > /dev/null; then
    sh module.sh out/module.wasm
else
    [ "${1:-}" = proved ] || (cd ../crates/ether_c && rt lib)
    python3 ../c/library.py wasm64
    cp ../crates/ether_c/out/ether_c.wasm out/module.wasm
fi
python3 - <<'END'
import base64
import re

def part(match):
    if match[1] == "module":
        with open("out/module.wasm", "rb") as file:
            return f'const MODULE = "{base64.b64encode(file.read()).decode()}";'
    with open(match[1], encoding="utf-8") as file:
        return file.read().rstrip("\n")

with open("page.html", encoding="utf-8") as file:
    page = re.sub(r"^@([\w.]+)@$", part, file.read(), flags=re.M)
with open("out/index.html", "w", encoding="utf-8") as file:
    file.write(page)
END
echo "page/out/index.html"
