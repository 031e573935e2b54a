#!/bin/sh
# module.sh FILE: builds the library for C by cargo as a module of WebAssembly with 64 bits. rustc has no such target among those that
# distributions build, so what it makes for this processor, as LLVM's text, is compiled by a clang of the same LLVM: on Debian the packages
# rustc-web, clang-19, lld-19 and libclang-rt-19-dev-wasm64. RUSTC names another compiler. The status is 3 if one of them is missing.
usage() {
    sed -n '/^#!/d; /^#/!q; s/^# *//p' "$0"
    exit "$1"
}
case $#:${1:-} in
1:[!-]*) ;;
*:--help) usage 0 ;;
*) usage 2 >&2 ;;
esac
set -eu
module=$1
top=$(cd "$(dirname "$0")/.." && pwd)
work=$(mktemp -d)
trap 'rm -rf "$work"' EXIT

# the first compiler whose LLVM has its clang, its linker and its runtime here
llvm=
for rustc in "${RUSTC:-}" rustc /usr/bin/rustc; do
    if [ -z "$rustc" ] || [ -n "$llvm" ]; then continue; fi
    llvm=$("$rustc" -vV 2> /dev/null | sed -n 's/^LLVM version: \([0-9]*\).*/\1/p')
    runtime=/usr/lib/llvm-$llvm/lib/clang/$llvm/lib/wasi/libclang_rt.builtins-wasm64.a
    if command -v "clang-$llvm" > /dev/null && command -v "wasm-ld-$llvm" > /dev/null && [ -f "$runtime" ]; then RUSTC=$rustc; else llvm=; fi
done
if [ -z "$llvm" ]; then
    echo "without the kit the page needs a rustc, and clang, lld and the runtime for wasm64 of its LLVM:" \
        "on Debian 'apt-get install rustc-web clang-19 lld-19 libclang-rt-19-dev-wasm64'" >&2
    exit 3
fi
export RUSTC

cd "$top/rust/etherpeel_c"
sh ../cargo.sh rustc --release --locked --quiet --target-dir "$work/target" --crate-type staticlib -- --emit=llvm-ir
# the text names the processor in its head and in attributes, and a personality for unwinding, which the library does not do
sed -e 's/^target triple = .*/target triple = "wasm64-unknown-unknown"/' \
    -e 's/^target datalayout = .*/target datalayout = "e-m:e-p:64:64-p10:8:8-p20:8:8-i64:64-i128:128-f128:64-n32:64-S128-ni:1:10:20"/' \
    -e 's/"target-cpu"="[^"]*"//g; s/"target-features"="[^"]*"//g; s/"probe-stack"="[^"]*"//g' \
    -e 's/ personality ptr @rust_eh_personality//' "$work"/target/release/deps/*.ll > "$work/library.ll"
compile() { "clang-$llvm" --target=wasm64-unknown-unknown -O2 -ffreestanding -fno-builtin -mbulk-memory -Wno-override-module -c "$1" -o "$2"; }
compile "$work/library.ll" "$work/library.o"
compile "$top/c/wasm64.c" "$work/wasm64.o"
calls=$(sed -n 's/^define [^@]*@\(etherpeel_[a-z0-9_]*\).*/--export=\1/p' "$work/library.ll")
# each word is one call
"wasm-ld-$llvm" -mwasm64 --no-entry -z stack-size=4194304 $calls --export=__heap_base "$work/library.o" "$work/wasm64.o" "$runtime" -o "$work/module"
cd "$OLDPWD"
mv "$work/module" "$module"
