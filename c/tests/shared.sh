# The shared library exports what the header declares and nothing else, under its name, and the libraries need what docs/C.md says; and
# the header is refused where its structs are others: shared.sh CC LIBRARY SHARED FOLDER [proved | cargo | built]
usage() {
    sed -n '/^#!/d; /^#/!q; s/^# *//p' "$0"
    exit "$1"
}
case $#:${1:-} in
[45]:[!-]*) ;;
*:--help) usage 0 ;;
*) usage 2 >&2 ;;
esac
cc=$1 library=$2 shared=$3 work=$4 with=${5:-}
passed=0 failed=0
check() {
    if [ "$2" = "$3" ]; then
        passed=$((passed + 1))
    else
        failed=$((failed + 1))
        printf '%s:\n%s\nand not:\n%s\n' "$1" "$2" "$3"
    fi
}
declared=$(sed -nE 's/^(uint32_t|size_t) (etherpeel_[a-z0-9_]+)\(.*/\2/p' etherpeel.h | sort)
nm=$("$cc" -print-prog-name=nm)
readelf=$("$cc" -print-prog-name=readelf)
if command -v "$nm" > "$work/shared.log" && command -v "$readelf" > "$work/shared.log"; then
    exported=$("$nm" -D --defined-only "$shared" | awk '$2 != "A" { sub(/@.*/, "", $3); print $3 }' | sort)
    check "exported names" "$exported" "$declared"
    check "soname" "$("$readelf" -d "$shared" | sed -n 's/.*SONAME.*\[\(.*\)\]/\1/p')" libetherpeel.so.3
    needed=$("$nm" -D -u "$shared" | awk '$1 == "U" { sub(/@.*/, "", $2); printf "%s ", $2 }')
    if [ "$with" = built ]; then
        # each word is one line
        check "other names that the shared one needs" "$(printf '%s\n' $needed | grep -vxE 'abort|bcmp|memcpy|memset')" ""
    elif [ "$with" = cargo ]; then
        check "names that the shared one needs" "$needed" 'abort bcmp memcpy memset '
        if command -v objdump > "$work/shared.log"; then
            later=$(objdump -d --no-show-raw-insn "$shared" | awk '{ print $2 }' |
                grep -E '^(popcnt|lzcnt|tzcnt|crc32|pshufb|palignr|ptest|pmulld|pblend|pextr[bdq]|pinsr[bdq]|pcmp.str.|round[sp][sd]|v[a-z])' | sort -u)
            check "instructions beyond x86-64" "$later" ""
        fi
    else
        check "names that the shared one needs" "$needed" 'memcpy memmove memset '
        check "names that the static one needs" "$("$nm" -u "$library" | awk '$1 == "U" { printf "%s ", $2 }')" '__udivti3 memcpy memmove memset '
    fi
else
    echo "left out: the names that the shared library exports, since nm and readelf were not found"
fi
wanted='needs bytes of 8 bits, and size_t and pointers of 64 bits'
for with in "-U__CHAR_BIT__ -D__CHAR_BIT__=16" "-U__SIZE_MAX__ -D__SIZE_MAX__=0xFFFFFFFFU" "-U__UINTPTR_MAX__ -D__UINTPTR_MAX__=0xFFFFFFFFU"; do
    # each word is one argument
    refusal=$("$cc" -ffreestanding $with -x c -fsyntax-only etherpeel.h 2>&1 | grep -om 1 "$wanted")
    check "with $with" "$refusal" "$wanted"
done
# clang knows other processors
for target in riscv64 powerpc64le; do
    if command -v clang > "$work/shared.log"; then
        check "etherpeel.h for $target" "$(clang --target=$target-linux-gnu -ffreestanding -x c -fsyntax-only etherpeel.h 2>&1)" ""
    fi
done
echo "$passed passed, $failed failed"
