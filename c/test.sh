#!/bin/sh
# Builds the static library, and runs the tests of its callers: in C99 and C++11, with sanitizers if the compiler has
# them, and from Python. Builds the tool, and compares its lines with those that calls from C give. The last line is
# 'N passed, M failed'. CC, CXX and PYTHON name other programs; what needs one that is not there is left out, and a line says so. Without
# a C compiler the clang of the kit links the shared library for Python. With the word `proved` both stand on what `rt ci` has just proved
# and left in the crates' out/, so that nothing below the library is proved once more. With the word `cargo`, or where there is no `rt`,
# the library is the one that cargo builds. With the words `built LIBRARY` a static library of cargo for another processor is tested, from C
# alone: CC, and CXX if it is named, compile for that processor, and the words of RUNNER run what they compile.
usage() {
    sed -n '/^#!/d; /^#/!q; s/^# *//p' "$0"
    exit "$1"
}
case $#:${1:-} in
0: | 1:proved | 1:cargo | 2:built) ;;
*:--help) usage 0 ;;
*) usage 2 >&2 ;;
esac
set -eu
cd "$(dirname "$0")"
export PYTHONDONTWRITEBYTECODE=1
with=${1:-}
export RUNNER="${RUNNER:-}"
if [ "$with" != built ] && ! command -v rt > /dev/null; then with=cargo; fi
if [ "$with" = built ]; then
    library=$2
elif [ "$with" = cargo ]; then
    library=../rust/etherpeel_c/target/release/libetherpeel_c.a
    if ! python3 ../rust/building.py; then
        echo "left out: the library that cargo builds"
        echo "0 passed, 0 failed"
        exit
    fi
    echo "the library that cargo builds"
else
    library=../crates/ether_c/out/libether_c.a
fi
work=$(mktemp -d)
trap 'rm -rf "$work"' EXIT

# the first of the compilers that are there which compiles and runs a program with headers of the C library
compiler_of() {
    language=$1
    shift
    printf '#include <stdint.h>\n#include <stdio.h>\nint main(void) { return 0; }\n' > "$work/probe.c"
    for compiler in "$@"; do
        if [ -n "$compiler" ] && "$compiler" -x "$language" "$work/probe.c" -o "$work/probe" > /dev/null 2>&1 && $RUNNER "$work/probe"; then
            echo "$compiler"
            return
        fi
    done
}

# the clang of the kit is in its toolchain, next to the page that `rt doc` names; it has no headers of its own, but links
kit_clang=
kit_linker=cc
if [ "$with" != cargo ] && [ "$with" != built ]; then
    toolchain=$(dirname "$(rt doc)")/toolchain
    kit_clang=$work/kit-clang
    kit_linker=$work/kit-linker
    printf '#!/bin/sh\nexec %s -isystem %s "$@"\n' "$toolchain/bin/clang" "$PWD/tests/freestanding" > "$kit_clang"
    printf '#!/bin/sh\nexec %s -nostdlib -fuse-ld=lld "$@" %s\n' "$toolchain/bin/clang" "$toolchain/lib/libgcc.a" > "$kit_linker"
    chmod +x "$kit_clang" "$kit_linker"
fi
if [ "$with" = built ]; then
    cc=$(compiler_of c "$CC")
    cxx=$(compiler_of c++ "${CXX:-}")
else
    cc=$(compiler_of c "${CC:-}" gcc cc clang "$kit_clang")
    cxx=$(compiler_of c++ "${CXX:-}" g++ c++ clang++ "$cc")
fi
python=${PYTHON:-python3}
if [ -z "$cc" ]; then
    echo "left out: the tests in C and C++, the examples, docs/C.md and the lines of the tool, since no C compiler was found that has the" \
        "headers of the C library"
fi
if [ "$with" = built ]; then
    echo "left out: the sanitizers, the tests in Python, the lines of the tool and the commands of docs/C.md, since the library is for another processor"
    python=
elif ! "$python" -c 'import ctypes' > /dev/null 2>&1; then
    echo "left out: the tests in Python and the lines of the tool, since no Python with ctypes was found"
    python=
fi
if [ -z "$cc$python" ]; then
    echo "0 passed, 0 failed"
    exit
fi

if [ "$with" = built ]; then
    build=true
elif [ "$with" = cargo ]; then
    build="sh ../rust/build.sh etherpeel_c"
elif [ "$with" = proved ]; then
    build="${python:-python3} library.py"
else
    build="cd ../crates/ether_c && rt lib"
    (cd ../crates/ether_tool && rt run -- eth < /dev/null) > "$work/tool.log" 2>&1 || { cat "$work/tool.log"; exit 1; }
fi
if ! (eval "$build") > "$work/lib.log" 2>&1; then
    cat "$work/lib.log"
    exit 1
fi

warnings="-Wall -Wextra -Wpedantic -Werror"
# runs a program or a script, and keeps its counts; one that ends before it prints them has failed
run() {
    name=$1
    shift
    "$@" > "$work/out" 2>&1 || true
    grep -v '^[0-9]* passed, [0-9]* failed$' "$work/out" || true
    counts=$(grep '^[0-9]* passed, [0-9]* failed$' "$work/out" | tail -n 1)
    counts=${counts:-0 passed, 1 failed}
    echo "$name: $counts"
    echo "$counts" >> "$work/counts"
}

build_and_run() {
    name=$1
    out=$work/$2
    shift 2
    if "$@" tests/tests.c -x none -o "$out" "$library" > "$work/build.log" 2>&1; then
        run "$name" $RUNNER "$out"
    else
        cat "$work/build.log"
        run "$name (not built)" false
    fi
}

# the first Python that has a module
python_with() {
    module=$1
    shift
    for it in "$@"; do
        if "$it" -c "import $module" > "$work/probe.log" 2>&1; then
            echo "$it"
            return
        fi
    done
}

# whether a compiler links and runs a program with these flags
has() {
    "$@" "$work/probe.c" -x none -o "$work/probe" > "$work/probe.log" 2>&1 && "$work/probe" > "$work/probe.log" 2>&1
}

callers_in_c() {
    build_and_run "C99, $cc" c99 "$cc" -std=c99 -O2 $warnings -x c
    if [ -n "$cxx" ]; then
        build_and_run "C++11, $cxx" cxx11 "$cxx" -std=c++11 -O2 $warnings -x c++
    else
        echo "left out: the tests in C++, since no C++ compiler was found"
    fi
    if [ "$with" = built ]; then set --; else set -- "$cc" $(compiler_of c clang); fi
    for compiler in "$@"; do
        for sanitizer in address undefined; do
            flags="-fsanitize=$sanitizer -fno-sanitize-recover=all -g"
            if has "$compiler" $flags -x c; then
                build_and_run "C99, $compiler, $sanitizer sanitizer" "$sanitizer" "$compiler" -std=c99 -O1 $flags $warnings -x c
            else
                echo "C99, $compiler: no $sanitizer sanitizer"
            fi
        done
    done
    run "The header with others" sh tests/beside.sh "$cc" "$cxx" "$library" "$work"
    run "The shared library" sh tests/shared.sh "$cc" "$library" "$work/libetherpeel.so.3" "$work" $with
}

callers_in_python() {
    mkdir "$work/package"
    cp -r python/etherpeel "$work/package"
    cp "$work/libetherpeel.so.3" "$work/package/etherpeel"
    run "Python, $python" "$python" tests/tests.py "$work/package"
    if [ -n "$cc" ]; then run "The structs in Python" "$python" tests/layout.py "$cc" "$work/package"; fi
    scapy=$(python_with scapy "$python" /usr/bin/python3)
    if [ -n "$scapy" ]; then
        run "Python and scapy, $scapy" "$scapy" tests/scapy_fields.py "$work/package"
    else
        echo "left out: the package compared with scapy, since no Python with scapy was found"
    fi
    tables=$(python_with pandas "$python" /usr/bin/python3)
    run "Tables, ${tables:=$python}" "$tables" tests/tables.py "$work/package"
    mypy=$(python_with mypy "$python" /usr/bin/python3)
    if [ -n "$mypy" ]; then
        run "The types of the package, $mypy" "$mypy" tests/typed.py "$work/package"
    else
        echo "left out: the types of the package, since no Python with mypy was found"
    fi
    # each word is one argument, or none
    run "Python and other processes" "$python" tests/pools.py "$work/package" $dask
}

sh link.sh "${cc:-$kit_linker}" "$library" "$work/libetherpeel.so.3"
dask=
if [ -n "$python" ]; then dask=$(python_with dask.distributed "$python" /usr/bin/python3); fi
if [ -n "$cc" ]; then callers_in_c; fi
if [ -n "$python" ]; then callers_in_python; fi
if [ "$with" = built ] && [ -n "$cc" ]; then
    run "The examples" sh tests/examples.sh "$cc" "$library" "" "$work"
    run "docs/C.md" "${PYTHON:-python3}" tests/c_document.py "$cc" "$library" "$work/page"
    run "The copies of captures" "${PYTHON:-python3}" tests/copies.py "$cc" "$library" "$work/copies"
fi
if [ -n "$cc" ] && [ -n "$python" ]; then
    run "The examples" sh tests/examples.sh "$cc" "$library" "$python" "$work"
    run "The VLANs of captures" "$python" tests/vlan_examples.py "$work/vlans" "$work/package" $dask
    run "The recipe for dask" "$python" tests/recipes.py "$cc" "$PWD/$library" "$work/recipes"
    run "docs/C.md" "$python" tests/c_document.py "$cc" "$PWD/$library" "$work/page"
    run "The copies of captures" "$python" tests/copies.py "$cc" "$PWD/$library" "$work/copies"
    if [ -x ../crates/ether_tool/out/ether_tool ]; then
        run "The lines of the tool" sh tests/lines.sh "$cc" "$library" "$python" "$work"
    else
        echo "left out: the lines of the tool, since crates/ether_tool was not built"
    fi
fi

awk '{ passed += $1; failed += $3 } END { printf "%d passed, %d failed\n", passed, failed; exit failed > 0 }' "$work/counts"
