#!/usr/bin/env bash
# Builds the archive for C, links tests/driver.c with it, and runs that on the vectors, on the rows of Load, on Check's limits, on the
# rows of Run, Confirm and Lookup and on those of Passify. Three cases of its own are that the driver fails wrong answers, that C++ takes
# the header, and that the archive asks nothing of a C library but memcpy and memset.
# The archive is for x86-64: on another processor the driver is compiled across and run by an emulator. Either way it has a stack of 1 MiB
# and no more, half of what the header asks for.
# The last line is 'N passed, M failed'.
set -eu
cd "$(dirname "$0")/.."

work=target/library
compiler=(gcc)
symbols=(nm)
limited=(bash -c 'ulimit -s 1024 && exec "$@"' limited)
if [ "$(uname -m)" != x86_64 ]; then
    compiler=(x86_64-linux-gnu-gcc -static)
    symbols=(x86_64-linux-gnu-nm)
    limited=(qemu-x86_64 -s 1048576)
fi

(cd crates/capi && rt lib)
mkdir -p "$work"
"${compiler[@]}" -std=c99 -O2 -Wall -Wextra -Werror -Iinclude tests/driver.c crates/capi/out/libcapi.a -o "$work/driver"
rows=()
for call in load check run passify; do
    tests/${call}_rows.py >"$work/${call}_rows.txt"
    rows+=("$work/${call}_rows.txt")
done

# Fewer cases of a call than these would mean that some were lost.
at_least() {
    local cases
    cases=$(grep -c "^$2 " "$3") || true
    if [ "$cases" -lt "$1" ]; then
        echo "cases were lost: $3 has $cases of $2"
        exit 1
    fi
}
at_least 553 load tests/vectors/document-01.txt
at_least 567 check tests/vectors/document-01.txt
at_least 567 lookup tests/vectors/document-01.txt
at_least 670 run tests/vectors/document-01.txt
at_least 670 confirm tests/vectors/document-01.txt
at_least 570 passify tests/vectors/document-01.txt
at_least 961 load "$work/load_rows.txt"
at_least 1470 check "$work/check_rows.txt"
at_least 90 lookup "$work/run_rows.txt"
at_least 569 run "$work/run_rows.txt"
at_least 315 confirm "$work/run_rows.txt"
at_least 784 passify "$work/passify_rows.txt"

# Wrong answers for no words at all, for a skip, and for a file of a rule and a root: of the packet 5, of that file and of the skip's form,
# only an area or only one number is wrong.
skip='1 1 0 0 0 8 32 0 0 0'
file="524c$(printf '%096d' 7)525400000009"
wrong_answers() {
    printf '%s\n' 'check ; ; ; ok' "lookup ; $skip ; ; 5 ; 0 ; part pipeline 0" "confirm ; $skip ; ; 5 ; ; yes" \
        "run ; $skip ; ; 5 ; ; 1 ; passed 0 0 : 6" "run ; $skip ; ; 5 ; ; 2 ; passed 0 0 : 5 5" "run ; $skip ; ; 5 ; ; 1 ; passed 0 1 : 5" \
        "run ; $skip ; ; 5 ; ; 0 ; refused 12 0" \
        'load ; ; 0 ; 0 ; refused 1 1' "load ; $file ; 4 ; 12 ; refused 12 4" "load ; $file ; 5 ; 11 ; refused 12 5" \
        "load ; $file ; 5 ; 12 ; ok 5 12 : 0 0 0 0 8 : 0 0 0 0 0 0 0 0 0 0 0 7" \
        "load ; $file ; 5 ; 12 ; ok 5 12 : 0 0 0 0 9 : 0 0 0 0 0 0 0 0 0 0 7 7" \
        "load ; $file ; 6 ; 12 ; ok 6 12 : 0 0 0 0 9 0 : 0 0 0 0 0 0 0 0 0 0 0 7" \
        "load ; $file ; 5 ; 12 ; ok 5 11 : 0 0 0 0 9 : 0 0 0 0 0 0 0 0 0 0 0" \
        "passify ; $skip ; ; 4 ; 1 ; ok 1 1 : 33 0 0 0 : 8" "passify ; $skip ; ; 4 ; 1 ; ok 1 1 : 32 0 0 0 : 9" \
        "passify ; $skip ; ; 8 ; 1 ; ok 2 1 : 32 0 0 0 0 0 0 0 : 8" "passify ; $skip ; ; 4 ; 2 ; ok 1 2 : 32 0 0 0 : 8 0" \
        "passify ; $skip ; ; 3 ; 1 ; refused 12 1" "passify ; $skip ; ; 4 ; 0 ; refused 12 4" "passify ; $skip ; ; 0 ; 0 ; refused 12 0"
}

own=0
wrong_answers | "${limited[@]}" "$work/driver" >"$work/wrong" || true
if [ "$(tail -n 1 "$work/wrong")" = "0 passed, $(wrong_answers | wc -l) failed" ] && ! grep 'no case' "$work/wrong"; then
    own=$((own + 1))
else
    echo "the driver passes a wrong answer: $(tail -n 1 "$work/wrong")"
fi
if g++ -Wall -Wextra -Werror -fsyntax-only -x c++ include/mpendozilu.h; then own=$((own + 1)); fi
asked=$("${symbols[@]}" -u crates/capi/out/libcapi.a | awk '$1 == "U" { print $2 }' | sort -u | paste -sd ' ')
if [ "$asked" = 'memcpy memset' ]; then
    own=$((own + 1))
else
    echo "the archive asks for other names than memcpy and memset: $asked"
fi

status=0
"${limited[@]}" "$work/driver" tests/vectors/document-01.txt "${rows[@]}" >"$work/log" || status=1
cat "$work/log"
line=$(tail -n 1 "$work/log")
passed=${line%% passed*}
failed=${line##*, }
failed=$((${failed%% failed} + 3 - own))
if [ "$status" -ne 0 ] && [ "$failed" -eq 0 ]; then failed=1; fi
echo "$((passed + own)) passed, $failed failed"
[ "$status" -eq 0 ] && [ "$failed" -eq 0 ]
