#!/usr/bin/env bash
# Runs the listing program, as it was built, on the record files of tests/listing and on the vectors, and compares what it prints to the byte.
# One case of its own is that tests/listing/make.py writes those files. The program is for x86-64: another processor needs an emulator.
# The last line is 'N passed, M failed'.
set -eu
cd "$(dirname "$0")/.."

work=target/listing
program=(crates/listing/out/listing)
if [ "$(uname -m)" != x86_64 ]; then
    libraries=$(dirname "$(x86_64-linux-gnu-gcc -print-file-name=libc.so.6)")
    program=(qemu-x86_64 "$libraries/ld-linux-x86-64.so.2" --library-path "$libraries" crates/listing/out/listing)
fi

(cd crates/listing && rt run <stdin >/dev/null)
rm -rf "$work"
mkdir -p "$work/made" "$work/vectors"
tests/listing/make.py "$work/made"
python3 - tests/vectors/document-01.txt "$work/vectors" <<'END'
import sys
with open(sys.argv[1]) as vectors:
    cases = [line.split(';') for line in vectors if line.startswith('listing ')]
for number, (_, record_file, printed) in enumerate(cases):
    for part, kind in ((record_file, 'in'), (printed, 'out')):
        with open(f'{sys.argv[2]}/{number}.{kind}', 'wb') as out:
            out.write(bytes.fromhex(part))
END

passed=0
failed=0
judge() { # WHAT STATUS
    if [ "$2" -eq 0 ]; then
        passed=$((passed + 1))
    else
        failed=$((failed + 1))
        echo "failed: $1"
    fi
}

for made in "$work"/made/*; do
    cmp "$made" "tests/listing/${made##*/}" || echo "not as make.py writes it: ${made##*/}"
done >"$work/differ"
judge 'tests/listing/make.py' "$(wc -l <"$work/differ")"

for given in tests/listing/*.in "$work"/vectors/*.in; do
    status=0
    "${program[@]}" <"$given" >"$work/printed" && cmp "$work/printed" "${given%.in}.out" || status=1
    judge "$given" "$status"
done

# Fewer cases than these would mean that some were lost: 25 files, 163 vectors, and the one above.
if [ "$((passed + failed))" -lt 189 ]; then
    echo "cases were lost: $((passed + failed)) of 189"
    failed=$((failed + 1))
fi
echo "$passed passed, $failed failed"
[ "$failed" -eq 0 ]
