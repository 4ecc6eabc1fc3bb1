#!/bin/sh
# Runs the program on each example, and compares what it prints with the file beside it: examples/NAME.toml is run and gives
# examples/NAME.out, examples/NAME.hex is decoded, and the first line of examples/NAME.route, NAME.best, NAME.survey and
# NAME.workers is words over NAME.toml, which give the other lines. The program is that of ASON, or the script `ason`. The last
# line counts.
cd "$(dirname "$0")/.." || exit 1
program=${ASON:-./ason}
passed=0
failed=0

# Runs the program on words and a file, and compares with what is wanted of this example.
try() {
    # shellcheck disable=SC2086  # the words stand apart by spaces
    got=$("$program" $2 <"$3"; echo "status $?")
    if [ "$got" = "$4" ]; then
        passed=$((passed + 1))
    else
        failed=$((failed + 1))
        printf '%s prints\n%s\nand not %s\n' "$3" "$got" "$1"
    fi
}

for file in examples/*.toml; do
    try "${file%.*}.out" run "$file" "$(cat "${file%.*}.out" && echo 'status 0')"
done
for file in examples/*.hex; do
    try "${file%.*}.out" decode "$file" "$(cat "${file%.*}.out" && echo 'status 0')"
done
for file in examples/*.route examples/*.best examples/*.survey examples/*.workers; do
    try "$file" "$(head -n 1 "$file")" "${file%.*}.toml" "$(tail -n +2 "$file" && echo 'status 0')"
done
echo "examples: $passed passed, $failed failed"
[ "$failed" = 0 ]
