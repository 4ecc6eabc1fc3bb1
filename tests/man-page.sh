#!/bin/sh
# Lints the man page by mandoc or by man, where one of them is there. The status is 1 where it has a fault.
cd "$(dirname "$0")/.." || exit 1
if command -v mandoc >/dev/null 2>&1; then
    faults=$(mandoc -T lint -W warning docs/ason.1 2>&1)
elif man --version >/dev/null 2>&1; then
    faults=$(LC_ALL=C.UTF-8 man --warnings --local-file -Tutf8 -Z docs/ason.1 2>&1 >/dev/null)
else
    echo "man-page: neither mandoc nor man is there, so the page isn't linted"
    exit 0
fi
if [ -n "$faults" ]; then
    printf '%s\n' "$faults"
    exit 1
fi
echo "man-page: no fault"
