#!/bin/sh
# Holds the header to the exports; joins the archives that oracle/build.sh made into
# target/libfrequency_sheet.a, and a shared library of it; compiles and runs the
# examples on the sample circuit. Fails where anything disagrees.
set -e
cd "$(dirname "$0")/.."
python3 oracle/header.py
made=target/staticlib
{
    echo "create target/libfrequency_sheet.a"
    for archive in "$made"/lib*.a; do echo "addlib $archive"; done
    echo save
    echo end
} | ar -M
cc -shared -o target/libfrequency_sheet.so -Wl,--whole-archive target/libfrequency_sheet.a -Wl,--no-whole-archive -lm
cc -std=c99 -Wall -Wextra -Werror -Iinclude -o target/muf examples/muf.c target/libfrequency_sheet.a -lm
expected="24.074 MHz"
for got in "$(target/muf < crates/sheet/stdin)" "$(python3 examples/muf.py target/libfrequency_sheet.so < crates/sheet/stdin)"; do
    echo "$got"
    [ "$got" = "$expected" ] || { echo "not $expected"; exit 1; }
done
