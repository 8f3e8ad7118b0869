#!/bin/sh
# Proves and builds the programs, and takes the worked examples through them.
set -eu
cd "$(dirname "$0")/.."
for program in gateplan gateplan_calls; do
    cd "crates/$program"
    rt run < stdin > /dev/null
    echo
    echo "A worked example, in hexadecimal:"
    od -An -v -tx1 stdin
    echo
    echo "What $program prints on it:"
    out/"$program" < stdin
    cd ../..
done
