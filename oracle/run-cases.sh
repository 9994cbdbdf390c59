#!/bin/sh
# Runs every script in cases/ on the oracle (build.sh builds it) and compares with what is stored beside it; with --write, stores it.
# Exit status: 0 all are the same; 1 some differ; 2 the oracle is not built.
set -eu
cd "$(dirname "$0")"
oracle=target/release/oracle
[ -x "$oracle" ] || { echo 'oracle: not built yet: run oracle/build.sh, with SIM_SRC set as it says' >&2; exit 2; }
bad=0
for script in cases/*.in; do
    out=${script%.in}.out
    if [ "${1:-}" = --write ]; then
        timeout 20 "$oracle" < "$script" > "$out"
    elif ! timeout 20 "$oracle" < "$script" | cmp -s - "$out"; then
        echo "differs from what is stored: $script"
        bad=1
    fi
done
[ $bad -ne 0 ] || echo "$(ls cases/*.in | wc -l) scripts, each as stored"
exit $bad
