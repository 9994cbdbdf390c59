#!/bin/sh
# Builds the oracle: build.sh [FOLDER] [options for cargo]. The FOLDER is the original Rust's, as prepare.sh has it.
# SIM_SRC, SIM_CRATES  as prepare.sh has them; one of FOLDER and SIM_SRC must be given
# SIM_PROFILE          release if left out; dev also tells of overflows, as a panic
set -eu
here=$(cd "$(dirname "$0")" && pwd)
if [ $# -gt 0 ] && [ "${1#-}" = "$1" ]; then
    "$here/prepare.sh" "$1"
    shift
else
    "$here/prepare.sh"
fi
cd "$here"
exec cargo build -j1 --config build/crates.toml --profile "${SIM_PROFILE:-release}" "$@"
