#!/bin/sh
# Makes build/sim, the published Rust with the stand-ins, and build/crates.toml, which says where cargo takes crates from:
# prepare.sh [FOLDER]
# SIM_SRC     the FOLDER, where it is left out: a checkout of ndebuhr/sim at commit 255a5e4e0d (2025-04-27). It holds sim/src.
# SIM_CRATES  a folder of crates (cargo's directory source); if left out, Debian's packages, which are installed where they are missing
# Exit status: 2 where the folder is not named, or is not such a checkout.
set -eu
here=$(cd "$(dirname "$0")" && pwd)
refuse() {
    echo "oracle: $1" >&2
    echo 'oracle: set SIM_SRC to a checkout of ndebuhr/sim at commit 255a5e4e0d (2025-04-27): the folder that holds sim/src' >&2
    exit 2
}
src=${1:-${SIM_SRC:-}}
[ -n "$src" ] || refuse 'the original Rust is needed, and SIM_SRC is not set'
[ -d "$src/sim/src" ] || refuse "there is no folder sim/src in $src"
src=$(cd "$src" && pwd)
cd "$here"
wrong=$(cd "$src" && sha256sum -c "$here/published.sha256" 2> /dev/null | sed -n 's/: FAILED.*//p' | head -n 1)
[ -z "$wrong" ] || refuse "$src/$wrong is missing, or is not the file of that commit"

# The published files, copied as they are, beside the stand-ins. published.sha256 lists them; other files of a checkout are not
# used: those of which there is a stand-in, and tests.
mkdir -p build
rm -rf build/new
cp -R stand-ins/sim build/new
chmod -R u+w build/new
sed 's/^[^ ]* *//' published.sha256 | while read -r file; do
    copy=build/new/${file#sim/}
    mkdir -p "$(dirname "$copy")"
    cp "$src/$file" "$copy"
    chmod u+w "$copy"
    cmp "$src/$file" "$copy"
done

# Files that are the same keep their age, so that cargo does not compile them again.
if diff -r build/new build/sim > /dev/null 2>&1; then
    rm -r build/new
else
    rm -rf build/sim
    mv build/new build/sim
fi

if [ -z "${SIM_CRATES:-}" ]; then
    packages='librust-serde-dev librust-serde-derive-dev librust-serde-json-dev librust-serde-yaml-dev
        librust-rand-core-dev librust-rand-pcg-dev librust-rand-distr-dev librust-thiserror-dev'
    dpkg -s $packages > /dev/null 2>&1 || { apt-get update -q && apt-get install -qy $packages; } > /dev/null
fi
cat > build/crates.toml << END
net.offline = true
source.crates-io.replace-with = "crates"
source.crates.directory = "${SIM_CRATES:-/usr/share/cargo/registry}"
END
