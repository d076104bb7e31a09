# Read by the other scripts: leaves in PCLMIN the path of pclmin, which is built unless PCLMIN was set.
# PLAIN is that of the plain program (oracle/plain), which `build_plain` builds.
mkdir -p build/bench
if [ -z "${PCLMIN:-}" ]; then
    PCLMIN=$PWD/build/pclmin
    tools/build.py pclmin >&2
fi
PLAIN=build/bench/plain

build_plain() {
    rustc -O -C codegen-units=1 --edition 2024 -o "$PLAIN" oracle/plain/main.rs
}
