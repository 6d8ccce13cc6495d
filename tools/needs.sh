#!/bin/sh
# Looks for the tools that are needed, and names all that are missing, each with the package of Debian that has it; the
# status is 1 then. needs.sh: what `make` and `make quick` need. needs.sh gate: what the gate has use for besides. It installs that
# where it may, else it says what is skipped for its lack.
missing=
lacks() {
    echo "missing: $1 ($2)" >&2
    missing=yes
}
command -v rt >/dev/null || lacks rt "of the Rattle toolchain: put its folder bin on PATH"
if ! command -v python3 >/dev/null; then
    lacks python3 "Debian package python3"
elif ! python3 -c 'import tomllib' 2>/dev/null; then
    lacks "python3 of 3.11 or later" "Debian package python3, of Debian 12 or later"
fi
command -v gcc >/dev/null || lacks gcc "Debian package gcc"
command -v g++ >/dev/null || lacks g++ "Debian package g++"
[ -z "$missing" ] || exit 1
[ "$1" = gate ] || exit 0

# what the gate can do without: a name, how it is found, and what is skipped without it
is_there() {
    case $1 in
    libhsa-runtime-dev) [ -e /usr/include/hsa/hsa.h ] ;;
    pkg-config) command -v pkg-config >/dev/null ;;
    *) command -v "$1" >/dev/null ;;
    esac
}
wanted=
for name in valgrind cmake pkg-config libhsa-runtime-dev; do
    is_there "$name" || wanted="$wanted $name"
done
if [ -n "$wanted" ] && [ "$(id -u)" = 0 ] && command -v apt-get >/dev/null; then
    apt-get update >/dev/null 2>&1 </dev/null
    # shellcheck disable=SC2086
    apt-get install -y $wanted >/dev/null 2>&1 </dev/null
fi
for name in $wanted; do
    is_there "$name" && continue
    case $name in
    valgrind) echo "skipped, as valgrind is missing: counts of instructions, and the library for C under it" ;;
    libhsa-runtime-dev) echo "skipped, as libhsa-runtime-dev is missing: the library's structs held against hsa.h" ;;
    *) echo "skipped, as $name is missing: what docs/c.md types with it" ;;
    esac
done
exit 0
