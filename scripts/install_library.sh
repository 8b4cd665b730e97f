#!/usr/bin/env bash
# Proves, builds and installs the library of filters for C: header, archive, shared object and a file for pkg-config. `install.sh --library`
# calls it.
#
# usage: scripts/install_library.sh [--unproved] [PREFIX]      (PREFIX: /usr/local; --unproved: builds the sources as they are and proves nothing)
#   FILTER_C=PATH  an archive of the crate filter_c that is built already: then none is built here
#   CC=COMMAND     the C compiler (cc)
set -eu
top="$(cd "$(dirname "$0")/.." && pwd)"
how=""
if [ "${1:-}" = --unproved ]; then
    how=unproved
    shift
fi
if [ $# -gt 1 ] || [[ "${1:-}" = -* ]]; then
    echo "usage: scripts/install.sh --library [--unproved] [PREFIX]" >&2
    exit 2
fi
prefix="${1:-/usr/local}"
mkdir -p "$prefix"
prefix="$(cd "$prefix" && pwd)"
version="$(sed -n 's/^#define GOMTHAU_FILTER_VERSION "\(.*\)"$/\1/p' "$top/include/gomthau_filter.h")"
shared="libgomthau_filter.so.${version%%.*}"
folder="$(mktemp -d)"
trap 'rm -rf "$folder"' EXIT
if [ -n "${FILTER_C:-}" ]; then
    cp "$FILTER_C" "$folder/filter_c.a"
elif [ -n "$how" ]; then
    "$top/scripts/build_unproved.py" filter_c "$folder/filter_c.a"
else
    echo "proving and building filter_c, which takes half an hour or more from nothing" >&2
    (cd "$top/crates/filter_c" && rt lib >&2)
    cp "$top/crates/filter_c/out/libfilter_c.a" "$folder/filter_c.a"
fi

# The archive calls the C heap by three functions of the toolchain, which are put in with it.
cp "$(dirname "$(rt doc)")/c/liblibc_c.a" "$folder/heap.a"
(cd "$folder" && ar x filter_c.a && ar x heap.a && ar rcs libgomthau_filter.a ./*.o)

# The shared object shows the calls of the header and nothing else.
echo '{ global: gomthau_filter_*; local: *; };' >"$folder/calls"
"${CC:-cc}" -shared -o "$folder/libgomthau_filter.so" -Wl,-soname,"$shared" -Wl,--version-script,"$folder/calls" \
    -Wl,--whole-archive "$folder/libgomthau_filter.a" -Wl,--no-whole-archive -Wl,-s

install -D -m 644 "$top/include/gomthau_filter.h" "$prefix/include/gomthau_filter.h"
install -D -m 644 "$folder/libgomthau_filter.a" "$prefix/lib/libgomthau_filter.a"
install -D -m 755 "$folder/libgomthau_filter.so" "$prefix/lib/$shared"
ln -sf "$shared" "$prefix/lib/libgomthau_filter.so"
# A program that is built by these flags finds the shared object where it is now. In /usr the system finds it.
path="-Wl,-rpath,\${libdir} "
if [ "$prefix" = /usr ]; then path=""; fi
cat >"$folder/gomthau_filter.pc" <<EOF
prefix=$prefix
includedir=\${prefix}/include
libdir=\${prefix}/lib

Name: gomthau_filter
Description: Verified route filters
Version: $version
Cflags: -I\${includedir}
Libs: -L\${libdir} ${path}-lgomthau_filter
EOF
install -D -m 644 "$folder/gomthau_filter.pc" "$prefix/lib/pkgconfig/gomthau_filter.pc"
echo "installed in $prefix: include/gomthau_filter.h, lib/libgomthau_filter.a, lib/libgomthau_filter.so, lib/pkgconfig/gomthau_filter.pc"
echo "for programs that are not built by the flags of pkg-config, and for Python: ldconfig, or LD_LIBRARY_PATH=$prefix/lib if ldconfig does not look there"
