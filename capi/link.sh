#!/bin/sh
# Links the shared library of the static library that rattle makes of station_page:
#
#     sh capi/link.sh ARCHIVE LIBRARY
#
# The exports get the names of station_check.h, those of stated.c stand before five of them, and
# nothing else is shown. Memory is the C library's: the kit's heap calls its malloc, realloc and
# free.
set -eu

here=$(dirname "$0")
kit=$(dirname "$("${RT:-rt}" doc | head -n 1)")
"${CC:-cc}" -shared -nostartfiles -s -O2 -fPIC -o "$2" \
  -Wl,-soname,"$(basename "$2")" -Wl,-z,relro,-z,now,-z,noexecstack,-z,defs,--gc-sections \
  "$here/stated.c" -Wl,--whole-archive "$1" -Wl,--no-whole-archive "$kit/c/liblibc_c.a" "$here/names.ld"
