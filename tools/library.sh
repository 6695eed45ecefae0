#!/bin/sh
# Builds the C library of what the gate proved, and installs header, libkapi.a, libkapi.so and kapi.pc. usage: library.sh PREFIX     needs cc and objcopy
set -e
cd "$(dirname "$0")/.."
mkdir -p "${1:?usage: library.sh PREFIX}"
prefix=$(cd "$1" && pwd)
archive=crates/kapi_c/out/libkapi_c.a
command -v rt > /dev/null || { echo 'rt, the Rattle toolchain, is not on the PATH.' >&2; exit 1; }
kit=$(dirname "$(dirname "$(readlink -f "$(command -v rt)")")")
# The gate proves a static library, but builds none. This proves it again, over the libraries that the gate left, and builds it. A stamp is
# of a library that another run left: then rt lib proves all that was not proved of these sources.
build() {
    cd crates/kapi_c
    ! ls ../*/out/rlib/stamp > /dev/null 2>&1 || { rt lib > out/library.log 2>&1; return; }
    set -- --crate-name kapi_c src/lib.rt --extern "std=$kit/rlibs/std.rlib" -L "dependency=$kit/rlibs"
    for name in $(sed -n 's/^kapi_c staticlib: //p' ../../crates.txt); do
        [ -d "../$name" ] && set -- "$@" --extern "$name=../$name/out/rlib/$name.rlib" || set -- "$@" --extern "$name=$kit/rlibs/$name.rlib"
    done
    for folder in ../*/out/rlib; do
        set -- "$@" -L "dependency=$folder"
    done
    set -- "$@" --antt-project "$kit/rattle/logic/antt-project.json" --logic-built "$kit/logic_built" --toolchain "$kit/toolchain"
    "$kit/bin/rattle" build "$@" --jobs 2 --links kapi_c= --crate-type staticlib --backend llvm -o out/libkapi_c.a > out/library.log 2>&1
}
sources=$(sh tools/sources.sh)
if ! [ -f $archive ] || [ "$sources" != "$(cat crates/kapi_c/out/built 2> /dev/null)" ]; then
    echo 'Proves the static library again, and builds it, in two to four minutes.' >&2
    mkdir -p crates/kapi_c/out
    (build) || { tail -n 20 crates/kapi_c/out/library.log >&2; exit 1; }
    echo "$sources" > crates/kapi_c/out/built
fi
room=$(mktemp -d)
trap 'rm -rf "$room"' EXIT
# One object of the proved code and of the kit's part in C. Only what begins with kapi_ can be seen from outside.
ld -r -o "$room/kapi.o" --whole-archive "$archive" --no-whole-archive "$kit/c/liblibc_c.a"
objcopy --wildcard --keep-global-symbol='kapi_*' "$room/kapi.o"
ar rcs "$room/libkapi.a" "$room/kapi.o"
echo 'KAPI_1 { global: kapi_*; local: *; };' > "$room/exports"
# Functions of the same bytes are one, a tenth of all, if the linker gold is there: no address of a function is compared here. Else code and constants
# share a segment, which nobody may write.
smaller=-Wl,-z,noseparate-code
! command -v ld.gold > /dev/null || smaller='-fuse-ld=gold -Wl,--icf=safe'
"${CC:-cc}" -shared -Wl,-soname,libkapi.so.1 -Wl,--version-script="$room/exports" -Wl,--gc-sections -Wl,-z,defs $smaller -s -o "$room/libkapi.so.1" "$room/kapi.o"
cat > "$room/kapi.pc" << END
prefix=$prefix
Name: kapi
Description: Decisions of Kubernetes' RBAC
Version: 1
Cflags: -I\${prefix}/include
Libs: -L\${prefix}/lib -lkapi
END
install -D -m 644 include/kapi.h "$prefix/include/kapi.h"
install -D -m 644 "$room/libkapi.a" "$prefix/lib/libkapi.a"
install -D -m 755 "$room/libkapi.so.1" "$prefix/lib/libkapi.so.1"
install -D -m 644 "$room/kapi.pc" "$prefix/lib/pkgconfig/kapi.pc"
ln -sf libkapi.so.1 "$prefix/lib/libkapi.so"
