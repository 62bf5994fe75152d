# Where what the tests try stands, how it is made, and how C is compiled for it; for the tests that source this.
kit=$(dirname "$(dirname "$(readlink -f "$(command -v rt)")")")
tools=$kit/toolchain
desk=crates/desk/out/desk
built=crates/pointer_desk/out/libpointer_desk.a

# The kit's clang, which has no headers of its own: those of this machine's gcc and C library.
kit_clang() {
    "$tools/bin/clang" --target=x86_64-unknown-linux-gnu -nostdinc -isystem "$(gcc -print-file-name=include)" \
        -isystem "/usr/include/$(gcc -dumpmachine)" -isystem /usr/include "$@"
}

# with_kit_libc ARGS..: by the kit's clang, linked with the kit's C library, which names functions of its loader.
with_kit_libc() {
    local lib=$tools/lib
    kit_clang --ld-path="$tools/bin/ld.lld" -fPIE -pie -nostdlib -Wl,--allow-shlib-undefined "$lib/Scrt1.o" "$lib/crti.o" "$lib/crtbeginS.o" "$@" \
        "$lib/libc.so.6" "$lib/libc_nonshared.a" "$lib/libgcc.a" "$lib/crtendS.o" "$lib/crtn.o"
}

# The program, as `rt ci` and `rt run` leave it.
there() { [ -x "$desk" ] || { echo "no $desk: rt run in crates/desk makes it"; return 1; }; }

# All that the archive is made from, and the archive: their sums.
made_from() {
    { rt version && sha256sum crates.txt "$built" && find crates -path '*/out' -prune -o \( -name '*.rt' -o -name '*.antt' \) -print0 | LC_ALL=C sort -z | xargs -0 sha256sum; } 2>&1 | sha256sum
}

# library FOLDER: the proved archive, put there; one test at a time makes it, where something has changed since it was made.
library() {
    mkdir -p target
    (
        flock 9
        [ -f "$built" ] && [ "$(made_from)" = "$(cat target/archive.sum 2>/dev/null)" ] || { (cd crates/pointer_desk && rt lib) && made_from >target/archive.sum; }
    ) 9>target/making && cp "$built" "$1"
}
