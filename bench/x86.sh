# x86.sh: builds and runs x86-64 Rust on an x86-64 or an Arm host. Source it; it needs the Rattle kit.
#   x86_rustc ARGS..        rustc for x86-64 Linux (on Arm: Debian's, unpacked once below $X86_DIR; nothing is installed)
#   x86_run PROGRAM ARGS..  runs the program, on Arm under the kit's emulator
RATTLE_HOME=${RATTLE_HOME:-$(dirname "$(rt doc)")}
X86_DIR=${X86_DIR:-${XDG_CACHE_HOME:-$HOME/.cache}/x86-rust}
x86_host=$(uname -m)
x86_tools=$RATTLE_HOME/on/$x86_host/toolchain

x86_setup() {
    [ "$x86_host" != x86_64 ] || return 0
    x86_rust=$X86_DIR/${X86_RUST:-1.63}
    [ ! -f "$x86_rust/done" ] || return 0
    rm -rf "$x86_rust"
    mkdir -p "$x86_rust/lists/partial" "$x86_rust/debs/partial" "$x86_rust/root" "$x86_rust/lib" || return
    case ${X86_RUST:-1.63} in
    web) set -- rustc-web:arm64 libstd-rust-web-1.96:arm64 libllvm22:arm64 libstd-rust-web-dev:amd64 ;;
    *) set -- rustc:arm64 libstd-rust-1.63:arm64 libllvm14:arm64 libstd-rust-dev:amd64 ;;
    esac
    # apt checks the signatures; lists and packages stay below $x86_rust, and nothing is installed
    printf '%s\n' 'APT::Architectures { "arm64"; "amd64"; };' "Dir::State::lists \"$x86_rust/lists\";" \
        "Dir::Cache \"$x86_rust/debs\";" 'Acquire::Languages "none";' 'APT::Sandbox::User "";' >"$x86_rust/apt.conf"
    APT_CONFIG=$x86_rust/apt.conf apt-get -qq update || return
    (cd "$x86_rust/debs" && APT_CONFIG=$x86_rust/apt.conf apt-get -qq download "$@") || return
    for x86_deb in "$x86_rust"/debs/*.deb; do dpkg-deb -x "$x86_deb" "$x86_rust/root" || return; done
    # the names that rustc asks the linker for, over the kit's C library
    for x86_l in util rt pthread dl; do "$x86_tools/bin/llvm-ar" rcs "$x86_rust/lib/lib$x86_l.a" || return; done
    echo "INPUT($x86_tools/lib/libm.so.6)" >"$x86_rust/lib/libm.so"
    echo "INPUT($x86_tools/lib/libc.so.6 $x86_tools/lib/libc_nonshared.a $x86_tools/lib/ld-linux-x86-64.so.2)" >"$x86_rust/lib/libc.so"
    echo "INPUT($x86_tools/lib/libgcc_s.so.1)" >"$x86_rust/lib/libgcc_s.so"
    # the kit's emulator (qemu 8.2.2) dies when /proc/self/maps is opened; glibc opens it for the first thread's
    # pthread_getattr_np, which std asks at start and can do without; and std's backtraces open it (x86_run)
    echo 'int pthread_getattr_np(unsigned long t, void *a) { return 38; }' |
        "$x86_tools/bin/clang" --target=x86_64-unknown-linux-gnu -O2 -fPIC -c -x c - -o "$x86_rust/lib/attr.o" || return
    rm -rf "$x86_rust/debs" "$x86_rust/lists"
    : >"$x86_rust/done"
}

x86_rustc() {
    if [ "$x86_host" = x86_64 ]; then rustc "$@"; return; fi
    x86_setup || return
    set -- --sysroot "$x86_rust/root/usr" --target x86_64-unknown-linux-gnu -C linker-flavor=ld.lld -C "linker=$x86_tools/bin/ld.lld" \
        -C "link-arg=-L$x86_rust/lib" -C link-arg=--dynamic-linker=/lib64/ld-linux-x86-64.so.2 \
        -C "link-arg=$x86_tools/lib/Scrt1.o" -C "link-arg=$x86_tools/lib/crti.o" -C "link-arg=$x86_tools/lib/crtbeginS.o" \
        -C "link-arg=$x86_rust/lib/attr.o" -C "link-arg=$x86_tools/lib/crtendS.o" -C "link-arg=$x86_tools/lib/crtn.o" "$@"
    LD_LIBRARY_PATH=$x86_rust/root/usr/lib/aarch64-linux-gnu "$x86_rust/root/usr/bin/rustc" "$@"
}

x86_run() {
    if [ "$x86_host" = x86_64 ]; then "$@"; return; fi
    RUST_BACKTRACE=0 X86_EMULATED=1 "$x86_tools/bin/qemu-x86_64" "$x86_tools/lib/ld-linux-x86-64.so.2" --library-path "$x86_tools/lib" "$@"
}
