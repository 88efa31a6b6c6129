# Sourced by `test` and `captions/table`: how what links an archive is built and run. On x86-64 nothing is set. Elsewhere the archive for
# x86-64 is linked by a cross compiler and run by an emulator, where they are there; and where they are missing, on aarch64, that for aarch64.
#
#   links          yes where what links an archive can be built and run here, else no
#   link_arch      the processor that is linked for
#   archives       the folder of the archives that are linked: the shipped one, until `archive` has made others
#   archive NAME   proves crate NAME and makes its archive, in target/
#   linked WORDS   runs a cargo command whose program links an archive
#   link_cc        the C compiler
#   link_run       what runs an x86-64 program; empty where the machine does, or its own code is linked
#   not_linked     says that what links an archive isn't run, and what would make it run
#   not_emulated   says so where code of the machine's own is linked in its place
link_packages='gcc-x86-64-linux-gnu libc6-dev-amd64-cross qemu-user rustc libstd-rust-dev:amd64'
link_target=x86_64-unknown-linux-gnu
link_tools=$(pwd)/tools/debian
links=yes
link_arch=x86_64
link_cc=cc
link_run=
link_env=()

# Sets what a cross compiler and an emulator need, if they are there.
emulated() {
    local own=(CARGO_BUILD_TARGET=$link_target CARGO_TARGET_X86_64_UNKNOWN_LINUX_GNU_LINKER=x86_64-linux-gnu-gcc)
    # With the libraries of amd64 in their own place no other place may be named: two C libraries would be mixed.
    local run=qemu-x86_64
    [ -e /lib64/ld-linux-x86-64.so.2 ] || run='qemu-x86_64 -L /usr/x86_64-linux-gnu'
    command -v x86_64-linux-gnu-gcc > /dev/null && command -v qemu-x86_64 > /dev/null || return 1
    if [ ! -d "$(rustc --print sysroot)/lib/rustlib/$link_target/lib" ]; then
        [ -x /usr/bin/rustc ] && [ -d "$(/usr/bin/rustc --print sysroot)/lib/rustlib/$link_target/lib" ] || return 1
        own+=(RUSTC="$link_tools/rustc" RUSTDOC="$link_tools/rustdoc")
    fi
    link_cc=x86_64-linux-gnu-gcc
    link_run=$run
    link_env=("${own[@]}" CARGO_TARGET_X86_64_UNKNOWN_LINUX_GNU_RUNNER="$run")
}

if [ "$(uname -m)" != x86_64 ] && ! emulated; then
    if [ "$(uname -m)" = aarch64 ]; then
        link_arch=aarch64
    else
        links=no
    fi
fi

archives=$(pwd)/lib/$link_arch

linked() { env ALTULISCIA_LIB="$archives" ${link_env[@]+"${link_env[@]}"} "$@"; }

archive() {
    archives=$(pwd)/target/made/$link_arch
    tools/native "$archives" "$1" "$link_arch"
}

link_how="on Debian it is run after: dpkg --add-architecture amd64 && apt update && apt install $link_packages"

not_linked() {
    echo "NOT RUN: what links an archive for x86-64 (callers in C, Rust and Python, comparison, captions, bench/); $link_how"
}

not_emulated() {
    [ $link_arch = x86_64 ] || echo "NOT RUN: the archive for x86-64 itself; the same modules compiled for this machine are linked; $link_how"
}
