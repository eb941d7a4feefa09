# Sourced by the tests, from the top of the repository: how C and Rust are compiled for the library, which is for x86-64, and how what was
# compiled is started on this machine. Sets compiler, starter, rust_built (where cargo puts what it builds), no_rust (why Rust is not run, or
# nothing) and, for the tests in Rust, G719_EMULATED.
no_rust=
rust_built=rust/target/debug
if [ "$(uname -m)" = x86_64 ]; then
  compiler=gcc
  starter=()
else
  # Debian's cross compiler and emulator; the kit's emulator serves C if Debian's is not there
  compiler=x86_64-linux-gnu-gcc
  emulator=$(command -v qemu-x86_64) || emulator=$(dirname "$(rt doc)")/on/$(uname -m)/toolchain/bin/qemu-x86_64
  libraries=/usr/x86_64-linux-gnu
  if [ -e /lib64/ld-linux-x86-64.so.2 ]; then libraries=/; fi
  starter=("$emulator" -L "$libraries")

  # the first cargo whose rustc has the standard library for x86-64
  no_rust="this machine is $(uname -m), and Debian's packages qemu-user, gcc-x86-64-linux-gnu and a libstd-rust-dev of amd64 are not all there"
  if command -v qemu-x86_64 >/dev/null && command -v "$compiler" >/dev/null; then
    while read -r rustc; do
      if [ -d "$("$rustc" --print target-libdir --target x86_64-unknown-linux-gnu 2>/dev/null)" ]; then
        export PATH="${rustc%/*}:$PATH"
        export CARGO_BUILD_TARGET=x86_64-unknown-linux-gnu
        export CARGO_TARGET_X86_64_UNKNOWN_LINUX_GNU_LINKER=$compiler
        export CARGO_TARGET_X86_64_UNKNOWN_LINUX_GNU_RUNNER="${starter[*]}"
        export G719_EMULATED=1
        rust_built=rust/target/$CARGO_BUILD_TARGET/debug
        no_rust=
        break
      fi
    done < <(type -ap rustc)
  fi
fi
