# tools.sh: what the scripts of lib and compare share, sourced from the repository's root: the machine's compiler, linker and emulator, and
# the kit's tools. The library is for x86-64. There all runs as it is. On Arm (aarch64) it runs under an emulator, with Debian's packages.
# Packages that are missing are named; they are installed only where that is asked for, by --install as a script's first word or by INSTALL=yes.
# shellcheck shell=sh disable=SC2034
TARGET=x86_64-unknown-linux-gnu
archive=target/lib

say() { printf '%s: %s\n' "$(basename "$0")" "$*" >&2; }
die() { say "$*"; exit 2; }

case ${1:-} in
--install)
    INSTALL=yes
    shift
    ;;
esac
export INSTALL="${INSTALL:-}"

# Installs the named packages from apt's own sources, if that was asked for.
install() {
    [ "$INSTALL" = yes ] || die "missing: Debian's packages $*; --install as the first word installs them"
    [ "$(id -u)" = 0 ] || die "missing: $* (run once as root)"
    DEBIAN_FRONTEND=noninteractive apt-get -q -o DPkg::Lock::Timeout=300 install -y --no-install-recommends "$@" >&2 ||
        die "apt-get could not install: $*"
}

# Prints the first rustc that has the standard library of TARGET.
find_rustc() {
    for r in ${RUSTC:-} $(command -v rustc || true) "$HOME/.cargo/bin/rustc" /usr/bin/rustc; do
        [ -x "$r" ] || continue
        d=$("$r" --print target-libdir --target $TARGET 2>/dev/null) || continue
        for f in "$d"/libstd-*.rlib; do [ -f "$f" ] && { echo "$r"; return 0; }; done
    done
    return 1
}

# Sets cc, emulator and rustc for this machine.
find_tools() {
    case $(uname -m) in
    x86_64)
        cc=cc emulator=''
        command -v cc >/dev/null || install gcc libc6-dev
        rustc=$(find_rustc) || { install rustc; rustc=$(find_rustc) || die "no rustc for $TARGET"; }
        ;;
    aarch64)
        cc=x86_64-linux-gnu-gcc emulator=qemu-x86_64
        rustc=$(find_rustc) || {
            [ "$INSTALL" != yes ] || dpkg --print-foreign-architectures | grep -qx amd64 || dpkg --add-architecture amd64
            [ "$INSTALL" != yes ] || apt-get -q update >&2 || true
            install rustc-web libstd-rust-web-dev:amd64
            rustc=$(find_rustc) || die "no rustc for $TARGET"
        }
        command -v $cc >/dev/null || install gcc-x86-64-linux-gnu libc6-dev-amd64-cross
        command -v $emulator >/dev/null || install qemu-user
        ;;
    *) die "no way known for $(uname -m)" ;;
    esac
}

# The kit's tools. They are for x86-64.
kit_tools() { echo "$(dirname "$(rt doc)")/toolchain/bin"; }
