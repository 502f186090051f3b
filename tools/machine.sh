# To be sourced: how this machine compiles and runs programs for x86-64, which is what the library is compiled for.
# CC compiles and links C, RUN stands before a program, and `rust` is cargo for x86-64. What is missing is installed from Debian's packages,
# as root and over the network, or else asked for. With the word `cargo` it stops at cargo and a linker, which the reference needs.

# Installs those of the packages that are not there.
need() {
    local missing=() package
    for package in "$@"; do
        [ "$(dpkg-query -W -f='${db:Status-Status}' "$package" 2>/dev/null)" = installed ] || missing+=("$package")
    done
    [ ${#missing[@]} -eq 0 ] && return
    if [ "$(id -u)" != 0 ] || ! command -v apt-get >/dev/null; then
        echo "tools/machine.sh: please install ${missing[*]} (Debian's packages; as root this is done here)" >&2
        exit 1
    fi
    echo "installing ${missing[*]}"
    apt-get update -qq
    DEBIAN_FRONTEND=noninteractive apt-get install -y -qq --no-install-recommends "${missing[@]}" >/dev/null
}

command -v cargo >/dev/null || need cargo
command -v cc >/dev/null || need gcc libc6-dev
[ "${1-}" = cargo ] && return

case $(uname -m) in
x86_64)
    command -v gcc >/dev/null || need gcc libc6-dev
    CC=(gcc) RUN=()
    rust() { cargo "$1" --offline --release --target x86_64-unknown-linux-gnu --manifest-path rust/asf/Cargo.toml "${@:2}"; }
    ;;
aarch64)
    # Debian's cargo, since its rustc has a standard library for x86-64 that can be installed here
    dpkg --print-foreign-architectures | grep -qx amd64 || dpkg --add-architecture amd64
    need gcc-x86-64-linux-gnu libc6-dev-amd64-cross qemu-user cargo rustc libstd-rust-dev:amd64
    # linked statically, since the emulator finds no loader;
    # that processor clears memory by plain stores; newer ones do it by an instruction that is slow under an emulator
    CC=(x86_64-linux-gnu-gcc -static) RUN=(qemu-x86_64 -cpu qemu64)
    rust() {
        RUSTC=/usr/bin/rustc CARGO_TARGET_X86_64_UNKNOWN_LINUX_GNU_LINKER=${CC[0]} CARGO_TARGET_X86_64_UNKNOWN_LINUX_GNU_RUNNER="${RUN[*]}" \
            /usr/bin/cargo "$1" --offline --release --target x86_64-unknown-linux-gnu --manifest-path rust/asf/Cargo.toml "${@:2}"
    }
    ;;
*)
    echo "tools/machine.sh: x86_64 and aarch64 are known, $(uname -m) is not" >&2
    exit 1
    ;;
esac
