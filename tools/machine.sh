# Sourced by the scripts and by the installed command: how this machine runs programs for x86-64, which all of ours are.

say() { printf '%s\n' "$*"; }
tell() { printf '%s: %s\n' "${0##*/}" "$*" >&2; }
die() { tell "$@"; exit 1; }

# The kit's folder is that of the guide that `rt doc` prints; where there is no kit, this fails and says nothing.
kit() { guide=$(rt doc </dev/null 2>/dev/null) && dirname "$guide"; }

# need_kit WHY: dies where there is none
need_kit() {
    command -v rt >/dev/null 2>&1 || die "$1, and rt, the command of the Rattle kit, is missing; it is in no Debian package"
    kit >/dev/null || die "$1, and rt, the command of the Rattle kit, fails: $(rt doc 2>&1 </dev/null | tail -n 1)"
}

# Sets emulator, what runs a static program (empty where the machine does), and loader, the words that come before a proved program too. It is
# linked to the kit's C library, and `rt` runs it with that; without the kit an x86-64 machine runs it with its own.
machine() {
    home=$(kit) || home=''
    emulator='' loader=() tools=$home/toolchain
    case $(uname -m) in
    x86_64) ;;
    aarch64)
        need_kit "programs for x86-64 run under the kit's emulator here"
        tools=$home/on/aarch64/toolchain
        emulator=$tools/bin/qemu-x86_64
        [ -x "$emulator" ] || die "the Rattle kit has no emulator at $emulator"
        ;;
    *) die "neither x86-64 nor aarch64, but $(uname -m): nothing here runs on it" ;;
    esac
    [ -z "$home" ] || [ ! -x "$tools/lib/ld-linux-x86-64.so.2" ] || loader=("$tools/lib/ld-linux-x86-64.so.2" --library-path "$tools/lib")
}
