# Sourced by ./test and ./bench, after machine.sh and build.sh: the tools that this machine lacks, and C programs for x86-64.

# takes_no_words HELP WORD..: --help prints the help; any other word is refused before anything is done
takes_no_words() {
    case $#-${2-} in
    1-) return ;;
    2---help | 2--h) printf 'usage: ./%s\n\n%s\n' "${0##*/}" "$1"; exit ;;
    esac
    printf 'usage: ./%s\n' "${0##*/}" >&2
    exit 2
}

# need COMMAND PACKAGE: has the command, installs Debian's package that has it, or says what is missing.
need() {
    command -v "$1" >/dev/null 2>&1 && return
    if command -v apt-get >/dev/null 2>&1 && [ "$(id -u)" = 0 ]; then
        say "$1 is missing: installing Debian's $2"
        apt-get install -y "$2" >/dev/null 2>&1 || { apt-get update >/dev/null 2>&1 && apt-get install -y "$2" >/dev/null 2>&1; }
    fi
    command -v "$1" >/dev/null 2>&1 || die "$1 is missing; it is in Debian's package $2"
}

# Sets host_cc, host_cxx (compilers for x86-64) and host_size (sizes of what they make), and emulator and loader.
hosts() {
    machine
    if [ -z "$emulator" ]; then
        host_cc=cc host_cxx=c++ host_size=size
        need cc gcc
        need c++ g++
    else
        host_cc=x86_64-linux-gnu-gcc host_cxx=x86_64-linux-gnu-g++ host_size=x86_64-linux-gnu-size
        need x86_64-linux-gnu-gcc gcc-x86-64-linux-gnu
        need x86_64-linux-gnu-g++ g++-x86-64-linux-gnu
    fi
    probe
}

# On Arm a static program needs Debian's libc6-dev-amd64-cross beside the compiler; what it says is shown, whatever it lacks.
probe() {
    can_write_target || die "$root/target can't be written to"
    printf 'int main(void){return 0;}\n' >target/probe.c
    "$host_cc" -static -o target/probe target/probe.c || die "$host_cc links no static program, which the C programs for x86-64 are"
}

# host PROGRAM FILE..: a C program over the library
host() {
    program=$1
    shift
    "$host_cc" -std=c99 -O2 -Wall -Wextra -Werror -static -Iinclude -o "target/$program" "$@" target/staticlib/libdrive.a
}
