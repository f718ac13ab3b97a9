# Where the Rattle kit is, for the scripts that build or run x86-64 programs with it: `. tests/kit.sh` sets
#   kit       the kit's folder
#   tools     its compiler, C library and loader for x86-64
#   linker    its own linking of a program with that C library
#   emulator  what runs x86-64 programs on another processor: one that the kit has, or this machine's; empty on x86-64
rt=$(readlink -f "$(command -v rt)") || { echo "$0: no rt on the path" >&2; exit 2; }
kit=${RATTLE_HOME:-$(dirname "$(dirname "$rt")")}
tools=$kit/toolchain
linker=$kit/bin/rattle-link
emulator=
if [ "$(uname -m)" != x86_64 ]; then
    emulator=$tools/bin/qemu-x86_64
    [ -x "$emulator" ] || emulator=$(command -v qemu-x86_64) || emulator=
fi
