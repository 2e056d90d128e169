# Sourced by the commands beside it: finds the Rattle kit and a C compiler, and installs what is missing.
# The kit runs on x86-64 alone, and so does what it compiles.
set -eu
called_from=$PWD
cd "$(dirname "${BASH_SOURCE[0]}")/.."
mkdir -p build
# Python leaves no folder of compiled files beside a model that another one imports.
export PYTHONDONTWRITEBYTECODE=1

# A path as whoever gave it meant it: seen from where the command was called, which need not be here.
given_path() { # PATH
    case $1 in
    /*) echo "$1" ;;
    *) echo "$called_from/$1" ;;
    esac
}
[ -z "${XEZ_SRT_PROTOCOL_SRC:-}" ] || XEZ_SRT_PROTOCOL_SRC=$(given_path "$XEZ_SRT_PROTOCOL_SRC")

# Says why the command cannot be run here. Status 3 is neither a pass nor a failure.
not_run() { # WHY
    echo "${0##*/}: NOT RUN: $1"
    exit 3
}

is_there() { compgen -G "$1" >/dev/null || command -v "$1" >/dev/null; } # COMMAND-OR-FILE

# Installs Debian packages, where the command or file (a pattern will do) that shows them to be there is missing.
need() { # COMMAND-OR-FILE PACKAGE..
    local shown=$1 as_root=() install
    shift
    if is_there "$shown"; then return 0; fi
    if [ "$(id -u)" != 0 ]; then
        command -v sudo >/dev/null || not_run "$shown is missing: install the Debian packages $* and try again"
        as_root=(sudo)
    fi
    # Nobody would see a package's question, so none is asked (sudo passes no variable on) and none could be answered.
    install=("${as_root[@]}" env DEBIAN_FRONTEND=noninteractive apt-get install -y --no-install-recommends "$@")
    echo "installing $*"
    # Tests that run side by side install one after the other, and the first may have brought what the second lacks.
    (
        flock 9
        exec </dev/null >build/apt.log 2>&1
        is_there "$shown" || "${install[@]}" || { "${as_root[@]}" apt-get update && "${install[@]}"; }
    ) 9>build/apt.lock || true
    is_there "$shown" || not_run "$shown is missing, and the Debian packages $* cannot be installed: $(tail -n 1 build/apt.log)"
}

# Where the kit is.
kit() { dirname "$(dirname "$(readlink -f "$(command -v rt)")")"; }

need_kit() {
    [ "$(uname -m)" = x86_64 ] || not_run "the Rattle kit is for x86-64, and this machine is $(uname -m)"
    command -v rt >/dev/null || not_run "the Rattle kit is missing: get the kit (rattle-kit-13f or later), unpack it and put its bin/ folder, which has the command rt, on the PATH"
}

# Builds the library for C with its proofs, and keeps it as build/librelay.a. Another kit's rt may be given.
c_library() { # [RT]
    need_kit
    if ! (cd crates/relay_c && "${1:-rt}" lib) >build/library.log 2>&1; then
        tail -n 20 build/library.log >&2
        return 1
    fi
    cp crates/relay_c/out/librelay_c.a build/librelay.a
}

# Builds a program of crates/ with its proofs, and keeps it in build/. rt runs what it has built, too: on no input here.
need_program() { # CRATE
    need_kit
    (cd "crates/$1" && rt run) </dev/null >"build/$1.log" 2>&1 || true
    if ! grep -q "^rt: running out/$1;" "build/$1.log"; then
        tail -n 20 "build/$1.log" >&2
        return 1
    fi
    cp "crates/$1/out/$1" "build/$1"
}

# Builds what answers questions for us: build/ask, through the header, and build/frames with build/answers. In a run of
# several commands, once.
need_answerers() {
    [ "${XEZ_ANSWERERS_ARE_BUILT:-no}" = no ] || return 0
    need_gcc
    [ -n "${module_clang:-}" ] || c_library
    need_program answers
    need_asking
}

# .. of it what is C, once there is the library.
need_asking() {
    gcc -std=c99 -O2 -Wall -Wextra -Werror -Iinclude -o build/ask tests/ask.c build/librelay.a
    gcc -std=c99 -O2 -Wall -Wextra -Werror -o build/frames tests/frames.c
}

# gcc, and the C library's headers, which its package only recommends.
need_gcc() {
    need gcc gcc
    need /usr/include/stdio.h libc6-dev
}

# .. and g++.
need_compiler() {
    need_gcc
    need g++ g++
}

# Compiles a program with AddressSanitizer and UBSan.
sanitized() { # WORDS..
    need_gcc
    gcc -g -O1 -fno-omit-frame-pointer -fsanitize=address,undefined -fno-sanitize-recover=all "$@"
}

# Runs such a program. Addresses are not randomised, where that is allowed: AddressSanitizer of some years ago stumbles over
# the wider spread of newer kernels.
run_sanitized() { # PROGRAM WORDS..
    if setarch -R true 2>/dev/null; then setarch -R "$@"; else "$@"; fi
}
# Leaks are not looked for: nothing here allocates.
export ASAN_OPTIONS=detect_leaks=0

# Spells out the bytes that a kept question repeats: 00*3 is 000000.
spelled() { perl -pe 's/([0-9a-f]+)\*([0-9]+)/$1 x $2/ge'; }
