# Sourced by the commands that compile the library with a sanitizer inside, or for another processor: the LLVM module that the
# Rattle compiler makes of it.

# The kit's clang, as it compiles for a machine.
clang_for() { echo "$(kit)/toolchain/bin/clang --target=$1-unknown-linux-gnu -Wno-override-module"; } # MACHINE

# Writes build/module.ll, of no particular machine, beside build/librelay.a, and build/module.aarch64.o, compiled for aarch64 with the
# archive's -O3; sets module_clang, the clang for this machine. In a run of several commands, it is written once.
relay_module() {
    need_kit
    local own part
    module_clang=$(clang_for x86_64)
    [ "${XEZ_ANSWERERS_ARE_BUILT:-no}" = no ] || return 0
    c_library
    # Once more, with little left to prove, by a folder like the kit's, with links to all that it has, and a clang that also keeps the module. rt ci refuses
    # links in a checkout, so it stands outside; rt knows the kit by where its own two files are.
    own=$(mktemp -d)
    mkdir -p "$own/kit/bin" "$own/kit/toolchain/bin"
    for part in "$(kit)"/* "$(kit)"/bin/* "$(kit)"/toolchain/* "$(kit)"/toolchain/bin/*; do
        part=${part#"$(kit)/"}
        [ -d "$own/kit/$part" ] || ln -s "$(kit)/$part" "$own/kit/$part"
    done
    rm "$own/kit/bin/rt" "$own/kit/bin/rtlib.py" "$own/kit/toolchain/bin/clang"
    cp "$(kit)/bin/rt" "$(kit)/bin/rtlib.py" "$own/kit/bin/"
    cat >"$own/kit/toolchain/bin/clang" <<EOF
#!/bin/sh
for word in "\$@"; do case \$word in *.bc) cp "\$word" "$PWD/build/module.bc" ;; esac; done
exec "$(kit)/toolchain/bin/clang" "\$@"
EOF
    chmod +x "$own/kit/toolchain/bin/clang"
    rm -f build/module.bc
    c_library "$own/kit/bin/rt"
    rm -r "$own"

    $module_clang -x ir build/module.bc -S -emit-llvm -o build/module.ll
    sed -i -e '/^target datalayout/d' -e '/^target triple/d' -e 's/"target-cpu"="[^"]*"//; s/"target-features"="[^"]*"//' build/module.ll
    $(clang_for aarch64) -O3 -fPIC -ffunction-sections -fdata-sections -c -x ir build/module.ll -o build/module.aarch64.o
}

# Builds the example relay, which reads recordings by libpcap: build/relay.
example_relay() {
    need_gcc
    need '/usr/include/pcap/pcap.h' libpcap0.8-dev
    [ "${XEZ_ANSWERERS_ARE_BUILT:-no}" = yes ] || c_library
    gcc -std=c99 -D_DEFAULT_SOURCE -O2 -Wall -Wextra -Wpedantic -Werror -Iinclude -o build/relay examples/relay.c build/librelay.a -lpcap
}
