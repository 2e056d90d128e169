# Sourced by the commands that compile the Rust crate: its files, with ours beside them, into build/oracle.

# Makes that folder, where the crate's files are there.
oracle_project() {
    local sources=${XEZ_SRT_PROTOCOL_SRC:-../shared/docs/src}
    [ -f "$sources/packet/control/loss_compression.rs" ] || not_run "the Rust crate's files are not there (set XEZ_SRT_PROTOCOL_SRC to its folder src)"
    need cargo cargo rustc
    for crate in bitflags bytes log rand; do need "/usr/share/cargo/registry/$crate-*" "librust-$crate-dev"; done
    need '/usr/share/cargo/registry/derive_more-*' librust-derive-more-dev
    mkdir -p build/oracle/.cargo
    cp -r tests/oracle/Cargo.toml tests/oracle/*.rs tests/oracle/bitflags build/oracle/
    # a copy, since rt ci refuses links in a checkout
    rm -rf build/oracle/srt-protocol
    cp -r "$sources" build/oracle/srt-protocol
    chmod -R u+w build/oracle/srt-protocol
    cat >build/oracle/.cargo/config.toml <<'EOF'
[source.crates-io]
replace-with = "debian"
[source.debian]
directory = "/usr/share/cargo/registry"
[net]
offline = true
EOF
}

# Compiles one of the programs; WORDS go to cargo rustc.
build_rust() { # WORDS..
    if ! (cd build/oracle && cargo rustc --release --quiet "$@") >build/oracle/log 2>&1; then
        grep -A 5 '^error' build/oracle/log | head -40
        echo "the Rust side does not compile"
        exit 1
    fi
}
