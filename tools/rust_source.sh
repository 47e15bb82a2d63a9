# What tools/compare/run, tools/compare_bank/run and bench/run share: the Rust's files and how they
# are built. They source it before they go to the repository's root. They set for it:
#   - folder: the root of the Rust repository
#   - what: what is asked for
#   - out: the folder for what is built
#   - units: the number of codegen units, if the compiler must not choose it

frames=crates/ferrowasp-output/src
bank=crates/ferrowasp-stm32-critical/src
units=

# Whether a folder has the two files that all of them build.
has_frames() {
    [ -f "$1/$frames/dshot.rs" ] && [ -f "$1/$frames/dshot_reply.rs" ]
}

# Whether it has the bank's file too.
has_bank() {
    has_frames "$1" && [ -f "$1/$bank/dshot_bank.rs" ]
}

# If a file is not that of the commit, says so. What is stored is the commit's. So --list, --answers and
# --seen-to-fail then end with status 2.
expect() {
    if [ "$(sha256sum <"$folder/$1" | cut -d ' ' -f 1)" != "$2" ]; then
        echo "this is not $1 of commit 9cb8aca1a6" >&2
        case $what in
        --*) exit 2 ;;
        esac
    fi
}

expect_frames() {
    expect $frames/dshot.rs 96b1028073e7952ba17dd06c831814fe88948dff13f8a91d482b8afe3af4766e
    expect $frames/dshot_reply.rs 5b4fdb1d55d1e58a5619ed1ba3cfb2bdf86657544aa9ace1b95b21602ae747f5
}

expect_bank() {
    expect_frames
    expect $bank/dshot_bank.rs 9d92792008236b6e2c37ca310ad899c4bc924022f0a85e30d510eb936f254b3c
}

# A run of commands whose count is 0 counts on from 255, as in the source's release build.
build() {
    rustc --edition 2021 -C opt-level=3 -C overflow-checks=off \
        ${units:+-C "codegen-units=$units"} -L "$out" "$@" >&2 || exit 3
}

# Builds the two files of a folder, as the crate ferrowasp_output.
build_frames() {
    tools/compare/crate_root "$1" >"$out/ferrowasp_output.rs"
    build --crate-type rlib --out-dir "$out" "$out/ferrowasp_output.rs"
}
