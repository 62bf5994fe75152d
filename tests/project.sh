# What the tests that build hosts share: a page's blocks, and a host in Rust as cargo begins one.

# block TEXT FILE: the fenced block of a page that has this text in it; README.md where no page is named.
block() {
    awk -v want="$1" '/^```/ { if (hit) exit; inside = !inside; text = ""; next }
        inside { text = text $0 "\n"; if (index($0, want)) hit = 1 }
        END { if (!hit) exit 1; printf "%s", text }' "${2:-README.md}"
}

# cargo_host FOLDER CRATE SOURCE: the project that `cargo new` makes, of the newest edition, with the crate in that folder and no registry; built and run.
cargo_host() {
    cargo new --quiet --vcs none --name mine "$1" && cp "$3" "$1/src/main.rs" &&
        printf 'pointer_desk = { path = "%s" }\n' "$2" >>"$1/Cargo.toml" &&
        (cd "$1" && CARGO_TARGET_DIR="$1/target" RUSTFLAGS='-D warnings' cargo run --quiet --offline)
}
