# For scripts that build over the Rust original (sourced from the repository's top, with `stop MESSAGE` defined): finds its
# text and the crates it needs, or stops, and copies both beside a runner of ours.
# $RERECAST_SRC or the first argument holds crates/rerecast/src; otherwise it is ../shared/docs/src.
# $RUST_CRATES is a folder of crates (slotmap, thiserror); without it, where Debian's packages put them.

text=${1:-${RERECAST_SRC:-../shared/docs/src}}/crates/rerecast/src
[ -f "$text/rasterize.rs" ] || stop "the Rust original is not at $text (give its folder, or set RERECAST_SRC)"
command -v cargo >/dev/null || stop "no Rust at hand: cargo is not found"
minor=$(cargo --version | sed -n 's/^cargo 1\.\([0-9]*\)\..*/\1/p')
[ "${minor:-0}" -ge 88 ] || stop "the original needs Rust 1.88 or later, here is $(cargo --version)"

crates=${RUST_CRATES:-}
if [ -z "$crates" ]; then
  found=$(dpkg -L librust-slotmap-dev 2>/dev/null | grep -m 1 '/Cargo.toml$' || true)
  [ -n "$found" ] || stop "no slotmap: install librust-slotmap-dev and librust-thiserror-dev, or set RUST_CRATES"
  crates=$(dirname "$(dirname "$found")")
fi

# Copies the stand-ins of oracle/rust and the original's modules into a folder; copies keep their times, so that nothing is
# built again without need.
copy_original() {
  mkdir -p "$1/src" "$1/.cargo"
  cp -rp oracle/rust/. "$1/"
  for module in compact_cell compact_heightfield compact_span heightfield ops pre_filter rasterize region span; do
    cp -p "$text/$module.rs" "$1/src/"
  done
  cat > "$1/.cargo/config.toml" <<END
[source.crates-io]
replace-with = "at-hand"
[source.at-hand]
directory = "$crates"
[net]
offline = true
END
}

# Mends the original's one known fault in such a folder: a cut of an empty polygon sets both counts to 0.
mend_original() {
  local file=$1/src/rasterize.rs
  sed -i '/in_vert_count == 0 {/,/}/ s/return Ok/*out_vert_count_1 = 0; *out_vert_count_2 = 0; return Ok/' "$file"
  [ "$(diff "$text/rasterize.rs" "$file" | grep -c '^>')" = 1 ] || stop "the line to mend was not found once"
  touch -r "$text/rasterize.rs" "$file"
}
