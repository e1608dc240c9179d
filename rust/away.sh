#!/usr/bin/env bash
# away.sh FOLDER: puts a copy of the crate `burlapslate` into a folder, and a program over it into `program` there: no
# repository is above them, and no rt to build with.
set -uo pipefail
top=$(cd "$(dirname "$0")/.." && pwd) || exit 2
[ $# -eq 1 ] || { sed -n '2,3s/^# //p' "$0" >&2; exit 2; }
mkdir -p "$1/program/src" && cp -r "$top/rust/burlapslate" "$1/" || exit 1
cat >"$1/program/Cargo.toml" <<'END_OF_FILE' || exit 1
[package]
name = "program"
version = "0.0.0"
edition = "2021"

[dependencies]
burlapslate = { path = "../burlapslate" }
END_OF_FILE
cat >"$1/program/src/main.rs" <<'END_OF_FILE'
use burlapslate::{Detect, Mode, Stop, Table, SLOTS};

fn main() -> Result<(), Stop> {
    let table = Table::new(Detect::AtBlock, SLOTS)?;
    let db = table.add_inner(&[])?;
    let mut session = table.begin_in_turn()?;
    session.lock(db, Mode::X)?;
    session.commit()?;
    Ok(())
}
END_OF_FILE
