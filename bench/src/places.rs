//! Where tables and pictures go: below target/, and into docs/ only where that is asked for.

use crate::picture;
use crate::table::Tables;
use std::io;
use std::path::{Path, PathBuf};

const SAVED: &str = "target/bench/speed.md";
const DRAWN: &str = "target/bench/speed.svg";
const PAGE: &str = "docs/SPEED.md";
const PICTURE: &str = "docs/speed.svg";

/// What a run measured, as a table to draw from again and as a picture.
pub fn save(tables: &Tables) -> io::Result<()> {
    write(SAVED, &tables.saved())?;
    write(DRAWN, &picture::svg(tables))
}

/// The page gets the tables, and the picture is drawn from what the page then has.
pub fn publish(tables: &Tables) -> io::Result<()> {
    let page = read(&from_root(PAGE))?;
    let page = tables.put_into(&page).ok_or_else(|| io::Error::other(format!("{PAGE} has not as many tables")))?;
    write(PAGE, &page)?;
    redraw(&from_root(PAGE), true)
}

/// The picture once more, from the tables of a file.
pub fn redraw(file: &Path, publish: bool) -> io::Result<()> {
    let tables = Tables::read(&read(file)?);
    let tables = tables.ok_or_else(|| io::Error::other(format!("{} has no table of a run", file.display())))?;
    write(if publish { PICTURE } else { DRAWN }, &picture::svg(&tables))
}

fn read(file: &Path) -> io::Result<String> {
    std::fs::read_to_string(file).map_err(|error| io::Error::other(format!("{}: {error}", file.display())))
}

fn write(place: &str, text: &str) -> io::Result<()> {
    let path = from_root(place);
    path.parent().map_or(Ok(()), std::fs::create_dir_all)?;
    std::fs::write(&path, text)?;
    eprintln!("written: {place}");
    Ok(())
}

/// From the repository's root, which is above this folder.
fn from_root(place: &str) -> PathBuf {
    Path::new(env!("CARGO_MANIFEST_DIR")).join("..").join(place)
}
