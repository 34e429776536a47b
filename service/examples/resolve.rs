//! Resolves every reference of an image, of the bond of the guide or of a file that is named:
//! `cargo run --example resolve -- FILE`.

use pozhdaghi::{sample, Image, NodeId, Request, Results, Visible, Work};
use std::error::Error;

const SLOTS: usize = 128;

fn main() -> Result<(), Box<dyn Error>> {
    let bytes = match std::env::args_os().nth(1) {
        Some(file) => std::fs::read(file)?,
        None => sample::BOND.to_vec(),
    };
    let image = Image::check(&bytes)?;
    println!("{image:?}");
    let (mut waiting, mut found) = ([0; Work::words(SLOTS)], [0; Results::words(SLOTS)]);
    let (mut work, mut results) = (Work::lend(&mut waiting), Results::lend(&mut found));
    let request = Request::default();
    let mut names = vec![NodeId(0); image.nodes() as usize];
    for &node in image.references(Visible::All, &mut names)? {
        match image.direct(Visible::All, node, &request, &mut work, &mut results) {
            Ok(told) => println!("reference {node}, paths: {}", told.paths),
            Err(refusal) => println!("reference {node}, refused: {refusal}"),
        }
        for path in results.paths() {
            let end = image.replay(node, path.edges())?.end;
            println!("  over {path} to node {end}");
        }
    }
    Ok(())
}
