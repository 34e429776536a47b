//! Resolves a name, refiles the file that was amended, and resolves the name again.

use pozhdaghi::{sample, DatabaseMut, FileId, Image, NodeId, Refusal};
use pozhdaghi::{Request, Results, Visible, Work};

const SLOTS: usize = 16;
const COUPON: NodeId = NodeId(7);
const TERMS: FileId = FileId(0);

fn main() -> Result<(), Refusal> {
    let mut waiting = [0; Work::words(SLOTS)];
    let mut words = [0; DatabaseMut::words(SLOTS)];
    let (mut work, mut database) = (Work::lend(&mut waiting), DatabaseMut::lend(&mut words));
    let request = Request::default();

    let bond = Image::check(&sample::BOND)?;
    database.fresh(bond)?;
    for file in (0..bond.files()).map(FileId) {
        database.replace_file(bond, file, &request, &mut work)?;
    }
    resolve(bond, &database, &mut work)?;

    let amended = Image::check(&sample::AMENDED)?;
    database.replace_file(amended, TERMS, &request, &mut work)?;
    resolve(amended, &database, &mut work)
}

fn resolve(image: Image, database: &DatabaseMut, work: &mut Work) -> Result<(), Refusal> {
    let mut found = [0; Results::words(SLOTS)];
    let mut results = Results::lend(&mut found);
    let (filed, request) = (database.read(), Request::default());
    image.stitched(Visible::All, filed, COUPON, &request, work, &mut results)?;
    for path in results.paths() {
        println!(
            "node {COUPON} leads to node {}",
            image.replay(COUPON, path.edges())?.end
        );
    }
    Ok(())
}
