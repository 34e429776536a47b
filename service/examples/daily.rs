//! The day of a service on the bond of the guide: its image is checked and filed, names are
//! resolved, the terms are amended and refiled, the database fills and is compacted, and the
//! waiting figure says what to lend. Every refusal is printed with what to do about it.

use pozhdaghi::{sample, DatabaseMut, FileId, Image, Moves, NodeId, Refusal};
use pozhdaghi::{Request, Results, Visible, Work};

const TERMS: FileId = FileId(0);
const DESK: FileId = FileId(1);
const COUPON: NodeId = NodeId(7);
const CALL: NodeId = NodeId(9);
const NEW_COUPON: NodeId = NodeId(11);

/// More slots than are needed, to begin with.
const AMPLE: usize = 16;
/// Room for two days of the bond's seven partial paths.
const RECORDS: usize = 14;
/// Room for the old and the new paths of the desk, not of the terms.
const TIGHT_RECORDS: usize = 10;

/// What a service keeps: the words of its database and of its areas.
struct Service {
    words: Vec<u32>,
    work: Vec<u32>,
    results: Vec<u32>,
}

impl Service {
    fn new(records: usize) -> Self {
        Self {
            words: vec![0; DatabaseMut::words(records)],
            work: vec![0; Work::words(AMPLE)],
            results: vec![0; Results::words(AMPLE)],
        }
    }

    /// A name resolved in so many waiting slots; how many of them it needs.
    fn resolve(&mut self, image: Image, name: NodeId, slots: usize) -> Option<usize> {
        let mut work = Work::lend_slots(&mut self.work, slots);
        let mut results = Results::lend(&mut self.results);
        let database = DatabaseMut::lend(&mut self.words);
        let (filed, request) = (database.read(), Request::default());
        let told = image.stitched(Visible::All, filed, name, &request, &mut work, &mut results);
        print!("{slots} slots, name {name}: ");
        let found = told.map_err(|refusal| println!("{refusal}")).ok()?;
        let counted = found.statistics;
        println!(
            "{} returned, {} complete, {} waited together",
            found.paths, counted.complete, counted.waited
        );
        for path in results.paths() {
            let end = image.replay(name, path.edges()).map(|path| path.end).ok()?;
            println!("  over {path} to node {end}");
        }
        Some(counted.waited as usize)
    }

    /// A file's partial paths computed anew.
    fn replace(&mut self, image: Image, file: FileId) -> Result<(), Refusal> {
        let mut database = DatabaseMut::lend(&mut self.words);
        let mut work = Work::lend(&mut self.work);
        let told = database.replace_file(image, file, &Request::default(), &mut work);
        print!("file {file}, {} records used: ", database.read().used());
        match &told {
            Ok(told) => println!("{} found, {} waited together", told.found, told.waited),
            Err(refusal) => println!("{refusal}"),
        }
        told.map(|_| ())
    }

    /// The dead records dropped. Whoever keeps numbers of partial paths puts the new ones in
    /// the place of the old ones.
    fn compact(&mut self) -> Result<(), Refusal> {
        let mut database = DatabaseMut::lend(&mut self.words);
        let mut list = vec![0; Moves::words(database.read().used())];
        let mut moves = Moves::lend(&mut list);
        let live = database.compact(&mut moves)?;
        print!("compacted, {live} live, old and new numbers:");
        moves.pairs().for_each(|(old, new)| print!(" {old}-{new}"));
        println!();
        Ok(())
    }

    /// What a service does each day: a full database is compacted and the replacement made
    /// again.
    fn refile(&mut self, image: Image, file: FileId) -> Result<(), Refusal> {
        match self.replace(image, file) {
            Err(Refusal::Full) => {
                self.compact()?;
                self.replace(image, file)
            }
            told => told,
        }
    }

    fn file_all(&mut self, image: Image) -> Result<(), Refusal> {
        DatabaseMut::lend(&mut self.words).fresh(image)?;
        self.refile(image, TERMS)?;
        self.refile(image, DESK)
    }
}

fn morning(service: &mut Service, bond: Image) -> Result<(), Refusal> {
    println!("day 1, the bond comes in: {bond:?}");
    service.file_all(bond)?;
    let waited = service.resolve(bond, COUPON, AMPLE).unwrap_or(AMPLE);
    service.resolve(bond, COUPON, waited);
    service.resolve(bond, COUPON, waited.saturating_sub(1));
    service.resolve(bond, CALL, waited);
    Ok(())
}

/// Until the amended file is replaced, the database does not belong to the image. Here that
/// is noticed, as an edge is gone; nothing else would tell.
fn amendment(service: &mut Service, amended: Image) -> Result<(), Refusal> {
    println!("its terms are amended: {amended:?}");
    service.resolve(amended, COUPON, AMPLE);
    service.refile(amended, TERMS)?;
    service.refile(amended, DESK)?;
    let waited = service.resolve(amended, COUPON, AMPLE).unwrap_or(AMPLE);
    service.resolve(amended, COUPON, waited);
    service.resolve(amended, CALL, waited);
    let mut work = Work::lend(&mut service.work);
    let mut results = Results::lend(&mut service.results);
    let name = amended.find_name(Visible::All, NEW_COUPON, None, &mut work, &mut results)?;
    if let Some(name) = name {
        println!(
            "the new coupon has the name {name}, over {}",
            listed(&results)
        );
    }
    Ok(())
}

fn listed(results: &Results) -> String {
    let lists: Vec<String> = results.paths().map(|path| path.to_string()).collect();
    lists.join("; ")
}

fn main() -> Result<(), Refusal> {
    let (bond, amended) = (
        Image::check(&sample::BOND)?,
        Image::check(&sample::AMENDED)?,
    );
    let mut service = Service::new(RECORDS);
    morning(&mut service, bond)?;
    amendment(&mut service, amended)?;
    for day in 2..=3 {
        println!("day {day}");
        service.refile(amended, TERMS)?;
        service.refile(amended, DESK)?;
        service.resolve(amended, COUPON, AMPLE);
    }
    println!("where old and new records of a file do not fit together");
    let mut tight = Service::new(TIGHT_RECORDS);
    tight.file_all(amended)?;
    tight.refile(amended, DESK)?;
    if tight.refile(amended, TERMS) == Err(Refusal::Full) {
        println!("full directly after a compaction: more words have to be lent");
    }
    Ok(())
}
