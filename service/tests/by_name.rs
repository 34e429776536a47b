//! Every refusal arrives by its name and values, through the package's types, on a thread
//! with the stack that is documented.

mod common;

use common::{chain, definition, graph_a, graph_b, image, reference, scope, scoped_definition};
use common::{scoped_reference, slots, wide, Record};
use pozhdaghi::{
    DatabaseMut, EdgeId, FileId, Former, Image, Limits, Moves, NodeId, Order, Refusal, Request,
    Results, Visible, Work, DATABASE_HEAD, FORMER_RECORD_WORDS, MOST_EDGES,
};

const DOCUMENTED_THREAD: usize = 512 * 1024;
const REFERENCE: NodeId = NodeId(2);

/// What a call is refused with, on a thread of its own.
fn refused<T: Send + 'static>(
    call: impl FnOnce() -> Result<T, Refusal> + Send + 'static,
) -> Option<Refusal> {
    let thread = std::thread::Builder::new().stack_size(DOCUMENTED_THREAD);
    let thread = thread.spawn(move || call().err()).expect("a thread");
    thread.join().expect("it ends")
}

fn replayed(bytes: Vec<u8>, edges: &[u32]) -> Option<Refusal> {
    let edges: Vec<EdgeId> = edges.iter().copied().map(EdgeId).collect();
    refused(move || Image::check(&bytes)?.replay(REFERENCE, &edges))
}

/// A direct search in so many waiting and result slots.
fn searched(bytes: Vec<u8>, node: u32, request: Request, lent: [usize; 2]) -> Option<Refusal> {
    refused(move || {
        let [mut waiting, mut found] = lent.map(slots);
        let (mut work, mut results) = (Work::lend(&mut waiting), Results::lend(&mut found));
        let image = Image::check(&bytes)?;
        image.direct(
            Visible::All,
            NodeId(node),
            &request,
            &mut work,
            &mut results,
        )
    })
}

/// File 0 of graph A replaced in so many records of a database.
fn replaced(file: u32, records: usize) -> Option<Refusal> {
    refused(move || {
        let (mut waiting, mut words) = (slots(8), vec![7; DatabaseMut::words(records)]);
        let bytes = graph_a();
        let image = Image::check(&bytes)?;
        let mut database = DatabaseMut::lend(&mut words);
        database.fresh(image)?;
        let (request, mut work) = (Request::default(), Work::lend(&mut waiting));
        database.replace_file(image, FileId(file), &request, &mut work)
    })
}

/// Graph A searched over these words.
fn stitched(words: Vec<u32>) -> Option<Refusal> {
    refused(move || {
        let (mut waiting, mut found) = (slots(8), slots(8));
        let (mut work, mut results) = (Work::lend(&mut waiting), Results::lend(&mut found));
        let (bytes, words) = (graph_a(), pozhdaghi::Database::lend(&words));
        let (image, request) = (Image::check(&bytes)?, Request::default());
        image.stitched(
            Visible::All,
            words,
            REFERENCE,
            &request,
            &mut work,
            &mut results,
        )
    })
}

/// Graph A with a byte changed.
fn changed(place: usize, byte: u8) -> Vec<u8> {
    let mut bytes = graph_a();
    bytes[place] = byte;
    bytes
}

fn checked(bytes: Vec<u8>) -> Option<Refusal> {
    refused(move || Image::check(&bytes).map(|_| ()))
}

#[test]
fn of_images() {
    assert_eq!(checked(changed(0, 3)), Some(Refusal::Version));
    assert_eq!(checked(Vec::new()), Some(Refusal::Length));
    assert_eq!(checked(changed(5, 1)), Some(Refusal::Counts));
    assert_eq!(checked(changed(12, 3)), Some(Refusal::Record { place: 11 }));
    assert_eq!(
        checked(changed(50, 1)),
        Some(Refusal::Reference { place: 47 })
    );
    let widened = refused(|| Image::check(&graph_a())?.widen(&mut [0; 88]).map(|_| ()));
    assert_eq!(widened, Some(Refusal::NoResultSlot));
    let wide = wide::image(&[wide::reference(1 << 32)], &[]);
    let narrowed = refused(move || Image::check(&wide)?.narrow(&mut [0; 99]).map(|_| ()));
    assert_eq!(narrowed, Some(Refusal::WideSymbol { place: 15 }));
}

#[test]
fn of_lists_that_are_no_path() {
    let source = Refusal::IncorrectSource {
        expected: REFERENCE,
        actual: NodeId(3),
    };
    let row: Vec<u32> = (0..=MOST_EDGES as u32).collect();
    for (bytes, edges, wanted) in [
        (graph_a(), &[9][..], Refusal::UnknownEdge(EdgeId(9))),
        (graph_a(), &[1], source),
        (chain(MOST_EDGES as u16 + 1), &row, Refusal::TooLong),
    ] {
        assert_eq!(replayed(bytes, edges), Some(wanted));
    }
}

/// Nodes that take a symbol or a scope which is not there.
#[test]
fn of_stacks() {
    let pair = |push: Record, pop: Record| image(&[push, scope(true), pop], &[(2, 4, 0)]);
    let twice = [reference(7), definition(7), definition(7)];
    let twice = image(&twice, &[(2, 3, 0), (3, 4, 0)]);
    let scoped = pair(scoped_reference(7, 3), definition(7));
    let unscoped = pair(reference(7), scoped_definition(7));
    let jump = image(&[reference(7)], &[(2, 1, 0)]);
    let at = NodeId;
    for (bytes, edges, wanted) in [
        (twice, &[0, 1][..], Refusal::EmptySymbolStack(at(4))),
        (graph_a(), &[0, 2], Refusal::IncorrectPoppedSymbol(at(5))),
        (scoped, &[0], Refusal::UnexpectedAttachedScopes(at(4))),
        (unscoped, &[0], Refusal::MissingAttachedScopes(at(4))),
        (jump, &[0], Refusal::EmptyScopeStack(at(1))),
    ] {
        assert_eq!(replayed(bytes, edges), Some(wanted));
    }
}

#[test]
fn of_searches() {
    let all = Request::default();
    for (node, lent, wanted) in [
        (9, [8, 8], Refusal::UnknownNode(NodeId(9))),
        (3, [8, 8], Refusal::NotReference(NodeId(3))),
        (2, [0, 8], Refusal::NoWaitingSlot),
        (2, [8, 0], Refusal::NoResultSlot),
    ] {
        assert_eq!(searched(graph_a(), node, all, lent), Some(wanted));
    }
    let linear = refused(|| {
        let (mut found, bytes) = (slots(8), graph_b());
        let (image, mut results) = (Image::check(&bytes)?, Results::lend(&mut found));
        image.linear(Visible::All, REFERENCE, &Request::default(), &mut results)
    });
    assert_eq!(linear, Some(Refusal::MultipleEdges(REFERENCE)));
    let named = refused(|| {
        let (mut waiting, mut found, bytes) = (slots(8), slots(8), graph_a());
        let (mut work, mut results) = (Work::lend(&mut waiting), Results::lend(&mut found));
        let image = Image::check(&bytes)?;
        image.find_name(Visible::All, REFERENCE, None, &mut work, &mut results)
    });
    assert_eq!(named, Some(Refusal::NotDefinition(REFERENCE)));
}

/// A row of double edges, which doubles the paths at each scope.
#[test]
fn of_a_search_without_end() {
    let doubled = |source| [(source, source + 1, 0); 2];
    let edges: Vec<_> = (2..26).flat_map(doubled).collect();
    let mut nodes = vec![reference(7)];
    nodes.resize(25, scope(false));
    let request = Request {
        order: Order::DepthFirst,
        limits: Limits::default(),
    };
    let told = searched(image(&nodes, &edges), 2, request, [32, 1]);
    assert_eq!(told, Some(Refusal::TooManyExpansions));
}

#[test]
fn of_databases() {
    assert_eq!(replaced(1, 8), Some(Refusal::UnknownFile(FileId(1))));
    assert_eq!(replaced(0, 4), Some(Refusal::Full));
    assert_eq!(stitched(vec![0, 7, 1]), Some(Refusal::Outgrown));
    assert_eq!(stitched(vec![9, 6, 1]), Some(Refusal::Malformed));
    let compacted = refused(|| {
        let mut words = common::filed(&graph_a());
        DatabaseMut::lend(&mut words).compact(&mut Moves::lend(&mut [0; 9]))
    });
    assert_eq!(compacted, Some(Refusal::NoResultSlot));
    let converted = refused(|| {
        let mut old = [0; DATABASE_HEAD + FORMER_RECORD_WORDS];
        old[..7].copy_from_slice(&[1, 6, 1, 1, 2, 3, 1 + MOST_EDGES as u32]);
        let mut words = [0; DatabaseMut::words(1)];
        Former::lend(&old).convert(&mut DatabaseMut::lend(&mut words))
    });
    assert_eq!(converted, Some(Refusal::TooLongToConvert));
}
