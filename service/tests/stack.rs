//! The stack that each call takes is no more than `docs/FORMAT.md` and `README.md` say, on
//! small images and on the largest; and each call, accepted or refused, ends on a thread of
//! 512 KB, which is what they tell a caller to give. A thread's stack is painted before the
//! call, and what is no longer painted was used.

mod common;

use common::{definition, image_of, reference, scope, scoped_pop, scoped_reference, wide, Edge};
use common::{graph_a, versioned, Record};
use pozhdaghi::{
    Database, DatabaseMut, EdgeId, FileId, FlowKey, Former, Image, Moves, NodeId, PartialPathId,
    Request, Results, Visible, Window, Work, DATABASE_HEAD, FORMER_RECORD_WORDS, LONGEST_IMAGE,
    MOST_EDGES,
};
use std::ffi::c_void;
use std::ptr::null_mut;

const KB: usize = 1024;
const DOCUMENTED_THREAD: usize = 512 * KB;
const AMPLE: usize = 1024 * KB;
const PAINT: u128 = 0x5a5a_5a5a_5a5a_5a5a_5a5a_5a5a_5a5a_5a5a;
const SLOTS: usize = 80;
const RECORDS: usize = 512;

/// An image with up to so many nodes and edges counts as small; bytes that are none do not.
const FEW: u32 = 128;

/// Everything that calls are lent.
struct Lent {
    image: Vec<u8>,
    definition: NodeId,
    edges: Vec<EdgeId>,
    nodes: Vec<NodeId>,
    leaving: Vec<EdgeId>,
    area: Vec<u8>,
    work: Vec<u32>,
    results: Vec<u32>,
    words: Vec<u32>,
    list: Vec<u32>,
    old: Vec<u32>,
    window: Window,
    unrefused: bool,
}

const REFERENCE: NodeId = NodeId(2);
const FILE: FileId = FileId(0);
/// A directory of one row, that of the reference, and its key.
const ROW: &[u8] = b"US0378331005\0\x01\0\x01\0\x02";
const KEY: FlowKey = FlowKey {
    isin: b"US0378331005",
    tranche: 1,
    leg: 1,
};

type Search = fn(Image, Database, &mut Work, &mut Results) -> bool;

impl Lent {
    fn image(&self) -> Image<'_> {
        Image::unchecked(&self.image)
    }

    fn search(&mut self, call: Search) -> bool {
        let (image, database) = (Image::unchecked(&self.image), Database::lend(&self.words));
        let mut work = Work::lend(&mut self.work);
        call(
            image,
            database,
            &mut work,
            &mut Results::lend(&mut self.results),
        )
    }
}

const ASKED: Request = Request {
    order: pozhdaghi::Order::BreadthFirst,
    limits: pozhdaghi::Limits {
        length: None,
        paths: None,
        complete: None,
    },
};

/// A call; the KB of stack that are documented for a small image and for any; what it is.
/// Those that make a database stand before those that read it.
type Call = (&'static str, [usize; 2], fn(&mut Lent) -> bool);

const CALLS: [Call; 28] = [
    ("check", [177, 177], |lent| {
        Image::check(&lent.image).is_ok()
    }),
    ("fresh", [177, 177], |lent| {
        let image = Image::unchecked(&lent.image);
        DatabaseMut::lend(&mut lent.words).fresh(image).is_ok()
    }),
    ("replace_file", [8, 179], |lent| {
        let (image, mut work) = (Image::unchecked(&lent.image), Work::lend(&mut lent.work));
        let mut database = DatabaseMut::lend(&mut lent.words);
        database
            .replace_file(image, FILE, &ASKED, &mut work)
            .is_ok()
    }),
    ("replace_aliases", [8, 179], |lent| {
        let (image, mut work) = (Image::unchecked(&lent.image), Work::lend(&mut lent.work));
        let mut database = DatabaseMut::lend(&mut lent.words);
        database.replace_aliases(image, &ASKED, &mut work).is_ok()
    }),
    ("stitched", [226, 226], |lent| {
        lent.search(|image, words, work, to| {
            image
                .stitched(Visible::All, words, REFERENCE, &ASKED, work, to)
                .is_ok()
        })
    }),
    ("stitched_recorded", [226, 226], |lent| {
        lent.search(|image, words, work, to| {
            image
                .stitched_recorded(Visible::All, words, REFERENCE, &ASKED, work, to)
                .is_ok()
        })
    }),
    ("direct", [199, 199], |lent| {
        lent.search(|image, _, work, to| {
            image
                .direct(Visible::All, REFERENCE, &ASKED, work, to)
                .is_ok()
        })
    }),
    ("resolve_flow", [199, 199], |lent| {
        lent.search(|image, _, work, to| {
            image
                .resolve_flow(Visible::All, ROW, KEY, &ASKED, work, to)
                .is_ok()
        })
    }),
    ("direct_recorded", [199, 199], |lent| {
        lent.search(|image, _, work, to| {
            image
                .direct_recorded(Visible::All, REFERENCE, &ASKED, work, to)
                .is_ok()
        })
    }),
    ("linear", [26, 196], |lent| {
        lent.search(|image, _, _, to| image.linear(Visible::All, REFERENCE, &ASKED, to).is_ok())
    }),
    ("linear_recorded", [26, 196], |lent| {
        lent.search(|image, _, _, to| {
            image
                .linear_recorded(Visible::All, REFERENCE, &ASKED, to)
                .is_ok()
        })
    }),
    ("find_name", [186, 186], |lent| {
        let (image, mut work) = (Image::unchecked(&lent.image), Work::lend(&mut lent.work));
        let mut results = Results::lend(&mut lent.results);
        image
            .find_name(Visible::All, lent.definition, None, &mut work, &mut results)
            .is_ok()
    }),
    ("tally", [183, 183], |lent| {
        let (image, mut work) = (Image::unchecked(&lent.image), Work::lend(&mut lent.work));
        image.tally(Visible::All, REFERENCE, &mut work).is_ok()
    }),
    ("node", [177, 177], |lent| {
        lent.image().node(Visible::All, lent.definition).is_ok()
    }),
    ("edge", [183, 183], |lent| {
        lent.image().edge(Visible::All, EdgeId(0)).is_ok()
    }),
    ("references", [177, 177], |lent| {
        let image = Image::unchecked(&lent.image);
        image.references(Visible::All, &mut lent.nodes).is_ok()
    }),
    ("outgoing", [183, 183], |lent| {
        let image = Image::unchecked(&lent.image);
        image
            .outgoing(Visible::All, REFERENCE, &mut lent.leaving)
            .is_ok()
    }),
    ("replay", [195, 195], |lent| {
        lent.image().replay(REFERENCE, &lent.edges).is_ok()
    }),
    ("is_complete", [195, 195], |lent| {
        lent.image().is_complete(REFERENCE, &lent.edges).is_ok()
    }),
    ("shadows", [192, 192], |lent| {
        let path = (REFERENCE, &lent.edges[..]);
        lent.image().shadows(path, path).is_ok()
    }),
    ("widen", [183, 183], |lent| {
        Image::unchecked(&lent.image).widen(&mut lent.area).is_ok()
    }),
    ("narrow", [183, 183], |lent| {
        Image::unchecked(&lent.image).narrow(&mut lent.area).is_ok()
    }),
    ("lookup", [1, 1], |lent| {
        Database::lend(&lent.words)
            .lookup(PartialPathId(0))
            .is_some()
    }),
    ("convert", [1, 1], |lent| {
        let mut new = DatabaseMut::lend(&mut lent.words);
        Former::lend(&lent.old).convert(&mut new).is_ok()
    }),
    ("compact", [1, 1], |lent| {
        let mut moves = Moves::lend(&mut lent.list);
        DatabaseMut::lend(&mut lent.words)
            .compact(&mut moves)
            .is_ok()
    }),
    ("window_begin", [1, 1], |lent| {
        lent.window.begin();
        true
    }),
    ("window_enter", [1, 1], |lent| lent.window.enter(7).is_ok()),
    ("window_report", [1, 1], |lent| {
        lent.window.report().greatest == 7
    }),
];

/// `pthread_attr_t` has 56 bytes where the archive is for.
#[repr(C, align(8))]
struct Attributes([u8; 64]);

unsafe extern "C" {
    fn pthread_attr_init(attributes: *mut Attributes) -> i32;
    fn pthread_attr_setstack(attributes: *mut Attributes, stack: *mut c_void, size: usize) -> i32;
    fn pthread_create(
        thread: *mut usize,
        attributes: *const Attributes,
        run: extern "C" fn(*mut c_void) -> *mut c_void,
        with: *mut c_void,
    ) -> i32;
    fn pthread_join(thread: usize, result: *mut *mut c_void) -> i32;
}

/// What a thread is given, and where its stack was when it made the call.
struct Order<'a> {
    call: fn(&mut Lent) -> bool,
    lent: &'a mut Lent,
    called_from: usize,
}

extern "C" fn run(order: *mut c_void) -> *mut c_void {
    // SAFETY: it is the order of the one who waits for this thread.
    let order = unsafe { &mut *order.cast::<Order>() };
    let here = 0_u8;
    order.called_from = std::hint::black_box(&raw const here) as usize;
    order.lent.unrefused |= (order.call)(order.lent);
    null_mut()
}

/// How far below its caller a call wrote.
fn measured(stack: &mut [u128], call: fn(&mut Lent) -> bool, lent: &mut Lent) -> usize {
    stack.fill(PAINT);
    let lowest = stack.as_mut_ptr();
    let mut order = Order {
        call,
        lent,
        called_from: 0,
    };
    let (mut attributes, mut thread) = (Attributes([0; 64]), 0);
    // SAFETY: the stack and the order outlive the thread, which is waited for.
    let failed = unsafe {
        pthread_attr_init(&mut attributes) != 0
            || pthread_attr_setstack(&mut attributes, lowest.cast(), size_of_val(stack)) != 0
            || pthread_create(&mut thread, &attributes, run, (&raw mut order).cast()) != 0
            || pthread_join(thread, null_mut()) != 0
    };
    assert!(!failed, "no thread");
    let unused = stack.iter().take_while(|&&word| word == PAINT).count();
    order.called_from - (lowest as usize + unused * size_of::<u128>())
}

/// A reference, scopes in a row and a definition at the end: the longest path.
fn row(push: Record, pop: Record) -> (Vec<Record>, Vec<Edge>) {
    let mut nodes = vec![push];
    nodes.resize(MOST_EDGES, scope(false));
    nodes.push(pop);
    let edges = (0..MOST_EDGES as u16).map(|at| (2 + at, 3 + at, 0));
    (nodes, edges.collect())
}

/// The longest path in a graph of as many nodes and edges as there may be, in version 2 with
/// as many bytes: 1,792 nodes with symbols, 5 that drop scopes, and scopes.
fn largest(version: u8) -> Vec<u8> {
    const NODES: usize = 2_048;
    const EDGES: usize = 4_096;
    let (push, pop): (Record, fn() -> Record) = match version {
        1 => (reference(7), || definition(7)),
        _ => (wide::reference(7), || wide::definition(7)),
    };
    let (mut nodes, mut edges) = row(push, pop());
    let apart = 2 + nodes.len() as u16;
    nodes.extend((2..1_792).map(|_| pop()));
    nodes.extend(vec![vec![8, 0, 0]; 5]);
    nodes.resize(NODES - 2, scope(false));
    edges.resize(EDGES, (apart, apart + 1, 0));
    let edges: Vec<Record> = edges.iter().map(common::live).collect();
    versioned(version, 2, &nodes, &edges)
}

/// A scoped reference that jumps to a definition behind its scope.
fn jumps() -> Vec<u8> {
    let mut push = reference(8);
    *push.last_mut().expect("a flag") = 0;
    let nodes = [
        scoped_reference(7, 3),
        scope(true),
        scoped_pop(7),
        push,
        definition(8),
    ];
    let edges = [
        (2, 4, 0),
        (4, 5, 0),
        (5, 0, 0),
        (0, 1, 0),
        (0, 0, 0),
        (3, 6, 0),
    ];
    image_of(2, &nodes, &edges)
}

/// Images with a definition and the length of a path, and bytes that are none.
fn images() -> Vec<(Vec<u8>, u32, u32)> {
    let (nodes, edges) = row(reference(7), definition(7));
    let fan = image_of(2, &[reference(7), definition(7)], &vec![(2, 3, 0); 60]);
    let last = MOST_EDGES as u32;
    vec![
        (graph_a(), 4, 2),
        (fan, 3, 1),
        (image_of(2, &nodes, &edges), last + 2, last),
        (jumps(), 6, 4),
        (largest(1), last + 2, last),
        (largest(2), last + 2, last),
        (image_of(0, &[], &[]), 0, 0),
        (Vec::new(), 0, 1),
        (graph_a()[..76].to_vec(), 4, 2),
        (vec![0xff; LONGEST_IMAGE + 1], 4, 2),
    ]
}

fn lent((image, definition, length): (Vec<u8>, u32, u32)) -> Lent {
    let mut old = vec![0; DATABASE_HEAD + RECORDS * FORMER_RECORD_WORDS];
    old[..8].copy_from_slice(&[1, 6, 1, 1, 2, 3, 1, 5]);
    Lent {
        image,
        definition: NodeId(definition),
        edges: (0..length).map(EdgeId).collect(),
        nodes: vec![NodeId(0); RECORDS],
        leaving: vec![EdgeId(0); RECORDS],
        area: vec![0; LONGEST_IMAGE],
        work: vec![0; Work::words(SLOTS)],
        results: vec![0; Results::words(SLOTS)],
        words: vec![0; DatabaseMut::words(RECORDS)],
        list: vec![0; Moves::words(RECORDS)],
        old,
        window: Window::new(),
        unrefused: false,
    }
}

/// The greatest figures of a call over all images: small ones, and any; whether it was ever
/// not refused.
#[derive(Clone, Copy, Default)]
struct Figures {
    most: [usize; 2],
    unrefused: bool,
}

fn all_figures() -> [Figures; CALLS.len()] {
    let mut figures = [Figures::default(); CALLS.len()];
    let mut stack = vec![0; AMPLE / size_of::<u128>()];
    for drawn in images() {
        let mut lent = lent(drawn);
        let checked = Image::check(&lent.image);
        let is_small = checked.is_ok_and(|image| image.nodes() <= FEW && image.edges() <= FEW);
        for ((_, _, call), told) in CALLS.iter().zip(&mut figures) {
            lent.unrefused = false;
            let bytes = measured(&mut stack, *call, &mut lent);
            let most = &mut told.most[usize::from(!is_small)];
            *most = bytes.max(*most);
            told.unrefused |= lent.unrefused;
        }
    }
    figures
}

/// What a wrapper takes besides the library, unoptimized ones too; `docs/FORMAT.md` has the
/// rest.
const WRAPPER: usize = 2 * KB;

#[test]
fn no_more_than_documented() {
    for ((name, documented, _), told) in CALLS.iter().zip(all_figures()) {
        println!("{name:<20} {:>8} {:>8}", told.most[0], told.most[1]);
        for (kb, bytes) in documented.iter().zip(told.most) {
            assert!(bytes <= kb * KB + WRAPPER, "{name} takes {bytes} bytes");
        }
        assert!(told.unrefused, "{name} was always refused");
    }
}

#[test]
fn a_documented_thread_is_enough() {
    for drawn in images() {
        let mut lent = lent(drawn);
        for (name, _, call) in CALLS {
            let thread = std::thread::Builder::new().name(name.to_owned());
            let thread = thread.stack_size(DOCUMENTED_THREAD).spawn(move || {
                call(&mut lent);
                lent
            });
            lent = thread.expect("a thread").join().expect("it ends");
        }
    }
    assert_eq!(largest(2).len(), LONGEST_IMAGE);
}
