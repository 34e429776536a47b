//! What a run counted, and a difference shown whole.

use crate::budget::{Asked, Slots};
use crate::case::{Call, Case, Outcome};
use crate::check::check;
use crate::comparison::{Compared, compare};
use crate::database::{has_aliases, lookup, partial_paths};
use crate::desks;
use crate::graph::{Graph, Version};
use crate::names::{Named, find_name};
use crate::path::replay;
use crate::replayed::Passage;
use crate::search::direct;
use crate::second::lent;
use std::collections::BTreeMap;

#[derive(Default)]
pub struct Counts {
    pub cases: u64,
    pub differences: u64,
    /// Cases with an answer that the given library has too.
    given: u64,
    /// Per call and number of the answer.
    numbers: BTreeMap<Call, BTreeMap<u64, u64>>,
    /// Numbers in the lists of readers.
    listed: u64,
    /// Lookups that hand back an empty part.
    empty_parts: u64,
    paths: u64,
    /// Accepted images of version 2, and cases put to both versions.
    wide: u64,
    turned: u64,
    flags: [u64; 3],
    /// Names: all, and those of a reference behind others, those of a shadowed path.
    names: [u64; 3],
    /// Lists in tallies, and tallies of lists of more than one length.
    tallied: [u64; 2],
    /// Cash flows with no definition, with one, with several.
    flows: [u64; 3],
    /// Cases with slots that belong to no file.
    aliases: u64,
    /// Stitched searches whose recorded sets were compared with those of direct search:
    /// over databases without the set that belongs to no file, and with it; those with
    /// recorded paths over its edges, likewise.
    agreements: [[u64; 2]; 2],
    /// Conversions: live paths that stay, and areas with dead slots between them.
    converted: [u64; 2],
    /// Compactions that drop slots: live ones that stay, dead ones that go; stitched
    /// searches put to the compacted words as well.
    compacted: [u64; 2],
    kept: u64,
    /// Searches that hide a file, those of them that the given Rust answered too, and
    /// searches put to another graph with the same visible records.
    hiding: [u64; 2],
    apart: u64,
    /// Direct searches that pass over an edge which the path rules would reject.
    spared: u64,
    /// Replayed paths: all, and those with jumps, symbols, attached scopes, scopes.
    replayed: [u64; 5],
}

impl Counts {
    pub fn add(&mut self, case: &Case, compared: &Compared) {
        self.cases += 1;
        self.differences += u64::from(compared.differs());
        self.given += u64::from(compared.given.is_some());
        self.wide += u64::from(is_wide(case));
        self.turned += u64::from(compared.turned.is_some());
        // an old area has slots of another size
        let is_present = case.call != Call::Convert;
        self.aliases += u64::from(is_present && has_aliases(&case.words));
        if let Some(found) = compared.agreement {
            let [all, over] = &mut self.agreements[usize::from(found.with_aliases)];
            *all += 1;
            *over += u64::from(found.over_aliases);
        }
        *self
            .numbers
            .entry(case.call)
            .or_default()
            .entry(compared.number)
            .or_default() += 1;
        let is_empty_part = case.call == Call::Lookup && lookup(&case.words, case.number).1 == 0;
        self.empty_parts += u64::from(is_empty_part);
        self.kept += u64::from(compared.is_kept.is_some());
        let hides = |graph: Graph| desks::hides_some(&case.visible, &graph);
        let is_hiding = case.call.takes_set() && check(&case.image).is_ok_and(hides);
        self.hiding[0] += u64::from(is_hiding);
        self.hiding[1] += u64::from(is_hiding && compared.given.is_some());
        self.apart += u64::from(compared.is_apart.is_some());
        self.spared += u64::from(compared.number == 0 && desks::spares_rejections(case));
        self.add_what_was_made(case, compared);
    }

    /// Paths, names and words that the call handed back.
    fn add_what_was_made(&mut self, case: &Case, compared: &Compared) {
        match (case.call, compared.number) {
            (Call::Compact, _) => self.add_compacted(case, &compared.second.words),
            (Call::Convert, _) => self.add_converted(&compared.second.result),
            (Call::Replay, 0) => self.add_replayed(case),
            (Call::FindName, 0) => self.add_name(case),
            (Call::Tally, 0) => self.add_tally(&compared.second.answer),
            (Call::ResolveFlow, 0) => self.add_flow(&compared.second.answer),
            (call, 0) if call.is_list() => {
                self.listed += compared.second.answer.get(1).unwrap_or(&0)
            }
            (_, 0) if !case.result.is_empty() => self.add_found(compared),
            _ => {}
        }
    }

    fn add_found(&mut self, compared: &Compared) {
        if let [_, paths, _, _, _, _, flags @ ..] = &compared.second.answer[..] {
            self.paths += paths;
            for (count, flag) in self.flags.iter_mut().zip(flags) {
                *count += flag;
            }
        }
    }

    /// A refused one leaves no words.
    fn add_converted(&mut self, new: &[u32]) {
        if new.first().is_none_or(|&used| used == 0) {
            return;
        }
        let paths = partial_paths(new);
        let live = paths.iter().flatten().count();
        self.converted[0] += live as u64;
        self.converted[1] += u64::from(live < paths.len());
    }

    /// A refused one drops nothing.
    fn add_compacted(&mut self, case: &Case, new: &[u32]) {
        if let (Some(&used), Some(&live)) = (case.words.first(), new.first())
            && live < used
        {
            self.compacted[0] += u64::from(live);
            self.compacted[1] += u64::from(used - live);
        }
    }

    fn add_name(&mut self, case: &Case) {
        let (graph, asked) = (desks::seen_by(case), case.meaning());
        let graph = graph.expect("it was searched");
        let Ok(Named {
            name: Some((reference, path)),
            ..
        }) = find_name(&graph, case.number, asked.length, lent(case))
        else {
            return;
        };
        let asked = Asked {
            depth_first: false,
            count: None,
            complete: None,
            ..asked
        };
        let found = direct(&graph, reference, asked, Slots::ENDLESS);
        let is_returned = found.is_ok_and(|found| found.returned().contains(&path));
        let has = [
            true,
            graph.references().first() != Some(&reference),
            !is_returned,
        ];
        for (count, has) in self.names.iter_mut().zip(has) {
            *count += u64::from(has);
        }
    }

    fn add_tally(&mut self, answer: &[u64]) {
        self.tallied[0] += answer.iter().sum::<u64>();
        let lengths = answer.iter().filter(|&&number| number > 0).count();
        self.tallied[1] += u64::from(lengths > 1);
    }

    fn add_flow(&mut self, answer: &[u64]) {
        if let Some(&definitions) = answer.get(10) {
            self.flows[definitions as usize] += 1;
        }
    }

    fn add_replayed(&mut self, case: &Case) {
        let graph = check(&case.image).expect("it was replayed");
        let path = replay(&graph, case.number, &case.edges).expect("it was replayed");
        let path = path.replayed();
        let is_jump = |step: &Passage| matches!(step, Passage::Jump(_));
        let has = [
            true,
            path.steps.iter().any(is_jump),
            !path.symbols.is_empty(),
            path.symbols.iter().any(|(_, scopes)| scopes.is_some()),
            !path.scopes.is_empty(),
        ];
        for (count, has) in self.replayed.iter_mut().zip(has) {
            *count += u64::from(has);
        }
    }

    pub fn print(&self) {
        for (call, numbers) in &self.numbers {
            let told: Vec<String> = numbers
                .iter()
                .map(|(number, count)| format!("{number}: {count}"))
                .collect();
            println!(
                "{call:?} {}: {}",
                numbers.values().sum::<u64>(),
                told.join(", ")
            );
        }
        self.print_made();
        self.print_agreements();
        self.print_desks();
        let [length, count, complete] = self.flags;
        println!("flags: length {length}, path count {count}, complete paths {complete}");
        println!(
            "cases {}, of these also put to the given Rust {}",
            self.cases, self.given
        );
        println!("differences {}", self.differences);
    }

    fn print_made(&self) {
        println!("lookups with an empty part {}", self.empty_parts);
        println!("paths in result slots {}", self.paths);
        println!("nodes and edges listed {}", self.listed);
        let [names, behind, shadowed] = self.names;
        println!(
            "names found {names}: of a reference behind others {behind}, of a shadowed path {shadowed}"
        );
        let [lists, lengths] = self.tallied;
        println!("lists in tallies {lists}, tallies of more than one length {lengths}");
        let [none, one, several] = self.flows;
        println!("cash flows with no definition {none}, with one {one}, with several {several}");
        let [replayed, jumps, symbols, attached, scopes] = self.replayed;
        println!(
            "replayed paths {replayed}: with jumps {jumps}, with symbols {symbols}, \
             with attached scopes {attached}, with scopes {scopes}"
        );
        println!(
            "accepted images of version 2 {}, calls put to both versions {}",
            self.wide, self.turned
        );
        let [live, areas] = self.converted;
        println!("live paths converted {live}, areas with dead slots {areas}");
        let [live, dead] = self.compacted;
        println!(
            "live slots compacted {live}, dead ones dropped {dead}; stitched searches also put to \
             compacted words {}",
            self.kept
        );
    }

    fn print_desks(&self) {
        let [hiding, given] = self.hiding;
        println!(
            "calls that hide a file {hiding}, of these also put to the given Rust {given}; \
             calls also put to a graph with other hidden records {}; direct searches that \
             pass over an edge which the path rules would reject {}",
            self.apart, self.spared
        );
    }

    fn print_agreements(&self) {
        let [[without, missed], [with, over]] = self.agreements;
        println!(
            "databases with slots that belong to no file {}; recorded sets compared with those \
             of direct search {without} without such slots, {missed} of them missing paths over \
             edges of no file, {with} with all of them, {over} of them with such paths",
            self.aliases
        );
    }
}

fn is_wide(case: &Case) -> bool {
    check(&case.image).is_ok_and(|graph| graph.version == Version::Wide)
}

/// The input of a case, as far as its call takes it, and every answer to it.
pub fn show(case: &Case) {
    println!("call {:?}", case.call);
    println!("image {}", hex(&case.image));
    if let Ok(graph) = check(&case.image) {
        println!("  files {}", graph.files);
        for (number, node) in graph.nodes.iter().enumerate() {
            println!("  node {number} {node:?}");
        }
        for (number, edge) in graph.edges.iter().enumerate() {
            println!("  edge {number} {edge:?}");
        }
    }
    if case.call.takes_set() {
        println!("visible {}", hex(&case.visible));
    }
    println!("number {}, edges {:?}", case.number, case.edges);
    if case.call == Call::Shadows {
        println!(
            "right number {}, edges {:?}",
            case.right_number, case.right_edges
        );
    }
    println!("asked {:?}: {:?}", case.asked, case.meaning());
    println!("database {}", sparse(&case.words));
    println!(
        "work {} words, result {} words, area {} bytes",
        case.work.len(),
        case.result.len(),
        case.area.len()
    );
    show_answers(case);
}

fn show_answers(case: &Case) {
    let Some(compared) = compare(case) else {
        return;
    };
    show_outcome("ours", case, &compared.ours);
    show_outcome("second implementation", case, &compared.second);
    match compared.given {
        None => println!("given Rust: does not have this"),
        Some(None) => println!("given Rust: panicked"),
        Some(Some(given)) => show_outcome("given Rust", case, &given),
    }
    if let Some(turned) = compared.turned {
        show_outcome("ours on the other version", case, &turned);
    }
    if compared.agreement.is_some_and(|found| !found.holds) {
        println!("direct and stitched search record other sets");
    }
    if compared.is_apart == Some(false) {
        println!("another answer where what it hides is another");
    }
    if compared.is_kept == Some(false) {
        println!("another answer on the compacted words");
    }
    if !compared.is_undone {
        println!("rewritten back it is not the image given");
    }
}

/// Words that are as they must be after most calls are left out.
fn show_outcome(name: &str, case: &Case, outcome: &Outcome) {
    println!("{name}: answer {:?}", outcome.answer);
    println!("  result {}", sparse(&outcome.result));
    if !outcome.area.is_empty() {
        println!("  area {}", hex(&outcome.area));
    }
    if outcome.work.iter().any(|&word| word != 0) {
        println!("  work {}", sparse(&outcome.work));
    }
    if outcome.words != case.words {
        println!("  database {}", sparse(&outcome.words));
    }
}

fn hex(bytes: &[u8]) -> String {
    bytes.iter().map(|byte| format!("{byte:02x}")).collect()
}

/// How many words there are, and those that are not 0 with their places.
fn sparse(words: &[u32]) -> String {
    let told: Vec<String> = words
        .iter()
        .enumerate()
        .filter(|&(_, &word)| word != 0)
        .map(|(at, word)| format!("{at}:{word}"))
        .collect();
    format!("{} [{}]", words.len(), told.join(" "))
}
