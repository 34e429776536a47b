//! Writing what the given library returns as one line of text.

use crate::load::Symbol;
use cfglib::graph::stack::{
    StackGraphError, StackLinearResolutionError, StackPartialPath, StackPartialPathStats,
    StackPath, StackPathError, StackPathStep, StackResolution, StackScopedSymbol,
};
use std::fmt::Display;

/// The items with a separator between them, or `-` when there is none.
pub fn list<T: Display>(items: impl IntoIterator<Item = T>, separator: &str) -> String {
    let texts: Vec<String> = items.into_iter().map(|item| item.to_string()).collect();
    if texts.is_empty() {
        return "-".to_owned();
    }
    texts.join(separator)
}

/// Document 01's number of a path error, and the values it carries.
pub fn path_error(error: StackPathError) -> String {
    let (number, node) = match error {
        StackPathError::UnknownEdge(edge) => return format!("err 12 {}", edge.raw()),
        StackPathError::IncorrectSource { expected, actual } => {
            return format!("err 13 {} {}", expected.raw(), actual.raw());
        }
        StackPathError::UnknownNode(node) => (10, node),
        StackPathError::NotReference(node) => (11, node),
        StackPathError::EmptySymbolStack(node) => (14, node),
        StackPathError::IncorrectPoppedSymbol(node) => (15, node),
        StackPathError::UnexpectedAttachedScopes(node) => (16, node),
        StackPathError::MissingAttachedScopes(node) => (17, node),
        StackPathError::EmptyScopeStack(node) => (18, node),
        StackPathError::UnknownAttachedScope(node) => (19, node),
    };
    format!("err {number} {}", node.raw())
}

pub fn linear_error(error: StackLinearResolutionError) -> String {
    match error {
        StackLinearResolutionError::Path(error) => path_error(error),
        StackLinearResolutionError::MultipleEdges { node } => format!("err 20 {}", node.raw()),
    }
}

/// Computing partial paths can only meet an unknown file.
pub fn file_error(error: StackGraphError) -> String {
    match error {
        StackGraphError::UnknownFile(file) => format!("err 21 {}", file.raw()),
        other => panic!("unforeseen: {other}"),
    }
}

pub fn resolution(resolution: &StackResolution<Symbol>) -> String {
    let stats = resolution.stats();
    format!(
        "ok exp={} comp={} rej={} cyc={} fl={}{}{} paths={}",
        stats.expanded_path_count,
        stats.complete_path_count,
        stats.rejected_extension_count,
        stats.cycle_cut_count,
        u8::from(stats.path_length_limited),
        u8::from(stats.path_count_limited),
        u8::from(stats.complete_path_count_limited),
        list(resolution.paths().iter().map(path_edges), ";")
    )
}

fn path_edges(path: &StackPath<Symbol>) -> String {
    let edges = path.steps().iter().filter_map(|step| match step {
        StackPathStep::Edge(edge) => Some(edge.raw()),
        StackPathStep::Jump { .. } => None,
    });
    list(edges, ",")
}

pub fn partial_path_stats(stats: StackPartialPathStats) -> String {
    format!(
        "ok exp={} parts={} cyc={} fl={}{}",
        stats.expanded_path_count,
        stats.partial_path_count,
        stats.cycle_cut_count,
        u8::from(stats.path_length_limited),
        u8::from(stats.path_count_limited)
    )
}

/// file:start:end:edges
pub fn partial_path(path: &StackPartialPath) -> String {
    format!(
        "{}:{}:{}:{}",
        path.file().raw(),
        path.start().raw(),
        path.end().raw(),
        list(path.edges().iter().map(|edge| edge.raw()), ",")
    )
}

/// A replayed path with its steps and both stacks from bottom to top.
pub fn path(path: &StackPath<Symbol>) -> String {
    format!(
        "ok end={} len={} steps={} sym={} sco={}",
        path.end().raw(),
        path.len(),
        list(path.steps().iter().map(step), ","),
        list(path.symbol_stack().iter().map(scoped_symbol), ","),
        list(path.scope_stack().iter().map(|scope| scope.raw()), ",")
    )
}

fn step(step: &StackPathStep) -> String {
    match step {
        StackPathStep::Edge(edge) => edge.raw().to_string(),
        StackPathStep::Jump { source, target } => format!("j{}>{}", source.raw(), target.raw()),
    }
}

fn scoped_symbol(symbol: &StackScopedSymbol<Symbol>) -> String {
    match symbol.scopes() {
        None => symbol.symbol().to_string(),
        Some(scopes) => format!(
            "{}/{}",
            symbol.symbol(),
            list(scopes.iter().map(|scope| scope.raw()), ".")
        ),
    }
}
