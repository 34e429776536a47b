//! A replayed path as its caller reads it, and the words that the library writes
//! for it.

/// A step: an edge's number, or the scope that was jumped to.
#[derive(Clone, Copy, PartialEq, Eq, Debug)]
pub enum Passage {
    Edge(u32),
    Jump(u32),
}

/// Tops of stacks stand first.
pub struct Replayed {
    pub end: u32,
    pub steps: Vec<Passage>,
    /// Each symbol with the scopes attached to it, if it has any.
    pub symbols: Vec<(u64, Option<Vec<u32>>)>,
    pub scopes: Vec<u32>,
}

impl Replayed {
    /// The end, the steps, the symbols, the scopes. A number in front of each item
    /// says what it is, and a 0 ends each list. A symbol has two words, the high one
    /// first.
    pub fn words(&self) -> Vec<u32> {
        let mut words = vec![self.end];
        for &step in &self.steps {
            words.extend(match step {
                Passage::Edge(edge) => [1, edge],
                Passage::Jump(scope) => [2, scope],
            });
        }
        words.push(0);
        for (symbol, attached) in &self.symbols {
            let (high, low) = ((symbol >> 32) as u32, *symbol as u32);
            words.extend([1 + u32::from(attached.is_some()), high, low]);
            if let Some(scopes) = attached {
                put_scopes(&mut words, scopes);
            }
        }
        words.push(0);
        put_scopes(&mut words, &self.scopes);
        words
    }
}

fn put_scopes(words: &mut Vec<u32>, scopes: &[u32]) {
    words.extend(scopes.iter().flat_map(|&scope| [1, scope]));
    words.push(0);
}
