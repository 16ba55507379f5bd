// Brought into uncolored.rs by the one line added to it, since the debug contractor is private there. Nothing of the original is written
// anew here: each answer is what its functions give.

// A table: k-mers in ascending order, each with the word of its counters.
pub type Vertices = Vec<(u128, u32)>;

// What a contraction leaves: the labels in the order of their anchors, then the list, as labels and as the bytes of its file, and
// for each vertex in ascending order whether it is visited.
pub struct Contracted {
    pub labels: Vec<Vec<u8>>,
    pub list: Vec<Vec<u8>>,
    pub fasta: Vec<u8>,
    pub marks: Vec<u8>,
}

pub struct Graph<const K: usize>(DebugGlobalCanonicalGraph<K>);

// The word of counters, which only the debug text shows.
fn word_of(state: &VertexState) -> u32 {
    let text = format!("{state:?}");
    let from = text.find("packed: ").unwrap() + 8;
    text[from..].split(' ').next().unwrap().parse().unwrap()
}

// A vertex whose counters hold a word; they are raised one by one, since nothing sets them.
fn vertex_of(word: u32) -> VertexState {
    let mut state = VertexState::default();
    for bits in 0..4 {
        let base = [Base::A, Base::C, Base::G, Base::T][bits];
        for _ in 0..word >> (4 * bits) & 15 {
            state.update_edges(base, Base::E);
        }
        for _ in 0..word >> (16 + 4 * bits) & 15 {
            state.update_edges(Base::E, base);
        }
    }
    state
}

impl<const K: usize> Graph<K> {
    pub fn new(cutoff: u32) -> Self {
        Self(DebugGlobalCanonicalGraph::new(cutoff))
    }

    pub fn of(cutoff: u32, vertices: &Vertices) -> Self {
        let mut graph = Self::new(cutoff);
        for &(x, word) in vertices {
            graph.0.vertices.insert(Kmer::from_bits(x), vertex_of(word));
        }
        graph
    }

    // The edges of the label, or nothing where the original refuses it or panics.
    pub fn add(&mut self, label: &[u8]) -> Option<u64> {
        std::panic::catch_unwind(std::panic::AssertUnwindSafe(|| self.0.add_label(label).ok())).unwrap_or(None)
    }

    pub fn vertices(&self) -> Vertices {
        let mut vertices: Vertices = self.0.vertices.iter().map(|(x, state)| (x.as_u128(), word_of(state))).collect();
        vertices.sort_unstable();
        vertices
    }

    pub fn len(&self) -> usize {
        self.0.vertices.len()
    }

    // Nothing where a vertex is missing.
    pub fn contract(mut self, path: &Path) -> Option<Contracted> {
        let labels = self.0.contract().ok()?;
        let mut list = labels.clone();
        normalize_unitigs(&mut list);
        write_fasta(path, &list).unwrap();
        let fasta = std::fs::read(path).unwrap();
        let mut keys: Vec<_> = self.0.vertices.iter().collect();
        keys.sort_unstable_by_key(|(x, _)| **x);
        let marks = keys.iter().map(|(_, state)| state.is_visited() as u8).collect();
        Some(Contracted { labels, list, fasta, marks })
    }

    // The same, for a clock: the list alone.
    pub fn list(&mut self) -> Vec<Vec<u8>> {
        let mut list = self.0.contract().unwrap();
        normalize_unitigs(&mut list);
        list
    }
}
