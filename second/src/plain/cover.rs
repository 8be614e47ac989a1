//! Compatibility, the clique cover of document 001 (its algorithm 2), and the merge at a height.

use super::function::{Columns, Function, FREE};

/// The numbers of its columns, as they joined.
pub type Clique = Vec<usize>;

/// "Two columns are compatible if no place holds 0 in one and 1 in the other."
pub fn compatible(one: &[u8], other: &[u8]) -> bool {
    one.iter()
        .zip(other)
        .all(|(&a, &b)| a == b || a == FREE || b == FREE)
}

/// The compatibility of every pair of different columns, looking at the first `places` of each.
fn edges(columns: &Columns, places: usize) -> Vec<Vec<bool>> {
    let tables = &columns.tables;
    (0..tables.len())
        .map(|a| {
            (0..tables.len())
                .map(|b| a != b && compatible(&tables[a][..places], &tables[b][..places]))
                .collect()
        })
        .collect()
}

/// The cliques of columns, given which pairs are compatible.
pub fn cover(edge: &[Vec<bool>]) -> Vec<Clique> {
    let mut cliques = Vec::new();
    let mut left: Vec<usize> = (0..edge.len()).collect();
    while !left.is_empty() {
        // "Edges are counted among the columns left when a round begins."
        let mut edges = vec![0; edge.len()];
        for &column in &left {
            edges[column] = left.iter().filter(|&&other| edge[column][other]).count();
        }
        // "The column with fewest edges opens a clique; its compatible columns are candidates."
        let opening = fewest(&left, &edges);
        let mut clique = vec![opening];
        let mut candidates = left.clone();
        candidates.retain(|&c| c != opening && edge[opening][c]);
        // "Repeatedly the candidate with fewest edges joins, and it and those incompatible with it
        // stop being candidates."
        while !candidates.is_empty() {
            let joining = fewest(&candidates, &edges);
            clique.push(joining);
            candidates.retain(|&c| c != joining && edge[joining][c]);
        }
        // "When no candidate remains the clique leaves and the next round begins."
        left.retain(|column| !clique.contains(column));
        cliques.push(clique);
    }
    cliques
}

/// The column with fewest edges among `columns`, which rise and are not none. "Ties take the lowest
/// column number."
fn fewest(columns: &[usize], edges: &[usize]) -> usize {
    let mut best = columns[0];
    for &column in columns {
        if edges[column] < edges[best] {
            best = column;
        }
    }
    best
}

/// A clique's product: "0 or 1 where any member has it, else d".
fn product(columns: &Columns, clique: &[usize]) -> Vec<u8> {
    let mut product = columns.tables[clique[0]].clone();
    for &member in &clique[1..] {
        for (value, &other) in product.iter_mut().zip(&columns.tables[member]) {
            if *value == FREE {
                *value = other;
            }
        }
    }
    product
}

/// The merge at a height, of the function as it stands. With `next_output_only` compatibility is
/// tested on the topmost output of the columns alone, which is a mistake: see `Mistake`. Answers the
/// cliques.
pub fn merge(function: &mut Function, height: usize, next_output_only: bool) -> Vec<Clique> {
    let columns = function.columns(height);
    let whole = columns.tables[0].len();
    let outputs = function.outputs_between(height, 0);
    let places = if next_output_only && outputs > 0 {
        whole / outputs
    } else {
        whole
    };
    let cliques = cover(&edges(&columns, places));
    // "Every prefix of a clique then takes its product."
    for clique in &cliques {
        let product = product(&columns, clique);
        for prefix in 0..function.prefixes(height) {
            if clique.contains(&columns.of_prefix[prefix]) {
                function.replace_column(height, prefix, &product);
            }
        }
    }
    cliques
}
