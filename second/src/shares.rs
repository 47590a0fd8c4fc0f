//! A class's shares: units of 1/W tick for each interval and dose, by one greatest flow.

use crate::classes::Class;
use crate::flow::Network;
use crate::intervals::Intervals;
use crate::orders::Order;
use crate::random::Random;

/// Shares by interval, then by dose.
pub type Shares = Vec<Vec<u64>>;

/// Valid shares of a class; with a source of chance, some other valid ones. Also the chains pushed.
pub fn shares(order: &Order, spans: &Intervals, class: &Class, chance: Option<&mut Random>) -> (Option<Shares>, u64) {
    let (n, m) = (order.doses.len(), spans.count());
    let (source, sink) = (n + m, n + m + 1);
    let mut net = Network::new(n + m + 2, n * m + n + m);
    let mut cells = Vec::new();
    for k in (0..n).filter(|k| class.set >> k & 1 == 1) {
        cells.extend((0..m).filter(|&j| spans.active[j] >> k & 1 == 1 && class.reserved[j] > 0).map(|j| (k, j)));
    }
    let mut doses: Vec<usize> = (0..n).filter(|k| class.set >> k & 1 == 1).collect();
    if let Some(r) = chance {
        r.shuffle(&mut cells);
        r.shuffle(&mut doses);
    }
    let needs: u64 = doses.iter().map(|&k| u64::from(order.doses[k].grams) * class.time).sum();
    for k in doses {
        net.edge(source, k, u64::from(order.doses[k].grams) * class.time);
    }
    let edges: Vec<usize> = cells.iter().map(|&(k, j)| net.edge(k, n + j, spans.length(j) * class.weight)).collect();
    for j in 0..m {
        net.edge(n + j, sink, spans.length(j) * u64::from(class.reserved[j]) * class.weight);
    }
    if net.run(source, sink) != needs {
        return (None, net.chains);
    }
    let mut table = vec![vec![0; n]; m];
    for (&(k, j), e) in cells.iter().zip(edges) {
        table[j][k] = net.moved(e);
    }
    (Some(table), net.chains)
}
