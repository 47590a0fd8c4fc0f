//! Lent buffers with canaries on both sides, and a peer's entry points asked with such buffers.

use crate::library::{Drawn, Laid, Peer, Planned, Season};
use crate::orders::RECORD;
use crate::random::Random;

pub struct Lent {
    all: Vec<u8>,
    before: Vec<u8>,
    from: usize,
    len: usize,
}

impl Lent {
    /// A copy of these bytes between two stretches of noise, at any alignment; now and then alone in its memory, so that a memory checker
    /// sees a byte read beside it.
    pub fn new(bytes: &[u8], r: &mut Random) -> Lent {
        let (left, right) = if r.once_in(4) { (0, 0) } else { (r.range(48, 64) as usize, r.range(48, 64) as usize) };
        let mut all = Vec::with_capacity(left + bytes.len() + right);
        all.extend((0..left).map(|_| r.next() as u8));
        all.extend_from_slice(bytes);
        all.extend((0..right).map(|_| r.next() as u8));
        Lent { before: all.clone(), all, from: left, len: bytes.len() }
    }

    /// A buffer of this length full of noise.
    pub fn noise(len: usize, r: &mut Random) -> Lent {
        let (a, b) = (r.next() as usize | 1, r.next() as usize);
        let bytes: Vec<u8> = (0..len).map(|i| (i.wrapping_mul(a).wrapping_add(b) >> 7) as u8).collect();
        Lent::new(&bytes, r)
    }

    pub fn bytes(&self) -> &[u8] {
        &self.all[self.from..self.from + self.len]
    }

    pub fn bytes_mut(&mut self) -> &mut [u8] {
        &mut self.all[self.from..self.from + self.len]
    }

    pub fn untouched(&self) -> bool {
        self.all == self.before
    }

    /// Nothing changed but the first `n` lent bytes.
    pub fn untouched_past(&self, n: usize) -> bool {
        let end = self.from + n;
        self.all[..self.from] == self.before[..self.from] && self.all[end..] == self.before[end..]
    }
}

/// Plans into noise of this length. All but the records answered for must stay; they come back beside the answer.
pub fn plan(peer: &dyn Peer, order: &[u8], len: usize, r: &mut Random) -> Result<(Planned, Vec<u8>), String> {
    let order = Lent::new(order, r);
    let mut buffer = Lent::noise(len, r);
    let answer = peer.plan(order.bytes(), buffer.bytes_mut());
    let written = (answer.classes as usize + answer.slots as usize) * RECORD;
    if !order.untouched() {
        return Err("planning changed the order".into());
    }
    if written > len || !buffer.untouched_past(written) {
        return Err(format!("planning changed bytes past its {written}"));
    }
    Ok((answer, buffer.bytes()[..written].to_vec()))
}

/// Lends order and plan for one call, which must leave both.
pub fn lend<T>(order: &[u8], plan: &[u8], r: &mut Random, call: impl FnOnce(&[u8], &[u8]) -> T) -> Result<T, String> {
    let (order, plan) = (Lent::new(order, r), Lent::new(plan, r));
    let answer = call(order.bytes(), plan.bytes());
    if !order.untouched() || !plan.untouched() {
        return Err("bytes of a lent order or plan changed".into());
    }
    Ok(answer)
}

/// One step of a pen whose tick is lent between others: the answer and the tick after it.
pub fn step(peer: &dyn Peer, order: &[u8], plan: &[u8], dose: usize, tick: u32, r: &mut Random) -> Result<(Drawn, u32), String> {
    let mut ticks = [!tick, tick, !tick];
    let answer = lend(order, plan, r, |order, plan| peer.advance(order, plan, dose, &mut ticks[1]))?;
    if [ticks[0], ticks[2]] != [!tick; 2] {
        return Err("numbers beside a pen changed".into());
    }
    Ok((answer, ticks[1]))
}

/// Lends a log beside order and plan.
pub fn log(peer: &dyn Peer, order: &[u8], plan: &[u8], dose: usize, log: &[u8], r: &mut Random) -> Result<Laid, String> {
    let log = Lent::new(log, r);
    let answer = lend(order, plan, r, |order, plan| peer.log(order, plan, dose, log.bytes()))?;
    if !log.untouched() {
        return Err("bytes of a lent log changed".into());
    }
    Ok(answer)
}

/// Lends a stream.
pub fn season(peer: &dyn Peer, stream: &[u8], r: &mut Random) -> Result<Season, String> {
    let stream = Lent::new(stream, r);
    let answer = peer.season(stream.bytes());
    if !stream.untouched() {
        return Err("bytes of a lent stream changed".into());
    }
    Ok(answer)
}
