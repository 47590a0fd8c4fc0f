//! The streams of one case: a peer's sheet of each held against the second program's own.

use crate::answers::accept;
use crate::compare::Difference;
use crate::guard;
use crate::library::{Peer, Season};
use crate::measure::Measure;
use crate::orders::{TrialBays, RECORD};
use crate::random::Random;
use crate::season::{orders, sheet, taken, LONGEST_STREAM, REFUSED};
use crate::tally::Tally;
use crate::{cases, streams, sums};

struct Asked<'a> {
    peer: &'a dyn Peer,
    r: &'a mut Random,
    tally: &'a mut Tally,
}

impl Asked<'_> {
    /// What the peer says of a stream, and that it changed no byte.
    fn answer(&mut self, stream: &[u8]) -> Result<Season, String> {
        let answer = guard::season(self.peer, stream, self.r)?;
        self.tally.season(answer.number);
        Ok(answer)
    }

    /// The sheet of one stream, and C-15's sentences about it.
    fn stream(&mut self, stream: &[u8]) -> Result<Season, String> {
        let season = self.answer(stream)?;
        let orders = orders(stream);
        let own: Option<Vec<_>> = orders.as_ref().map(|list| list.iter().map(|order| taken(accept(order, TrialBays::Open))).collect());
        let wanted = own.as_ref().map_or(REFUSED, |figures| sheet(figures));
        if season != wanted {
            return Err(format!("a stream of {} bytes: {season:?} and not {wanted:?}", stream.len()));
        }
        if let (Some(orders), Some(figures)) = (orders, own) {
            self.tally.stream(&orders, &figures);
            sums::counts(stream, &season).and_then(|()| sums::of_orders(self.peer, &orders, &season)).map_err(sentence)?;
            if self.r.once_in(2) {
                self.in_two(&orders, &season)?;
            }
        }
        Ok(season)
    }

    /// The same stream cut in two between orders.
    fn in_two(&mut self, orders: &[&[u8]], whole: &Season) -> Result<(), String> {
        let (front, behind) = orders.split_at(self.r.below(orders.len() as u64 + 1) as usize);
        let pieces = [self.answer(&front.concat())?, self.answer(&behind.concat())?];
        self.tally.added_up();
        sums::adds_up(whole, [&pieces[0], &pieces[1]]).map_err(sentence)
    }

    /// Two streams that were read, put behind each other: a stream of its own.
    fn together(&mut self, streams: [&[u8]; 2], seasons: [&Season; 2]) -> Result<(), String> {
        let whole = streams.concat();
        if seasons.iter().any(|season| season.number != 0) || whole.len() > LONGEST_STREAM {
            return Ok(());
        }
        let season = self.answer(&whole)?;
        self.tally.added_up();
        sums::adds_up(&season, seasons).map_err(sentence)
    }
}

fn sentence(what: String) -> String {
    format!("C-15: {what}")
}

/// The difference that a stream shows.
fn differs(case: &[u8], stream: &[u8], what: String) -> Difference {
    Difference { what, order: case.to_vec(), stream: stream.to_vec(), ..Difference::default() }
}

/// The case's order as a stream, as it is, then streams by chance; each also behind the one before it.
pub fn run(peer: &dyn Peer, case: &[u8], measure: Measure, r: &mut Random, tally: &mut Tally) -> Result<(), Difference> {
    let mut asked = Asked { peer, r, tally };
    let (mut before, mut earlier) = (Vec::new(), asked.stream(&[]).map_err(|what| differs(case, &[], what))?);
    for i in 0..=measure.streams {
        let stream = if i == 0 { case.to_vec() } else { streams::any(case, asked.r) };
        let season = asked.stream(&stream).map_err(|what| differs(case, &stream, what))?;
        let together = asked.together([&before, &stream], [&earlier, &season]);
        together.map_err(|what| differs(case, &[&before[..], &stream].concat(), what))?;
        (before, earlier) = (stream, season);
    }
    Ok(())
}

/// The fixed streams, and the examples in one stream at short lengths and around the greatest.
pub fn lengths(peer: &dyn Peer, r: &mut Random, tally: &mut Tally) -> Result<(), Difference> {
    let mut asked = Asked { peer, r, tally };
    let examples: Vec<u8> = cases::examples().into_iter().flat_map(|(_, bytes)| bytes).collect();
    let long: Vec<u8> = examples.iter().copied().cycle().take(LONGEST_STREAM + 2 * RECORD).collect();
    let cut = (0..=4 * RECORD).chain(LONGEST_STREAM - 2 * RECORD..=long.len()).map(|len| long[..len].to_vec());
    for stream in streams::fixed().into_iter().chain(cut) {
        asked.stream(&stream).map_err(|what| differs(&[], &stream, what))?;
    }
    Ok(())
}
