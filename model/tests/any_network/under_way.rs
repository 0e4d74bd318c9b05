//! What became of the messages of a run.

use crate::network::Move;
use crate::watched::Watched;

/// When each message arrived, by the number of the move, from 0.
pub fn arrivals(run: &Watched) -> Vec<Vec<usize>> {
    let mut arrivals = vec![Vec::new(); run.network.sent.len()];
    let sent_before = std::iter::once(&0).chain(&run.sent_after);
    for (moment, (next, &sent)) in run.moves.iter().zip(sent_before).enumerate() {
        match *next {
            Move::Arrival(place) if place < sent => arrivals[place].push(moment),
            _ => (),
        }
    }
    arrivals
}

/// The most messages that had been sent and were yet to arrive, at any moment
/// of the run. What never arrives counts as lost, so it is not under way.
pub fn most_under_way(run: &Watched) -> usize {
    let arrivals = arrivals(run);
    let (mut ends, mut place, mut under_way, mut most) = (vec![0; run.moves.len()], 0, 0, 0);
    for (moment, &sent) in run.sent_after.iter().enumerate() {
        for last in arrivals[place..sent].iter().filter_map(|moments| moments.last()) {
            ends[*last] += 1;
            under_way += 1;
        }
        place = sent;
        under_way -= ends[moment];
        most = most.max(under_way);
    }
    most
}
