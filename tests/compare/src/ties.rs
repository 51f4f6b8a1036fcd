//! Ties between trams that are as near to a mark as the nearest: which kinds have been met.
use crate::tally::Tally;
use second_reader::trams::Trams;
use second_reader::Stretch;

/// Counts the tie at a mark, if there is one. The nearest tram is at this place of the list.
pub fn met(tally: &mut Tally, given: &[Stretch], trams: &Trams, mark: u32, nearest: usize) {
    let Stretch { low, .. } = trams.widened[nearest];
    let distance = trams.widened[nearest].distance(mark);
    let is_as_near = |place: &usize| trams.widened[*place].distance(mark) == distance;
    let as_near: Vec<usize> = (0..given.len()).filter(is_as_near).collect();
    if as_near.len() < 2 {
        return;
    }
    let any = |of: &dyn Fn(Stretch) -> bool| as_near.iter().any(|&place| of(trams.widened[place]));
    let (below, above) = (any(&|tram| tram.high < mark), any(&|tram| mark < tram.low));
    tally.add("ties of crossing trams", distance == 0);
    tally.add("ties on both sides of the mark", below && above);
    tally.add("ties below the mark with other low ends", below && !above && any(&|tram| tram.low != low));
    tally.add("ties above the mark, where low ends are the same", above && !below);
    let settled = as_near.iter().filter(|&&place| trams.widened[place].low == low).count() == 1;
    tally.add("ties that the low end settles", settled);
    tally.add("ties that the place in the list settles", !settled);
    let as_given = as_near.iter().min_by_key(|&&place| given[place].low);
    tally.add("ties that the low ends as given would settle otherwise", as_given != Some(&nearest));
}
