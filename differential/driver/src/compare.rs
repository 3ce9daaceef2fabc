// One input on both sides, Galerkin and rediscretized: its needs, its setups, the rows handed back from what they left, the changes of it.

use crate::case::Case;
use crate::needs::{Needed, counts_of};
use crate::store::{Left, Lists};
use crate::{changes, handed, needs, norm, store, table};
use num_complex::Complex64 as c64;
use source::Stretched;

// What was found equal.
#[derive(Default)]
pub struct Counts {
    pub inputs: u64,
    pub store: store::Counts,
    pub needs: needs::Counts,
    pub handed: handed::Counts,
    pub changes: changes::Counts,
    pub norm: norm::Departures,
}

pub fn compare(c: &Case, counts: &mut Counts) -> Result<(), String> {
    counts.inputs += 1;
    choice(c, false, counts)?;
    choice(c, true, counts)
}

fn choice(c: &Case, rediscretized: bool, counts: &mut Counts) -> Result<(), String> {
    // whatever is not 0 is rediscretized
    let choices = if rediscretized { [1, 2, usize::MAX] } else { [0; 3] };
    let refused = table::refusal(c, 7).map(|(number, place)| [number, place]);
    // the needs don't look at the permittivities
    if let Some((number, place)) = table::refusal(c, 6) {
        needs::compare(c, choices, [number, place], Needed::Untouched, &mut counts.needs)?;
        changes::anywhere(c, choices, None, &mut counts.changes)?;
        return store::refused(c, choices, refused.unwrap_or_default(), Left::Untouched, &mut counts.store);
    }
    let eps = if refused.is_some() { vec![c64::new(1.0, 0.0); c.edges()] } else { c.numbers(6) };
    let Some(levels) = store::theirs(c, &eps, rediscretized) else {
        needs::compare(c, choices, [5, 12], Needed::Zeros, &mut counts.needs)?;
        changes::anywhere(c, choices, None, &mut counts.changes)?;
        let left = if refused.is_some() { Left::Untouched } else { Left::Zeros };
        return store::refused(c, choices, refused.unwrap_or([5, 12]), left, &mut counts.store);
    };
    let lists = Lists::of(&levels, rediscretized);
    let cells = counts_of(&levels);
    match table::twice(&levels) {
        Some(level) => needs::compare(c, choices, [8, level], Needed::Zeros, &mut counts.needs)?,
        None => needs::compare(c, choices, [0, levels.len()], Needed::Given(&lists.need(), &cells), &mut counts.needs)?,
    }
    changes::anywhere(c, choices, Some(&levels), &mut counts.changes)?;
    if let Some(answer) = refused {
        return store::refused(c, choices, answer, Left::Untouched, &mut counts.store);
    }
    if !rediscretized {
        let lines: Vec<_> = levels.iter().map(|l| &l.lines).collect();
        counts.norm.look_at(&Stretched::new(&c.lattice()), &lines)?;
    }
    if let Some(filled) = store::sound(c, choices, &levels, &lists, &mut counts.store)? {
        handed::rows(c, &levels, &lists, &cells, &filled, &mut counts.handed)?;
        if c.tries != 0 {
            changes::tries(c, choices, &levels, &lists, &mut counts.changes)?;
        }
        if !c.changes.is_empty() {
            changes::list(c, choices, lists, &mut counts.changes)?;
        }
    }
    Ok(())
}
