//! Refusals: a number and a place (docs/REFUSALS.md), and what the place means.

use std::fmt;

const AXES: [&str; 3] = ["x", "y", "z"];

/// A list of the input.
#[derive(Clone, Copy, Debug, PartialEq, Eq)]
pub enum Input {
    /// The stretches at the nodes of an axis.
    Nodes(usize),
    /// The stretches half a step after the nodes of an axis.
    Halves(usize),
    Permittivities,
}

/// A list of the store; forward, turned and operator rows are three lists each.
#[derive(Clone, Copy, Debug, PartialEq, Eq)]
pub enum Lent {
    Ends,
    Permittivities,
    Forward,
    Turned,
    Operator,
    Scaling,
}

/// What a refusal is about.
#[derive(Clone, Copy, Debug, PartialEq, Eq)]
pub enum Where {
    /// Cells of an axis.
    Axis(usize),
    /// Cells in all.
    Cells,
    /// The step of an axis.
    Step(usize),
    K0,
    Shift,
    /// The phase of a Bloch axis.
    Phase(usize),
    /// A list of the input, whole.
    Length(Input),
    /// A number of an input list.
    Entry { list: Input, index: usize },
    /// A number of the input, by its position through all lists, where the cells are not known.
    Position(usize),
    /// A list of the store.
    Room(Lent),
    Level(usize),
    Edge(usize),
    /// An offset in a file.
    Offset(usize),
    /// Cells that are more than were to be taken.
    Limit(usize),
    /// No refusal of the specification.
    Unknown,
}

/// A refused call.
#[derive(Clone, Copy, Debug, PartialEq, Eq)]
pub struct Error {
    /// 1 to 13.
    pub number: usize,
    pub place: usize,
    /// What the place means.
    pub at: Where,
}

impl Error {
    /// The error of an answer; `cells`, where they are known, tell which list a position is in.
    pub(crate) fn new(number: usize, place: usize, cells: Option<[usize; 3]>) -> Error {
        Error { number, place, at: meaning(number, place, cells) }
    }

    /// What is wrong, without number and place.
    pub fn words(&self) -> String {
        let at = self.at;
        match self.number {
            1 if at == Where::Cells => "over 4,096 cells in all".into(),
            1 => format!("{at} has no cell or over 64"),
            2 if at == Where::Shift => "the shift is not finite".into(),
            2 if matches!(at, Where::Phase(_)) => format!("{at} is not finite, or zero"),
            2 => format!("{at} is not finite, or not above 0"),
            3 => format!("{at} has not the exact length"),
            4 => format!("{at} is not finite, or zero"),
            5 => "over 12 levels".into(),
            6 => format!("{at} is lent fewer places than needed"),
            7 => format!("{at} has a number that is not finite"),
            8 => format!("a row of {at} names a coarse edge twice"),
            9 => format!("there is no {at}"),
            10 => format!("the new value of {at} is not finite, or zero"),
            11 => format!("the structure of {at} in the store is not the lattice's"),
            12 => format!("a record is out of turn, cut off or too many, at {at}"),
            13 => format!("{at} are more than were to be taken"),
            _ => "no refusal of the specification".into(),
        }
    }
}

impl fmt::Display for Error {
    fn fmt(&self, f: &mut fmt::Formatter<'_>) -> fmt::Result {
        write!(f, "refused {} {}: {}", self.number, self.place, self.words())
    }
}

impl std::error::Error for Error {}

impl fmt::Display for Input {
    fn fmt(&self, f: &mut fmt::Formatter<'_>) -> fmt::Result {
        match self {
            Input::Nodes(axis) => write!(f, "the list of {} nodes", AXES[*axis]),
            Input::Halves(axis) => write!(f, "the list of {} halves", AXES[*axis]),
            Input::Permittivities => write!(f, "the list of permittivities"),
        }
    }
}

impl fmt::Display for Where {
    fn fmt(&self, f: &mut fmt::Formatter<'_>) -> fmt::Result {
        match self {
            Where::Axis(axis) => write!(f, "axis {}", AXES[*axis]),
            Where::Cells => write!(f, "the cells in all"),
            Where::Step(axis) => write!(f, "the step of {}", AXES[*axis]),
            Where::K0 => write!(f, "k0"),
            Where::Shift => write!(f, "the shift"),
            Where::Phase(axis) => write!(f, "the phase of {}", AXES[*axis]),
            Where::Length(list) => write!(f, "{list}"),
            Where::Entry { list, index } => write!(f, "number {index} of {list}"),
            Where::Position(position) => write!(f, "number {position} of the input"),
            Where::Room(Lent::Ends) => write!(f, "the list of line ends"),
            Where::Room(Lent::Permittivities) => write!(f, "the store's list of permittivities"),
            Where::Room(Lent::Forward) => write!(f, "a list of forward rows"),
            Where::Room(Lent::Turned) => write!(f, "a list of turned rows"),
            Where::Room(Lent::Operator) => write!(f, "a list of operator rows"),
            Where::Room(Lent::Scaling) => write!(f, "the list of scaling"),
            Where::Level(level) => write!(f, "level {level}"),
            Where::Edge(edge) => write!(f, "edge {edge}"),
            Where::Offset(offset) => write!(f, "offset {offset}"),
            Where::Limit(cells) => write!(f, "{cells} cells"),
            Where::Unknown => write!(f, "an unknown place"),
        }
    }
}

// List `k` of the input, by refusal 3's numbers.
fn input(k: usize) -> Option<Input> {
    match k {
        0 | 2 | 4 => Some(Input::Nodes(k / 2)),
        1 | 3 | 5 => Some(Input::Halves(k / 2)),
        6 => Some(Input::Permittivities),
        _ => None,
    }
}

// The list that a position through all lists is in, and the place there.
fn entry(position: usize, [nx, ny, nz]: [usize; 3]) -> Where {
    let mut index = position;
    for (k, n) in [nx, nx, ny, ny, nz, nz].into_iter().enumerate() {
        if index < n {
            return input(k).map_or(Where::Unknown, |list| Where::Entry { list, index });
        }
        index -= n;
    }
    Where::Entry { list: Input::Permittivities, index }
}

fn meaning(number: usize, place: usize, cells: Option<[usize; 3]>) -> Where {
    const LENT: [Lent; 6] = [Lent::Ends, Lent::Permittivities, Lent::Forward, Lent::Turned, Lent::Operator, Lent::Scaling];
    match (number, place) {
        (1, 0..=2) => Where::Axis(place),
        (1, 3) => Where::Cells,
        (2, 0..=2) => Where::Step(place),
        (2, 3) => Where::K0,
        (2, 4) => Where::Shift,
        (2, 5..=7) => Where::Phase(place - 5),
        (3, _) => input(place).map_or(Where::Unknown, Where::Length),
        (4, _) => cells.map_or(Where::Position(place), |c| entry(place, c)),
        (6, 0..=5) => Where::Room(LENT[place]),
        (5 | 7 | 8 | 11, _) => Where::Level(place),
        (9 | 10, _) => Where::Edge(place),
        (12, _) => Where::Offset(place),
        (13, _) => Where::Limit(place),
        _ => Where::Unknown,
    }
}

#[cfg(test)]
mod tests {
    use super::*;

    #[test]
    fn positions_count_through_the_lists() {
        let at = |p| Error::new(4, p, Some([4, 2, 1])).at;
        assert_eq!(at(0), Where::Entry { list: Input::Nodes(0), index: 0 });
        assert_eq!(at(6), Where::Entry { list: Input::Halves(0), index: 2 });
        assert_eq!(at(9), Where::Entry { list: Input::Nodes(1), index: 1 });
        assert_eq!(at(13), Where::Entry { list: Input::Halves(2), index: 0 });
        assert_eq!(at(14), Where::Entry { list: Input::Permittivities, index: 0 });
        assert_eq!(Error::new(4, 9, None).at, Where::Position(9));
    }

    #[test]
    fn every_refusal_has_its_words() {
        for (number, place, text) in [
            (1, 1, "refused 1 1: axis y has no cell or over 64"),
            (1, 3, "refused 1 3: over 4,096 cells in all"),
            (2, 2, "refused 2 2: the step of z is not finite, or not above 0"),
            (2, 4, "refused 2 4: the shift is not finite"),
            (2, 5, "refused 2 5: the phase of x is not finite, or zero"),
            (3, 3, "refused 3 3: the list of y halves has not the exact length"),
            (4, 19, "refused 4 19: number 7 of the list of permittivities is not finite, or zero"),
            (5, 12, "refused 5 12: over 12 levels"),
            (6, 4, "refused 6 4: a list of operator rows is lent fewer places than needed"),
            (7, 1, "refused 7 1: level 1 has a number that is not finite"),
            (8, 0, "refused 8 0: a row of level 0 names a coarse edge twice"),
            (9, 12, "refused 9 12: there is no edge 12"),
            (10, 5, "refused 10 5: the new value of edge 5 is not finite, or zero"),
            (11, 0, "refused 11 0: the structure of level 0 in the store is not the lattice's"),
            (12, 47, "refused 12 47: a record is out of turn, cut off or too many, at offset 47"),
            (13, 17, "refused 13 17: 17 cells are more than were to be taken"),
        ] {
            assert_eq!(Error::new(number, place, Some([4, 1, 1])).to_string(), text);
        }
    }

    #[test]
    fn no_answer_panics() {
        for number in 0..20 {
            for place in (0..20).chain([usize::MAX]) {
                assert!(!Error::new(number, place, Some([4, 1, 1])).to_string().is_empty());
            }
        }
    }
}
