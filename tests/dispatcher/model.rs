//! The dispatcher as request N9 has it, with cases of any kind: which place is served, which one is taken, and what is refused.

#[derive(Clone)]
pub struct Model<C> {
    pub places: [Option<C>; 8],
    pub last_served: Option<usize>,
}

impl<C> Model<C> {
    pub fn empty() -> Model<C> {
        Model { places: std::array::from_fn(|_| None), last_served: None }
    }

    /// "In rotation over the open places, by number, on from the place last served, at first from 0."
    pub fn due(&self) -> Option<usize> {
        let first = self.last_served.map_or(0, |last| last + 1);
        (first..first + 8).map(|n| n % 8).find(|n| self.places[*n].is_some())
    }

    /// "Opening takes the lowest free one." None is 20.
    pub fn lowest_free(&self) -> Option<usize> {
        self.places.iter().position(|place| place.is_none())
    }

    /// None is 21.
    pub fn at(&self, place: u64) -> Option<usize> {
        (0..8).find(|n| *n as u64 == place && self.places[*n].is_some())
    }
}
