//! A refusal: its number in document 01's table, and its place.

#[derive(Clone, Copy, Debug, PartialEq)]
pub struct Refusal {
    pub number: u64,
    pub place: u64,
}

pub type Taken<T> = Result<T, Refusal>;

pub fn refuse<T>(number: u64, place: usize) -> Taken<T> {
    let place = place as u64;
    Err(Refusal { number, place })
}
