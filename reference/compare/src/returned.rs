//! What a C call returns: the refusal number in the upper 32 bits (0 if
//! answered), in the lower ones the place, or the length, or 1 or 0.

use reference::{Reason, Refusal};

/// The number that is returned for an outcome.
pub fn packed(outcome: Result<u64, Refusal>) -> u64 {
    let (number, value) = match outcome {
        Ok(value) => (0, value),
        Err(Refusal { number, place }) => (number, place),
    };
    let value = u32::try_from(value).expect("places and lengths have 32 bits");
    u64::from(number) << 32 | u64::from(value)
}

/// The number that is returned for a refusal.
pub fn refused(reason: Reason, place: usize) -> u64 {
    packed(Err(reason.at(place)))
}

/// The refusal number, 0 if the call was answered.
pub fn refusal(returned: u64) -> u32 {
    (returned >> 32) as u32
}

/// Whether the call was refused, for whatever reason.
pub fn is_refused(returned: u64) -> bool {
    refusal(returned) != 0
}

/// Whether the call was refused for this reason.
pub fn is_refused_for(returned: u64, reason: Reason) -> bool {
    refusal(returned) == reason.number()
}

/// The place of a refusal, or the answer: a length, or 1 or 0.
pub fn value(returned: u64) -> usize {
    returned as u32 as usize
}

#[cfg(test)]
mod tests {
    use super::*;

    /// The largest place and number that may ever be returned fit as well.
    #[test]
    fn numbers_and_places_are_found_again() {
        for (number, place) in [(1, 4_096), (10, 0), (83, 16_779_516), (83, 0xffff_ffff)] {
            let returned = packed(Err(Refusal { number, place }));
            assert_eq!(
                (refusal(returned), value(returned)),
                (number, place as usize)
            );
        }
        assert_eq!(packed(Ok(1_538)), 1_538);
        assert!(!is_refused(1_538));
    }

    #[test]
    fn a_refusal_has_its_number() {
        let returned = refused(Reason::BadNumber, 7);
        assert_eq!(returned, 2 << 32 | 7);
        assert!(is_refused_for(returned, Reason::BadNumber));
        assert!(!is_refused_for(returned, Reason::RoomTooShort));
    }
}
