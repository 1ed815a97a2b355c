//! Words: signs in postfix order, read sign by sign, with the refusals 1 to 6
//! and their places.

use crate::number;
use crate::refusal::{Reason, Refusal};

/// The most bytes of an accepted word.
pub const LONGEST_WORD: usize = 4_096;
const MOST_PENDING: usize = 256;
const MOST_STEPS: usize = 255;
const FIRST_LABEL_SIGN: u32 = 9;

/// The signs; a label sign's number is 9 and its label together.
#[derive(Clone, Copy, Debug, PartialEq, Eq)]
pub enum Sign {
    Empty,
    Itself,
    Child,
    Parent,
    Composition,
    FirstProjection,
    SecondProjection,
    Intersection,
    Inverse,
    Label(u16),
}

/// The signs without a label, each at its number.
const UNLABELLED: [Sign; FIRST_LABEL_SIGN as usize] = [
    Sign::Empty,
    Sign::Itself,
    Sign::Child,
    Sign::Parent,
    Sign::Composition,
    Sign::FirstProjection,
    Sign::SecondProjection,
    Sign::Intersection,
    Sign::Inverse,
];

impl Sign {
    fn from_number(number: u32) -> Option<Sign> {
        match number.checked_sub(FIRST_LABEL_SIGN) {
            Some(label) => u16::try_from(label).ok().map(Sign::Label),
            None => Some(UNLABELLED[number as usize]),
        }
    }

    fn number(self) -> u32 {
        match self {
            Sign::Label(label) => FIRST_LABEL_SIGN + u32::from(label),
            Sign::Empty => 0,
            Sign::Itself => 1,
            Sign::Child => 2,
            Sign::Parent => 3,
            Sign::Composition => 4,
            Sign::FirstProjection => 5,
            Sign::SecondProjection => 6,
            Sign::Intersection => 7,
            Sign::Inverse => 8,
        }
    }

    /// How many operands the sign takes; an operand sign takes none.
    fn operands(self) -> usize {
        match self {
            Sign::Composition | Sign::Intersection => 2,
            Sign::FirstProjection | Sign::SecondProjection | Sign::Inverse => 1,
            _ => 0,
        }
    }

    fn is_step(self) -> bool {
        matches!(self, Sign::Child | Sign::Parent)
    }
}

/// Reads a word, or gives the refusal of its first bad sign.
pub fn read(word: &[u8]) -> Result<Vec<Sign>, Refusal> {
    if word.len() > LONGEST_WORD {
        return Err(Reason::WordTooLong.at(LONGEST_WORD));
    }
    let mut signs = Vec::new();
    let (mut place, mut pending, mut steps) = (0, 0, 0);
    while place < word.len() {
        let (sign, length) = first_sign(&word[place..]).ok_or(Reason::BadNumber.at(place))?;
        let taken = sign.operands();
        if pending < taken {
            return Err(Reason::MissingOperand.at(place));
        }
        if taken == 0 && pending == MOST_PENDING {
            return Err(Reason::TooManyPending.at(place));
        }
        if sign.is_step() && steps == MOST_STEPS {
            return Err(Reason::TooManySteps.at(place));
        }
        pending = pending - taken + 1;
        steps += usize::from(sign.is_step());
        place += length;
        signs.push(sign);
    }
    if pending != 1 {
        return Err(Reason::NotOneOperand.at(word.len()));
    }
    Ok(signs)
}

fn first_sign(bytes: &[u8]) -> Option<(Sign, usize)> {
    let (number, length) = number::read(bytes)?;
    Some((Sign::from_number(number)?, length))
}

/// Writes signs as a word.
pub fn write(signs: &[Sign]) -> Vec<u8> {
    let mut word = Vec::new();
    for sign in signs {
        number::write(sign.number(), &mut word);
    }
    word
}

/// Takes the latest pending operand, while the signs of an accepted word are
/// worked off.
pub fn latest<Operand>(pending: &mut Vec<Operand>) -> Operand {
    pending.pop().expect("an accepted word lacks no operands")
}

/// Takes the two latest pending operands, the earlier as first.
pub fn latest_two<Operand>(pending: &mut Vec<Operand>) -> (Operand, Operand) {
    let second = latest(pending);
    (latest(pending), second)
}

#[cfg(test)]
mod tests {
    use super::*;

    #[test]
    fn signs_and_numbers_belong_together() {
        for number in 0..=65_544 {
            assert_eq!(Sign::from_number(number).map(Sign::number), Some(number));
        }
        assert_eq!(Sign::from_number(65_544), Some(Sign::Label(65_535)));
        assert_eq!(Sign::from_number(65_545), None);
    }
}
