//! Small files that try every question: valid ones in every legal spelling, and damaged ones.

mod damages;
mod draft;
mod edges;
mod spelling;

use crate::check::Fault;
use crate::random::Random;
use draft::Draft;

pub use edges::edges;

/// A file, and the verdict on it where the way it was made tells.
pub struct Case {
    pub name: String,
    pub bytes: Vec<u8>,
    pub expected: Option<Result<(), Fault>>,
}

/// The case of a number, from a seed; no other case is needed to make it.
pub fn random_case(seed: u64, number: u64) -> Case {
    let mut random = Random::new(seed.wrapping_mul(0x0100_0000_01b3).wrapping_add(number));
    match random.below(20) {
        0..=4 => valid(&mut random),
        5..=13 => damaged_once(&mut random),
        14..=16 => damaged_twice(&mut random),
        _ => bytes_altered(&mut random),
    }
}

fn valid(random: &mut Random) -> Case {
    let draft = if random.once_in(2) { Draft::rich(random) } else { Draft::any(random) };
    Case { name: "valid".into(), bytes: draft.bytes(), expected: Some(Ok(())) }
}

/// One damage, whose fault is therefore the file's.
fn damaged_once(random: &mut Random) -> Case {
    let mut draft = Draft::rich(random);
    let (name, damage) = *random.pick(damages::ALL);
    let fault = damage(&mut draft, random);
    Case { name: name.into(), bytes: draft.bytes(), expected: Some(Err(fault)) }
}

/// Two or three damages that may compete; which fault comes first is left to the programs.
fn damaged_twice(random: &mut Random) -> Case {
    let mut draft = Draft::rich(random);
    let mut names = Vec::new();
    for _ in 0..random.between(2, 3) {
        let (name, damage) = *random.pick(damages::ALL);
        damage(&mut draft, random);
        names.push(name);
    }
    Case { name: names.join(" + "), bytes: draft.bytes(), expected: None }
}

/// A valid file with a few bytes replaced, inserted or removed, or cut short.
fn bytes_altered(random: &mut Random) -> Case {
    let mut bytes = Draft::any(random).bytes();
    for _ in 0..random.between(1, 3) {
        let place = random.index(bytes.len() + 1);
        match random.below(8) {
            0..=2 if place < bytes.len() => bytes[place] = any_byte(random),
            3 | 4 => bytes.insert(place, any_byte(random)),
            5 | 6 if place < bytes.len() => {
                bytes.remove(place);
            }
            7 if random.once_in(3) => bytes.truncate(place),
            _ => {}
        }
    }
    Case { name: "bytes altered".into(), bytes, expected: None }
}

/// A byte that means something to a reader of the file, or now and then any.
fn any_byte(random: &mut Random) -> u8 {
    if random.once_in(12) {
        return random.below(256) as u8;
    }
    *random.pick(b"0123456789004,,,..--//\r\n\n \0aI_")
}

#[cfg(test)]
mod tests {
    use super::*;
    use crate::check::check;
    use std::collections::BTreeSet;

    #[test]
    fn the_check_answers_as_each_case_was_made() {
        for number in 0..20_000 {
            let case = random_case(3, number);
            let verdict = check(&case.bytes).map(|_| ());
            if let Some(expected) = case.expected {
                assert_eq!(
                    verdict,
                    expected,
                    "case {number}, {}:\n{}",
                    case.name,
                    String::from_utf8_lossy(&case.bytes)
                );
            }
        }
    }

    #[test]
    fn the_check_answers_each_edge() {
        for case in edges() {
            let verdict = check(&case.bytes).map(|_| ());
            if let Some(expected) = case.expected {
                assert_eq!(verdict, expected, "{}", case.name);
            }
        }
    }

    #[test]
    fn every_question_but_the_length_is_met_by_random_cases() {
        let mut met = BTreeSet::new();
        for number in 0..2_000 {
            if let Err(fault) = check(&random_case(1, number).bytes) {
                met.insert(fault.question.number());
            }
        }
        assert!((2..=8).all(|question| met.contains(&question)), "{met:?}");
    }
}
