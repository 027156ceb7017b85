//! Numbers that no archive of this wrapper's ABI answers are error values, and none of them makes it panic.

use super::*;

/// Of no reply, though some are known ones to whoever keeps 32 bits.
const NO_REPLIES: [u64; 9] = [
    2,
    3,
    17,
    20,
    33,
    1 << 32,
    (1 << 32) + 6,
    (1 << 63) + 21,
    u64::MAX,
];

#[test]
fn numbers_of_no_reply() {
    for number in NO_REPLIES {
        let unknown = Refusal::Unknown(number);
        assert_eq!((Refusal::of(number), unknown.number()), (unknown, number));
        assert_eq!(Refusal::check(number), Err(unknown));
        assert_eq!(answer(number, [1; FIGURES]), Err(unknown));
        assert_eq!(side_answer(number, [1; SIDE_FIGURES]), Err(unknown));
        assert!(unknown.to_string().contains(&number.to_string()));
    }
    assert_eq!(Refusal::check(0), Ok(()));
}

/// Neither ONE nor SPLIT; but of a refused state it is not looked at.
#[test]
fn kinds_that_are_neither() {
    for kind in [0, 3, 1 << 32, (1 << 32) + 1, (1 << 32) + 2, u64::MAX] {
        let figures = [kind, 1, 1, 1, 1];
        assert_eq!(answer(0, figures), Err(Refusal::Unknown(0)));
        assert_eq!(answer(21, figures), Err(Refusal::TemperatureTooLow));
    }
    assert_eq!(answer(0, [1; FIGURES]), Ok(one(1, 1)));
    assert_eq!(answer(0, [2; FIGURES]).map(|two| two.kind), Ok(Kind::Split));
}

#[test]
fn fluids_that_are_none() {
    for fluid in [3, 1 << 32, u64::MAX] {
        let state = [fluid, 300_000, 1_000_000];
        assert_eq!(State::of(state), Err(Refusal::NoSuchFluid));
        let told = crate::states::told(EXAMPLE, 0, state);
        let unknown = FaultySheet::Unknown(Refusal::NoSuchFluid);
        assert_eq!(told, Some(Err(unknown)));
    }
}

/// Those of other replies are none of a sheet's either, and are not taken for a malformed one.
#[test]
fn faults_that_are_neither() {
    for number in [1, 16, 21].into_iter().chain(NO_REPLIES) {
        let refusal = Refusal::of(number);
        let fault = Fault::Unknown(refusal);
        assert_eq!(Fault::check(number, 4), Err(fault));
        assert_eq!(fault.refusal().number(), number);
        let faulty = FaultySheet::of(fault, EXAMPLE, 4);
        assert_eq!(faulty, FaultySheet::Unknown(refusal));
        assert_eq!((faulty.fault(), faulty.refusal()), (fault, refusal));
        let texts = [fault.to_string(), faulty.to_string()];
        assert_eq!(texts, [refusal.to_string(), refusal.to_string()]);
    }
    assert_eq!(Fault::check(0, 4), Ok(()));
}

/// A refusal without a place is the fault that another call tells; unknown, where that call tells of none.
#[test]
fn faults_that_are_met() {
    let fault = Fault::Malformed { place: 4 };
    let met = |number, told: Result<(), Fault>| Refusal::of(number).met(told, Fault::Unknown);
    for number in [6, 7] {
        assert_eq!(met(number, Err(fault)), fault);
        assert_eq!(met(number, Ok(())), Fault::Unknown(Refusal::of(number)));
    }
    for number in [0, 1, 16].into_iter().chain(NO_REPLIES) {
        for told in [Ok(()), Err(fault)] {
            assert_eq!(met(number, told), Fault::Unknown(Refusal::of(number)));
        }
    }
}

/// A step of a walk over a sheet: what it answers is not what the whole sheet is.
#[test]
fn steps_of_a_walk() {
    let told = |text, number| crate::states::told(text, number, [0; 3]);
    let unknown = |number| Some(Err(FaultySheet::Unknown(Refusal::of(number))));
    for text in [EXAMPLE, b"x\n"] {
        assert_eq!(told(text, 16), None);
        for number in [1, 21].into_iter().chain(NO_REPLIES) {
            assert_eq!(told(text, number), unknown(number));
        }
    }
    assert_eq!(told(EXAMPLE, 6), unknown(6));
    assert_eq!(told(b"x\n", 6), Some(Err(malformed(0, b"x"))));
}

/// Places and lengths that the sheet does not have: the line is what there is of it.
#[test]
fn lines_outside_of_a_sheet() {
    let text = b"0\nxyz";
    let end = text.len() as u64;
    for (place, length, line) in [
        (2, 3, &b"xyz"[..]),
        (2, 2, b"xy"),
        (2, 4, b"xyz"),
        (2, u64::MAX, b"xyz"),
        (end, 0, b""),
        (end, 1, b""),
        (end + 1, 0, b""),
        (end + 1, 1, b""),
        (u64::MAX, u64::MAX, b""),
    ] {
        let fault = Fault::check(6, place).expect_err("a fault");
        let faulty = FaultySheet::of(fault, text, length);
        assert_eq!(faulty, malformed(reply::index(place), line));
    }
}

#[test]
fn lengths_above_the_room() {
    for (length, room) in [(0, 0), (5, 5), (5, 6)] {
        assert_eq!(written(length, room), Ok(length as usize));
    }
    for (length, room) in [(1, 0), (6, 5), (1 << 32, 5), (u64::MAX, 5)] {
        assert_eq!(written(length, room), Err(Refusal::Unknown(0)));
    }
}
