//! Squeezing any bytes, with a list of any length.

use crate::loading;
use crate::making;
use harness::guarded::Guarded;
use harness::planner::{squeeze, Squeezed};
use reference::file::{self, Refusal};
use reference::random::Random;
use reference::squeeze::{self as reference_squeeze, LIST};

/// A file: a plan's as it is, most often; else one as loading gets it.
fn bytes(random: &mut Random) -> Vec<u8> {
    match random.percent(60) {
        true => file::write(&making::plan(random)),
        false => loading::bytes(random),
    }
}

pub fn case(random: &mut Random) -> u32 {
    let mut file = Guarded::holding(&bytes(random), 0xc3);
    let length = making::length(random, LIST);
    let mut list = Guarded::sized(random, &[], length);
    let (mut wanted_file, mut wanted_list) = (file.clone(), list.clone());
    let mut wanted = Squeezed {
        refusal: 0,
        offset: 0,
        length: 0,
        constant: 0,
    };
    match reference_squeeze::squeeze(wanted_file.lend(), wanted_list.lend()) {
        Ok(answer) => (wanted.length, wanted.constant) = (answer.length, answer.constant),
        Err(Refusal { number, offset }) => (wanted.refusal, wanted.offset) = (number, offset),
    }
    assert_eq!(squeeze(file.lend(), list.lend()), wanted);
    assert!(
        file == wanted_file && list == wanted_list,
        "squeezing left other bytes: {wanted:?}"
    );
    wanted.refusal
}
