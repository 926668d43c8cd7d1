//! The kinds of calls, and which call comes at an index.

use crate::calls::call::Call;
use crate::calls::coded::{states as codes, texts};
use crate::calls::{lights, lines, paddings, sessions, states, writings};
use crate::making::random::Random;
use crate::making::turns::{turn, Weighted};

/// What a maker is told.
pub struct Wish {
    /// The kind's name.
    pub name: &'static str,
    pub random: Random,
    /// How many of its kind were made before.
    pub ordinal: u64,
    pub seed: u64,
}

impl Wish {
    pub fn in_place(&self) -> bool {
        self.name.contains("_in_place")
    }

    pub fn part(&self) -> bool {
        self.name.contains("_part")
    }
}

/// A kind: the call's name, with `@` where it lends what is not there.
/// Kinds of one group and ordinal get the same arguments, so that a number and
/// its part, or the two ways to update, are asked about the same.
#[derive(Clone, Copy)]
pub struct Kind {
    pub name: &'static str,
    group: &'static str,
    weight: u64,
    make: fn(&mut Wish) -> Call,
}

impl Weighted for Kind {
    fn weight(&self) -> u64 {
        self.weight
    }
}

const KINDS: [Kind; 54] = [
    kind("fresh", "fresh", 1, states::fresh),
    kind("fold", "fold", 4, states::fold),
    kind("update", "update", 12, states::update),
    kind("update_in_place", "update", 12, states::update),
    kind("finish", "finish", 8, states::finish),
    kind("digest", "digest", 6, states::digest),
    kind("compare_message", "compare", 8, states::compare_message),
    kind("compare_state", "compare", 8, states::compare_state),
    kind("pad_write", "pad", 10, paddings::pad_write),
    kind("block_number", "block", 12, paddings::block),
    kind("block_part", "block", 12, paddings::block),
    kind("remove_number", "remove", 10, paddings::remove),
    kind("remove_part", "remove", 10, paddings::remove),
    kind("sheet_read", "sheet", 16, sessions::sheet_read),
    kind("sheet_read_in_place", "sheet", 16, sessions::sheet_read),
    kind("deliver", "deliver", 29, sessions::deliver),
    kind("deliver_in_place", "deliver", 29, sessions::deliver),
    kind("ask", "ask", 14, sessions::ask),
    kind("ask_in_place", "ask", 14, sessions::ask),
    kind("ready", "ready", 6, lights::ready),
    kind("sheet_write", "write", 15, writings::sheet_write),
    kind("code_start", "code_start", 3, codes::start),
    kind("code_update", "code_update", 6, codes::update),
    kind("code_update_in_place", "code_update", 6, codes::update),
    kind("code_finish", "code_finish", 5, codes::finish),
    kind("code_of", "code_of", 4, codes::code_of),
    kind("compare_code", "compare_code", 5, codes::compare_state),
    kind("compare_code_of", "compare_code", 5, codes::compare_of),
    kind("keyed_read", "keyed", 10, texts::keyed_read),
    kind("keyed_read_in_place", "keyed", 10, texts::keyed_read),
    kind("line", "line", 13, lines::line),
    kind("fold@", "fold@", 1, states::fold_absent),
    kind("update@", "update@", 1, states::update_absent),
    kind("update_in_place@", "update@", 1, states::update_absent),
    kind("digest@", "digest@", 1, states::digest_absent),
    kind(
        "compare_message@",
        "compare@",
        1,
        states::compare_message_absent,
    ),
    kind(
        "compare_state@",
        "compare@",
        1,
        states::compare_state_absent,
    ),
    kind("pad_write@", "pad@", 2, paddings::pad_write_absent),
    kind("block_number@", "block@", 2, paddings::block_absent),
    kind("block_part@", "block@", 2, paddings::block_absent),
    kind("remove_number@", "remove@", 1, paddings::remove_absent),
    kind("remove_part@", "remove@", 1, paddings::remove_absent),
    kind("sheet_read@", "sheet@", 1, sessions::sheet_read_absent),
    kind(
        "sheet_read_in_place@",
        "sheet@",
        1,
        sessions::sheet_read_absent,
    ),
    kind("deliver@", "deliver@", 1, sessions::deliver_absent),
    kind("deliver_in_place@", "deliver@", 1, sessions::deliver_absent),
    kind("code_start@", "code_start@", 1, codes::start_absent),
    kind("code_update@", "code_update@", 1, codes::update_absent),
    kind(
        "code_update_in_place@",
        "code_update@",
        1,
        codes::update_absent,
    ),
    kind("code_of@", "code_of@", 1, codes::code_of_absent),
    kind(
        "compare_code@",
        "compare_code@",
        1,
        codes::compare_state_absent,
    ),
    kind(
        "compare_code_of@",
        "compare_code@",
        1,
        codes::compare_of_absent,
    ),
    kind("keyed_read@", "keyed@", 1, texts::keyed_read_absent),
    kind(
        "keyed_read_in_place@",
        "keyed@",
        1,
        texts::keyed_read_absent,
    ),
];

const fn kind(
    name: &'static str,
    group: &'static str,
    weight: u64,
    make: fn(&mut Wish) -> Call,
) -> Kind {
    Kind {
        name,
        group,
        weight,
        make,
    }
}

/// A call of the kind at this place, counted round, for a line to be made of.
pub fn any(seed: u64, place: usize, ordinal: u64) -> Call {
    let kinds: Vec<&Kind> = KINDS.iter().filter(|kind| kind.name != "line").collect();
    kinds[place % kinds.len()].call(seed, ordinal)
}

/// The calls of a run: the same for the same seed and kinds.
pub struct Calls {
    pub kinds: Vec<Kind>,
    pub seed: u64,
}

impl Calls {
    /// All kinds but those named; a call's name takes its `@` kind with it.
    pub fn new(seed: u64, without: &[String]) -> Result<Calls, String> {
        for name in without {
            if KINDS.iter().all(|kind| kind.name != name) {
                return Err(format!("no call {name}"));
            }
        }
        let named = |name: &str| without.iter().any(|other| other == name);
        let mut kinds = KINDS.to_vec();
        kinds.retain(|kind| !named(kind.name) && !named(kind.name.trim_end_matches('@')));
        if kinds.is_empty() {
            return Err("no call is left".to_string());
        }
        Ok(Calls { kinds, seed })
    }

    /// The call at this index, and its kind's name.
    pub fn at(&self, index: u64) -> (&'static str, Call) {
        let (kind, ordinal) = turn(&self.kinds, index);
        (kind.name, kind.call(self.seed, ordinal))
    }
}

impl Kind {
    fn call(&self, seed: u64, ordinal: u64) -> Call {
        (self.make)(&mut Wish {
            name: self.name,
            random: Random::new(seed, self.group, ordinal),
            ordinal,
            seed,
        })
    }
}
