//! Keys, beside the oracle's.
use crate::groups::Groups;
use bench::oracle::key_lime::expose::{are_relative_keys, key_from_index, key_number};
use bench::probe::{probe_are_relative_keys, probe_key_number, probe_same_key};
use ulyptesh::Key;

const KEYS: u32 = 24;

fn our_name(number: u32) -> String {
    Key::try_from(number).expect("the number of a key").name()
}

fn pairs_of_keys() -> impl Iterator<Item = (u32, u32)> {
    (0..KEYS).flat_map(|a| (0..KEYS).map(move |b| (a, b)))
}

fn same_key((a, b): (u32, u32)) -> bool {
    key_from_index(a as usize) == key_from_index(b as usize)
}

fn relative((a, b): (u32, u32)) -> bool {
    are_relative_keys(key_from_index(a as usize), key_from_index(b as usize))
}

pub fn compare(groups: &mut Groups) {
    let number_again = |number: u32| u32::from(key_number(key_from_index(number as usize)));
    groups.group("key names of the Rust", 0..KEYS, our_name, |number| {
        key_from_index(number as usize).to_string()
    });
    groups.group("key numbers", 0..300, |number| probe_key_number(number), number_again);
    groups.group("same key", pairs_of_keys(), |(a, b)| probe_same_key(a, b), same_key);
    groups.group("relative keys", pairs_of_keys(), |(a, b)| probe_are_relative_keys(a, b), relative);
}
