//! Lists of estimates from a seed, as lent rows and as the oracle has them.
use bench::inputs::dice::Dice;
use bench::oracle::key_lime::expose::{Estimate, key_from_index, key_number};
use ulyptesh::calls::EstimateRows;

/// Most estimates of a list.
const MOST_ESTIMATES: usize = 60;

/// From one window's middle to the next, by list: every half second, and with equal ones between.
const STEPS: [&[f64]; 6] = [&[0.5], &[0.5, 0.0], &[6.0], &[6.0, 12.0], &[1.0 / 3.0, 0.7, 0.0], &[0.0]];

/// Rows that nothing was written to, so many of each list.
pub fn untouched_estimates(room: [usize; 4]) -> EstimateRows {
    EstimateRows {
        middles: vec![-7.25; room[0]],
        numbers: vec![0xa5; room[1]],
        certainties: vec![-9.25; room[2]],
        shapeless: vec![0x5a; room[3]],
    }
}

/// Writes the oracle's estimates from the front of the rows, and whether their chromas have no shape.
pub fn put_estimates(estimates: &[Estimate], shapeless: &[bool], rows: &mut EstimateRows) {
    assert_eq!(estimates.len(), shapeless.len(), "each estimate has a chroma");
    for (place, &(middle, key, confidence)) in estimates.iter().enumerate() {
        rows.middles[place] = middle;
        rows.numbers[place] = key_number(key);
        rows.certainties[place] = confidence;
        rows.shapeless[place] = shapeless[place].into();
    }
}

/// The estimates in the rows, as the oracle has them; segments rest on no more of them.
pub fn as_theirs(rows: &EstimateRows) -> Vec<Estimate> {
    let lists = rows.middles.iter().zip(&rows.numbers).zip(&rows.certainties);
    lists.map(|((&middle, &key), &confidence)| (middle, key_from_index(key.into()), confidence)).collect()
}

/// Few keys, each as often as the others or by chance, in any order.
pub fn key_numbers(dice: &mut Dice) -> Vec<u8> {
    let keys = dice.few_keys();
    if dice.one_in(2) {
        return (0..1 + dice.below(MOST_ESTIMATES)).map(|_| dice.one_of(&keys)).collect();
    }
    let each = 1 + dice.below(MOST_ESTIMATES / keys.len());
    let mut numbers = keys.repeat(each);
    dice.shuffle(&mut numbers);
    numbers
}

/// At the threshold, a step beside it, no number, or any.
fn certainty(dice: &mut Dice, threshold: f32) -> f32 {
    let any = dice.unit();
    dice.one_of(&[threshold, threshold.next_down(), threshold.next_up(), f32::NAN, 0.0, 1.0, any, any])
}

/// Rising middles, few keys that stay for a while, confidences around the threshold.
pub fn estimates(dice: &mut Dice, threshold: f32) -> EstimateRows {
    let (keys, steps, stay) = (dice.few_keys(), dice.one_of(&STEPS), 1 + dice.below(8));
    let (mut middle, mut key) = (dice.one_of(&[0.0, 0.25, 6.0, 10.0 / 3.0]), keys[0]);
    let mut rows = untouched_estimates([0; 4]);
    for _ in 0..dice.below(MOST_ESTIMATES + 1) {
        if dice.one_in(stay) {
            key = dice.one_of(&keys);
        }
        rows.middles.push(middle);
        rows.numbers.push(key);
        rows.certainties.push(certainty(dice, threshold));
        middle += dice.one_of(steps);
    }
    rows
}
