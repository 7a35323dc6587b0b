//! Sets of cards with their summaries, beside a list of cards that is kept by the request's words: every answer, and
//! every byte and number that is lent, after every call.
use crate::groups::Groups;
use crate::set_edges::compare_edges;
use crate::set_histories::compare_histories;
use crate::set_orders::compare_refusals;
use crate::set_places::compare_places;
use crate::set_summaries::compare_summaries;
use crate::set_unreadable::compare_unreadable;

pub fn compare(groups: &mut Groups) {
    compare_histories(groups);
    compare_edges(groups);
    compare_places(groups);
    compare_unreadable(groups);
    compare_summaries(groups);
    compare_refusals(groups);
}
