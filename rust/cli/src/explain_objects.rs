//! A run as objects: one for each reduction that is shown, and one of the whole.

use daybook::Book;

use crate::calls::reduction_object;
use crate::form::or_null;
use daybook_text::credit::{by_area, Credited};
use daybook_text::groups::with_groups;
use daybook_text::json::{list, Object};
use daybook_text::trace::{Step, Tier, Trace};
use daybook_text::words::{word, AREAS};

/// The run's totals, and how many reductions are shown.
pub fn run_object(name: &str, trace: &Trace, shown: u64) -> String {
    let run = &trace.run;
    let object = Object::new()
        .string("book", name)
        .put("reductions", run.reductions)
        .put("shown", shown)
        .put("taken_apart", trace.taken)
        .put("mwh", run.mwh)
        .put("worth_cents", run.worth);
    object.end()
}

/// A reduction as an object. A book keeps its managers, so that the groups are those of
/// the opening one.
pub fn step_object(name: &str, step: &Step, opening: &Book) -> String {
    let object = Object::new()
        .string("book", name)
        .put("reduction", step.number)
        .put("id", step.user.id);
    let object = with_groups(object, opening, &step.user).put("level_cents", step.level);
    let object = match &step.credited {
        Some(Credited { without, credits }) => object
            .put("level_without_credit_cents", without)
            .put("credit_cents", list(by_area(credits))),
        None => object,
    };
    let object = object
        .put("assigned_cents", step.user.assigned)
        .put("blocked_cents", step.user.blocked)
        .put("flagged", step.called_in.is_flagged())
        .put("party_to_cut", step.called_in.is_party());
    let moves = step.moves.iter().map(|it| {
        Object::new()
            .put("id", it.id)
            .string("area", AREAS[it.area])
            .put("before_mwh", it.before)
            .put("after_mwh", it.after)
            .end()
    });
    reduction_object(object, &step.answer)
        .put("tiers", list(step.tiers.iter().map(tier_object)))
        .put("moves", list(moves))
        .put("next", or_null(step.next))
        .end()
}

fn tier_object(tier: &Tier) -> String {
    let sales = tier.sales.iter().map(|sale| {
        Object::new()
            .put("trade", sale.place + 1)
            .put("seller", sale.trade.seller)
            .put("buyer", sale.trade.buyer)
            .string("area", &word(&AREAS, sale.trade.area))
            .put("standing_mwh", sale.trade.standing)
            .put("share_mwh", sale.share)
            .put("remainder", sale.remainder)
            .put("cut_mwh", sale.cut)
            .end()
    });
    Object::new()
        .put("asked_cents", tier.asked)
        .put("worth_cents", tier.worth)
        .put("sales", list(sales))
        .end()
}
