//! A run taken apart, reduction by reduction.
//!
//! Each reduction is made by the engine, and so are its figures, its cuts and the
//! book after it. Beside them stand the worth of each tier, what it is asked for,
//! and each trade's share with its remainder; the tests hold these to the cuts.

use daybook::{Book, Level, Operator, Prices, Reduction, Refusal, Run, Trade, User};

use crate::called_in::{called_in, CalledIn};
use crate::cause::{Cause, Causes};
use crate::chapter::{Chapter, Span};
use crate::credit::{credited, Credited};
use crate::ends::Ends;
use crate::groups::{area_of, bearers, is_eligible, position, shares, Share};
use crate::store::Figures;

/// A sale that a reduction may cut.
#[derive(Clone, Copy, Debug, PartialEq, Eq)]
pub struct Sale {
    /// The trade's place, from 0.
    pub place: usize,
    pub trade: Trade,
    /// The whole part of standing × A / V, where the tier is asked for A of V.
    pub share: u64,
    /// The remainder of that division.
    pub remainder: u128,
    /// What the engine cut.
    pub cut: u32,
}

/// The sales of a tier.
#[derive(Clone, Debug, Default, PartialEq, Eq)]
pub struct Tier {
    /// A, in cents.
    pub asked: u64,
    /// V, in cents.
    pub worth: u64,
    pub sales: Vec<Sale>,
}

/// A position that a reduction moved.
#[derive(Clone, Copy, Debug, PartialEq, Eq)]
pub struct Move {
    pub id: u32,
    pub area: usize,
    pub before: i32,
    pub after: i32,
}

/// A reduction.
#[derive(Clone, Debug, PartialEq, Eq)]
pub struct Step {
    /// Its place in the run, from 1.
    pub number: u64,
    /// The user before it.
    pub user: User,
    pub level: u64,
    /// The groups that the user is in.
    pub shares: Vec<Share>,
    /// The credit in the level, in a version that has it.
    pub credited: Option<Credited>,
    pub called_in: CalledIn,
    pub answer: Reduction,
    pub tiers: [Tier; 2],
    pub moves: Vec<Move>,
    /// The earlier cut that made the user short of cover; none of one that is so by
    /// itself.
    pub cause: Option<Cause>,
    /// Who is reduced next.
    pub next: Option<u32>,
}

/// A run.
#[derive(Clone, Debug, PartialEq, Eq)]
pub struct Trace {
    pub opening: Book,
    pub closing: Book,
    pub run: Run,
    /// The first reductions.
    pub first: Vec<Step>,
    /// The last of those after them.
    pub last: Vec<Step>,
    /// The first chapters of the run, and the last of those after them.
    pub chapters: (Vec<Chapter>, Vec<Chapter>),
    /// How often each user was reduced, in the order of the book, as far as the
    /// run was taken apart.
    pub counts: Vec<(u32, u64)>,
    /// How many of them were of users short of cover by themselves, and how many came of
    /// an earlier cut.
    pub causes: (u64, u64),
    /// How many reductions were taken apart, and the book after them.
    pub taken: u64,
    pub reached: Book,
}

/// How much of a run is taken apart.
#[derive(Clone, Copy, Debug, PartialEq, Eq)]
pub struct Extent {
    /// Reductions shown from the first on.
    pub first: usize,
    /// Reductions shown up to the last.
    pub last: usize,
    /// Chapters shown from the first on, and up to the last.
    pub chapters: (usize, usize),
    /// The most that are made one by one.
    pub most: u64,
}

/// The run of an accepted book.
pub fn trace(
    operator: Operator,
    figures: &Figures,
    bytes: &[u8],
    extent: Extent,
) -> Result<Trace, Refusal> {
    taken_apart(operator, figures, bytes, extent, None)
}

/// The run of an accepted book, each reduction told as soon as it is known who is next,
/// and none kept, up to so many; who is told says whether there is more to tell.
pub fn told(
    operator: Operator,
    figures: &Figures,
    bytes: &[u8],
    most: u64,
    tell: &mut dyn FnMut(&Step) -> bool,
) -> Result<Trace, Refusal> {
    let extent = Extent {
        first: 0,
        last: 0,
        chapters: (0, 0),
        most,
    };
    taken_apart(operator, figures, bytes, extent, Some(tell))
}

fn taken_apart(
    operator: Operator,
    figures: &Figures,
    bytes: &[u8],
    extent: Extent,
    mut tell: Option<&mut dyn FnMut(&Step) -> bool>,
) -> Result<Trace, Refusal> {
    let mut after = bytes.to_vec();
    let run = operator.without_log().run(&mut after)?;
    let opening = Operator::new().read(bytes)?;
    let mut walk = Walk::new(operator.without_log(), bytes, &opening);
    let mut counts: Vec<(u32, u64)> = opening.users.iter().map(|user| (user.id, 0)).collect();
    let mut steps: Ends<Raw> = Ends::new(extent.first, extent.last);
    let mut chapters: Ends<Span> = Ends::new(extent.chapters.0, extent.chapters.1);
    let mut causes = Causes::new(&operator, bytes, &opening);
    let mut taken = 0;
    let mut untold: Option<Raw> = None;
    let step = |raw: &Raw| raw.step(&operator, figures);
    while taken < extent.most {
        let before = walk.bytes.clone();
        let Some((id, answer)) = walk.advance() else {
            break;
        };
        taken += 1;
        if let Some((_, count)) = counts.iter_mut().find(|(it, _)| *it == id) {
            *count += 1;
        }
        if let Some(previous) = steps.newest() {
            previous.next = Some(id);
        }
        match chapters.newest() {
            Some(span) if span.id == id => {
                span.last = taken;
                span.after.clone_from(&walk.bytes);
            }
            _ => chapters.push(Span {
                first: taken,
                last: taken,
                id,
                before: before.clone(),
                after: walk.bytes.clone(),
            }),
        }
        let cause = causes.tell(taken, id, &before, &walk.bytes);
        let raw = Raw {
            number: taken,
            id,
            answer,
            cause,
            before,
            after: walk.bytes.clone(),
            next: None,
        };
        let Some(tell) = &mut tell else {
            steps.push(raw);
            continue;
        };
        if let Some(mut previous) = untold.replace(raw) {
            previous.next = Some(id);
            if !tell(&step(&previous)?) {
                untold = None;
                break;
            }
        }
    }
    if let (Some(tell), Some(last)) = (tell, untold) {
        tell(&step(&last)?);
    }
    let (first, mut last) = steps.into_lists();
    let (opened, mut closed) = chapters.into_lists();
    // What is not made one by one has no last reduction to show.
    if taken < run.reductions {
        last.clear();
        closed.clear();
    }
    let chapter = |span: &Span| span.chapter();
    Ok(Trace {
        closing: Operator::new().read(&after)?,
        opening,
        run,
        first: first.iter().map(step).collect::<Result<_, _>>()?,
        last: last.iter().map(step).collect::<Result<_, _>>()?,
        chapters: (
            opened.iter().map(chapter).collect::<Result<_, _>>()?,
            closed.iter().map(chapter).collect::<Result<_, _>>()?,
        ),
        counts,
        causes: causes.counts,
        taken,
        reached: Operator::new().read(&walk.bytes)?,
    })
}

/// The reductions of a run, made one by one.
///
/// The next is the lowest id whose reduction the engine accepts: its questions are
/// those of a user who is short of cover and has an eligible trade. A reduction
/// changes what they say of the one who bears the sellers' risk and of those who bear
/// the buyers', and of nobody else, so that only these are asked again.
pub struct Walk<'a> {
    operator: Operator<'a>,
    pub bytes: Vec<u8>,
    ids: Vec<u32>,
    /// For each user the places of those who bear the risk of what is bought from it
    /// and from those whose risk it bears.
    buyers: Vec<Vec<usize>>,
    /// The users that are known not to be next.
    idle: Vec<bool>,
}

impl<'a> Walk<'a> {
    pub fn new(operator: Operator<'a>, bytes: &[u8], book: &Book) -> Walk<'a> {
        let ids: Vec<u32> = book.users.iter().map(|user| user.id).collect();
        let mut buyers = vec![Vec::new(); ids.len()];
        for trade in book.trades.iter().filter(|trade| trade.can_be_cut()) {
            let place = |id: u32| ids.iter().position(|it| *it == id);
            let (seller, buyer) = bearers(book, trade);
            if let (Some(seller), Some(buyer)) = (place(seller), place(buyer)) {
                if !buyers[seller].contains(&buyer) {
                    buyers[seller].push(buyer);
                }
            }
        }
        Walk {
            operator,
            bytes: bytes.to_vec(),
            idle: vec![false; ids.len()],
            ids,
            buyers,
        }
    }

    /// Makes the next reduction, and tells whose it was.
    pub fn advance(&mut self) -> Option<(u32, Reduction)> {
        for place in 0..self.ids.len() {
            if self.idle[place] {
                continue;
            }
            let id = self.ids[place];
            match self.operator.reduction(&mut self.bytes, id) {
                Err(_) => self.idle[place] = true,
                Ok(answer) => {
                    for buyer in &self.buyers[place] {
                        self.idle[*buyer] = false;
                    }
                    return Some((id, answer));
                }
            }
        }
        None
    }
}

/// A reduction with the books around it.
struct Raw {
    number: u64,
    id: u32,
    answer: Reduction,
    cause: Option<Cause>,
    before: Vec<u8>,
    after: Vec<u8>,
    next: Option<u32>,
}

impl Raw {
    fn step(&self, operator: &Operator, figures: &Figures) -> Result<Step, Refusal> {
        let (before, after) = (
            Operator::new().read(&self.before)?,
            Operator::new().read(&self.after)?,
        );
        let user = operator.record(&self.before, self.id)?;
        let Level(level) = operator.afternoon_level(&self.before, self.id)?;
        Ok(Step {
            number: self.number,
            user,
            level,
            shares: shares(&before, &user),
            credited: credited(operator, &before, &user)?,
            called_in: called_in(figures, &before, &user),
            answer: self.answer,
            tiers: tiers(&before, &after, &user, self.answer.target),
            moves: moves(&before, &after),
            cause: self.cause,
            next: self.next,
        })
    }
}

/// The tariff t of each area, in cents.
pub fn tariffs(prices: &Prices) -> [u64; 3] {
    let (pvb, other) = (prices.pvb_tariff, prices.tank_and_store_tariff);
    [pvb, other, other].map(u64::from)
}

/// The reference price w of each area, in cents.
pub fn reference_prices(prices: &Prices) -> [u64; 3] {
    let [p, q, _] = tariffs(prices);
    let toll = |tolls: &[u32]| tolls.iter().map(|toll| u64::from(*toll)).sum::<u64>();
    let tank = q + toll(&[prices.liquefaction_toll]);
    let store = q + toll(&[prices.exit_toll, prices.injection_toll]);
    [p, tank, store]
}

/// Tier one has the sales in areas where the position that the user bears is negative,
/// tier two the others; tier one takes T, tier two what tier one's worth leaves of it.
fn tiers(before: &Book, after: &Book, user: &User, target: u64) -> [Tier; 2] {
    let tariffs = tariffs(&before.prices);
    let mut tiers = [Tier::default(), Tier::default()];
    let positions = [0, 1, 2].map(|area| position(before, user.id, area));
    let trades = before.trades.iter().zip(&after.trades).enumerate();
    for (place, (trade, later)) in trades {
        if !is_eligible(before, user.id, trade) {
            continue;
        }
        let area = area_of(trade);
        let tier = &mut tiers[usize::from(positions[area] >= 0)];
        tier.worth += u64::from(trade.standing) * tariffs[area];
        tier.sales.push(Sale {
            place,
            trade: *trade,
            share: 0,
            remainder: 0,
            cut: trade.standing.saturating_sub(later.standing),
        });
    }
    tiers[0].asked = target;
    tiers[1].asked = target.saturating_sub(tiers[0].worth);
    for tier in &mut tiers {
        let (asked, worth) = (u128::from(tier.asked), u128::from(tier.worth));
        for sale in &mut tier.sales {
            let product = u128::from(sale.trade.standing) * asked.min(worth);
            sale.share = u64::try_from(product.checked_div(worth).unwrap_or(0)).unwrap_or(0);
            sale.remainder = product.checked_rem(worth).unwrap_or(0);
        }
    }
    tiers
}

fn moves(before: &Book, after: &Book) -> Vec<Move> {
    let mut moves = Vec::new();
    for (user, later) in before.users.iter().zip(&after.users) {
        for area in 0..3 {
            let (before, after) = (user.position[area], later.position[area]);
            if before != after {
                moves.push(Move {
                    id: user.id,
                    area,
                    before,
                    after,
                });
            }
        }
    }
    moves
}
