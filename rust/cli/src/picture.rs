//! The chains of cuts as pictures (SVG): a line down for each user who sold or
//! bought what was cut, and an arrow for each cut, from the seller to the buyer,
//! in the order of the reductions; a dashed line leads from a manager to the member
//! whose sale is cut for it, and members stand beside their manager, under one
//! bracket. A long run has several, each of a size that a page or a phone can show,
//! with the users that it needs. Names and marks lead to the rows of the page's tables.

use daybook::Book;

use crate::page::{link, reduction_place, user_place};
use crate::picture_groups::{bracket, groups, BRACKET};
use daybook_text::chapter::{Chapter, Cut};
use daybook_text::trace::Trace;
use daybook_text::words::{grouped, AREAS};

/// Between two users, by how many there are.
const NARROW: usize = 132;
const WIDE: usize = 170;
const FULL: usize = 760;

/// Beside the first and the last user.
const SIDE: usize = 80;

/// Heights: of the users' names, of an arrow, of what stands between reductions.
const TOP: usize = 64;
const ARROW: usize = 30;
const BETWEEN: usize = 12;

/// A letter of a label at most, an arrow's head with a little room, and how far a label
/// stands above its arrow.
const LETTER: usize = 8;
const HEAD: usize = 18;
const ABOVE: usize = 8;

/// How far below a cut the line from the manager to the member is.
const LEAD: usize = 7;

/// The most users of a picture and its greatest height; a chapter that has more is
/// shown in several pieces.
const MOST_USERS: usize = 7;
const MOST_HEIGHT: usize = 640;

/// A picture, and the reductions that it shows, each chapter's first and last.
pub struct Picture {
    pub svg: String,
    pub chapters: Vec<(u64, u64)>,
}

impl Picture {
    /// Whether it shows a reduction.
    pub fn shows(&self, number: u64) -> bool {
        let has = |(first, last): &(u64, u64)| (*first..=*last).contains(&number);
        self.chapters.iter().any(has)
    }
}

/// The id of a picture, from 1.
pub fn picture_place(place: usize) -> String {
    format!("picture-{place}")
}

/// What the pictures of a day have in common.
struct Scene<'a> {
    book: &'a Book,
    /// The states after the run, by id.
    states: &'a [(u32, &'static str)],
    /// The reductions that have a row of their own.
    rows: Vec<u64>,
}

/// The pictures of the chapters that a trace shows; none where nothing was cut.
/// The states are those after the run, by id.
pub fn pictures(trace: &Trace, states: &[(u32, &'static str)]) -> Vec<Picture> {
    let steps = trace.first.iter().chain(&trace.last);
    let scene = Scene {
        book: &trace.opening,
        states,
        rows: steps.map(|step| step.number).collect(),
    };
    let (first, last) = &trace.chapters;
    let mut pieces: Vec<(u64, Chapter)> = Vec::new();
    let mut shown = 0;
    for chapter in first.iter().chain(last) {
        let mut before = chapter.first - shown - 1;
        shown = chapter.last;
        for piece in in_pieces(chapter) {
            pieces.push((before, piece));
            before = 0;
        }
    }
    let mut parts: Vec<Part> = Vec::new();
    for (before, piece) in &pieces {
        match parts.last_mut() {
            Some(part) if part.has_room(piece) => part.add(*before, piece),
            _ => {
                let mut part = Part::default();
                part.add(*before, piece);
                parts.push(part);
            }
        }
    }
    if let Some(part) = parts.last_mut() {
        part.after = trace.run.reductions.saturating_sub(shown);
    }
    let count = parts.len();
    let picture = |(place, part): (usize, &Part)| part.picture(&scene, (place + 1, count));
    parts.iter().enumerate().map(picture).collect()
}

/// A chapter in pieces of as many users as a picture has room for, its cuts taken
/// buyer by buyer.
fn in_pieces(chapter: &Chapter) -> Vec<Chapter> {
    let mut buyers: Vec<u32> = Vec::new();
    for cut in &chapter.cuts {
        if !buyers.contains(&cut.buyer) {
            buyers.push(cut.buyer);
        }
    }
    let by_buyer = buyers
        .iter()
        .flat_map(|buyer| (0..chapter.cuts.len()).filter(|it| chapter.cuts[*it].buyer == *buyer));
    let mut pieces: Vec<Vec<usize>> = vec![Vec::new()];
    let mut ids = vec![chapter.id];
    for place in by_buyer {
        let cut = &chapter.cuts[place];
        let mut more = ids.clone();
        more.extend([cut.seller, cut.buyer]);
        more.sort_unstable();
        more.dedup();
        if more.len() > MOST_USERS {
            pieces.push(Vec::new());
            more = vec![chapter.id, cut.seller, cut.buyer];
        }
        ids = more;
        if let Some(piece) = pieces.last_mut() {
            piece.push(place);
        }
    }
    let piece = |mut places: Vec<usize>| {
        places.sort_unstable();
        Chapter {
            cuts: places.iter().map(|place| chapter.cuts[*place]).collect(),
            ..chapter.clone()
        }
    };
    pieces.into_iter().map(piece).collect()
}

/// Chapters that stand in one picture, each with how many reductions before it are
/// not shown.
#[derive(Default)]
struct Part<'a> {
    chapters: Vec<(u64, &'a Chapter)>,
    /// The reductions after the last chapter that are not shown.
    after: u64,
    ids: Vec<u32>,
    height: usize,
}

impl<'a> Part<'a> {
    fn has_room(&self, chapter: &Chapter) -> bool {
        let involved = involved(chapter);
        let new = involved.iter().filter(|id| !self.ids.contains(id)).count();
        let height = self.height + chapter_height(chapter);
        self.ids.len() + new <= MOST_USERS && height <= MOST_HEIGHT
    }

    fn add(&mut self, before: u64, chapter: &'a Chapter) {
        for id in involved(chapter) {
            if !self.ids.contains(&id) {
                self.ids.push(id);
            }
        }
        self.height += chapter_height(chapter);
        self.chapters.push((before, chapter));
    }

    /// The picture, with the users in the order of the book, but that members follow
    /// their manager.
    fn picture(&self, scene: &Scene, (picture, count): (usize, usize)) -> Picture {
        let groups = groups(scene.book, &self.ids);
        let ids: Vec<u32> = groups.concat();
        let place = |id: u32| ids.iter().position(|it| *it == id).unwrap_or(0);
        let between = (FULL / ids.len().max(1)).clamp(NARROW, WIDE);
        let between = between.max(self.least_between(place));
        let at = |id: u32| SIDE + between * place(id);
        let width = 2 * SIDE + between * ids.len().saturating_sub(1);
        let (mut rows, mut y) = (String::new(), TOP);
        for (before, chapter) in &self.chapters {
            if *before > 0 {
                rows.push_str(&gap(width, y, *before));
                y += ARROW + BETWEEN;
            }
            let (from, number) = (at(chapter.id), number(chapter));
            let row = scene.rows.iter().copied();
            let row = row
                .filter(|it| (chapter.first..=chapter.last).contains(it))
                .min();
            let mut beside = mark_width(&number) / 2;
            let top = y + ARROW / 2;
            for cut in &chapter.cuts {
                let (middle, seller) = (y + ARROW / 2, at(cut.seller));
                if cut.seller == chapter.id {
                    rows.push_str(&arrow(seller, at(cut.buyer), beside, middle, cut, picture));
                } else {
                    rows.push_str(&lead(from, seller, middle));
                    rows.push_str(&arrow(seller, at(cut.buyer), 0, middle, cut, picture));
                }
                // The first arrow leaves from the mark, the others from the line.
                beside = 0;
                y += ARROW;
            }
            rows.push_str(&mark(from, top, y - ARROW / 2, &number, row));
            y += BETWEEN;
        }
        if self.after > 0 {
            rows.push_str(&gap(width, y, self.after));
            y += ARROW + BETWEEN;
        }
        let lines = ids.iter().map(|id| user(*id, at(*id), y, scene.states));
        let lines: String = lines.collect();
        let several = groups.iter().filter(|group| group.len() > 1);
        let brackets: String = several
            .map(|it| bracket(it[0], at(it[0]), at(it[it.len() - 1])))
            .collect();
        let lift = if brackets.is_empty() { 0 } else { BRACKET };
        let height = y + BETWEEN + lift;
        let reductions = self.reductions();
        let caption = match count {
            1 => String::new(),
            _ => format!("<figcaption>Picture {picture} of {count}: {reductions}</figcaption>\n"),
        };
        let label = format!("Picture {picture} of {count}, who cut whom: {reductions}");
        let svg = format!(
            "<figure>\n{caption}<svg id=\"{}\" viewBox=\"0 0 {width} {height}\" \
             style=\"--width:{width}\" role=\"group\" \
             aria-label=\"{label}\">\n{}<g transform=\"translate(0 {lift})\">\n\
             {brackets}{lines}{rows}</g></svg>\n</figure>\n",
            picture_place(picture),
            heads(picture)
        );
        let chapters = self.chapters.iter().map(|(_, it)| (it.first, it.last));
        Picture {
            svg,
            chapters: chapters.collect(),
        }
    }

    /// How far apart users have to be so that every label stands between the mark and
    /// the head of its arrow.
    fn least_between(&self, place: impl Fn(u32) -> usize) -> usize {
        let chapters = self.chapters.iter();
        let least = chapters.flat_map(|(_, chapter)| {
            let beside = mark_width(&number(chapter)) / 2 + HEAD;
            let place = &place;
            chapter.cuts.iter().map(move |cut| {
                let over = place(cut.seller).abs_diff(place(cut.buyer)).max(1);
                (label(cut).chars().count() * LETTER + beside).div_ceil(over)
            })
        });
        least.max().unwrap_or(0)
    }

    /// The reductions of the picture in words.
    fn reductions(&self) -> String {
        let first = self.chapters.first().map_or(0, |(_, it)| it.first);
        let last = self.chapters.last().map_or(0, |(_, it)| it.last);
        match first == last {
            true => format!("reduction {}", grouped(first)),
            false => format!("reductions {} to {}", grouped(first), grouped(last)),
        }
    }
}

/// The height of a chapter, with a line for what is not shown before it.
fn chapter_height(chapter: &Chapter) -> usize {
    ARROW * (chapter.cuts.len() + 1) + BETWEEN
}

/// The user who was reduced, and those who lost a sale or a purchase, each once.
fn involved(chapter: &Chapter) -> Vec<u32> {
    let mut ids = vec![chapter.id];
    for cut in &chapter.cuts {
        for id in [cut.seller, cut.buyer] {
            if !ids.contains(&id) {
                ids.push(id);
            }
        }
    }
    ids
}

/// The number of a chapter's reduction, or of the first and the last.
fn number(chapter: &Chapter) -> String {
    match chapter.first == chapter.last {
        true => grouped(chapter.first),
        false => format!("{}–{}", grouped(chapter.first), grouped(chapter.last)),
    }
}

/// The heads of a picture's arrows, one for each area's colour.
fn heads(picture: usize) -> String {
    let head = |area: &str| {
        format!(
            "<marker id=\"head-{picture}-{area}\" viewBox=\"0 0 8 8\" refX=\"7\" refY=\"4\" \
             markerWidth=\"7\" markerHeight=\"7\" orient=\"auto-start-reverse\">\
             <path d=\"M0 0L8 4L0 8z\" class=\"{area} head\"/></marker>"
        )
    };
    let heads: String = AREAS.map(head).concat();
    format!("<defs>{heads}</defs>\n")
}

/// A user's name, the state after the run below it, and the line down.
fn user(id: u32, x: usize, end: usize, states: &[(u32, &'static str)]) -> String {
    let state = states
        .iter()
        .find(|(it, _)| *it == id)
        .map_or("", |it| it.1);
    let left = x - 40;
    let name = format!(
        "<rect class=\"name\" x=\"{left}\" y=\"4\" width=\"80\" height=\"40\" rx=\"6\"/>\
         <text class=\"id\" x=\"{x}\" y=\"21\">{id}</text>\
         <text class=\"state\" x=\"{x}\" y=\"37\">{state}</text>"
    );
    let name = link(&user_place(id), &name);
    format!("<line class=\"life\" x1=\"{x}\" y1=\"44\" x2=\"{x}\" y2=\"{end}\"/>{name}\n")
}

/// How wide the mark with a number is.
fn mark_width(number: &str) -> usize {
    14 + 8 * number.chars().count()
}

/// The number of a reduction on the line of the user who was reduced, which leads to
/// its row, where it has one, and a bar down to its last arrow.
fn mark(x: usize, y: usize, last: usize, number: &str, row: Option<u64>) -> String {
    let width = mark_width(number);
    let (left, top, base) = (x.saturating_sub(width / 2), y - 11, y + 4);
    let mark = format!(
        "<rect class=\"mark\" x=\"{left}\" y=\"{top}\" width=\"{width}\" height=\"22\" rx=\"11\"/>\
         <text class=\"number\" x=\"{x}\" y=\"{base}\">{number}</text>"
    );
    let mark = match row {
        Some(row) => link(&reduction_place(row), &mark),
        None => mark,
    };
    format!("<line class=\"bar\" x1=\"{x}\" y1=\"{y}\" x2=\"{x}\" y2=\"{last}\"/>{mark}\n")
}

/// A cut: from the seller's line, or beside it, to the buyer's.
fn arrow(from: usize, to: usize, beside: usize, y: usize, cut: &Cut, picture: usize) -> String {
    let area = AREAS[cut.area];
    let (start, end) = match from < to {
        true => (from + beside, to - 2),
        false => (from.saturating_sub(beside), to + 2),
    };
    let (middle, above) = (start.midpoint(end), y - ABOVE);
    let label = label(cut);
    format!(
        "<line class=\"cut {area}\" x1=\"{start}\" y1=\"{y}\" x2=\"{end}\" y2=\"{y}\" \
         marker-end=\"url(#head-{picture}-{area})\"/>\
         <text class=\"mwh\" x=\"{middle}\" y=\"{above}\">{label}</text>\n"
    )
}

/// How many MWh a cut took, and in which area.
fn label(cut: &Cut) -> String {
    format!("{} MWh {}", grouped(cut.mwh), AREAS[cut.area])
}

/// From the line of a manager to that of the member whose sale is cut for it, a
/// little below the cut.
fn lead(from: usize, to: usize, y: usize) -> String {
    let below = y + LEAD;
    format!(
        "<path class=\"lead\" d=\"M{from} {y}V{below}H{to}V{y}\"/>\
         <circle class=\"member\" cx=\"{to}\" cy=\"{y}\" r=\"3\"/>\n"
    )
}

/// What stands for the reductions that are not shown.
fn gap(width: usize, y: usize, unshown: u64) -> String {
    let (middle, base) = (width / 2, y + ARROW / 2 + 4);
    let unshown = grouped(unshown);
    format!(
        "<text class=\"gap\" x=\"{middle}\" y=\"{base}\">… {unshown} reductions more …</text>\n"
    )
}
