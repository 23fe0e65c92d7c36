//! A schedule as a picture (SVG): a lane for each task, each item at its place from left to right, coloured by its ending; below it a thin
//! lane for the tries of its SFU queue, if it has some.
//!
//! A column takes as many items as make at most `COLUMNS` of them, so a picture stays small however long the schedule is. In a lane's
//! column the colours stand in the shares of that task's items; an ending that came at all is to be seen. A trap and the create fault
//! flag are marked at their item; below a lane stands what its processes waited for.

use super::reason::{reason, Look};
use super::taken::{self, place, Taken};
use super::text::Symbols;
use crate::emulator::machine::{Attempt, Counts, Ending, Machine};
use crate::emulator::psw;
use std::collections::BTreeMap;
use std::ops::Range;

/// The most columns, and the width of all together.
const COLUMNS: usize = 240;
const PLOT: usize = 960;

/// Places of the lanes.
const LEFT: usize = 80;
const TOP: usize = 96;
const PITCH: usize = 72;

/// The width behind the lanes: of a letter of the counts there, and the least of all.
const LETTER: usize = 8;
const BEHIND: usize = 190;

/// A lane's kind: the height of its columns, and the least of an ending that came in one.
#[derive(Clone, Copy)]
struct Kind {
    height: usize,
    least: usize,
}
const LANE: Kind = Kind { height: 32, least: 3 };
const THIN: Kind = Kind { height: 6, least: 2 };

/// From a lane's top to the thin one's, and to the line of what was waited for.
const THIN_TOP: usize = LANE.height + 2;
const WAITS: usize = LANE.height + 19;

/// The endings from a lane's foot up: name with the letter of its count, and colour.
const ENDINGS: [(&str, &str); 4] = [
    ("executed E", "#2f6fb5"),
    ("idle I", "#cfd4da"),
    ("waved (waits) W", "#f5a300"),
    ("trapped T", "#d0202a"),
];
const NO_ITEM: &str = "#f6f7f9";

/// What is drawn.
pub struct View<'a> {
    /// The file's name.
    pub name: &'a str,
    pub symbols: &'a Symbols,
    /// The items that are drawn; all are run.
    pub items: Range<usize>,
}

/// For each column how many items or tries ended each way, in the order of `ENDINGS`.
type Columns = Vec<[usize; ENDINGS.len()]>;

/// What a task's lane shows.
struct Lane {
    task: u8,
    columns: Columns,
    tries: Columns,
    /// The item at which it trapped and why; none if it was trapped before.
    trapped_at: Option<(usize, String)>,
    /// How many drawn attempts waited for each cell.
    waits: BTreeMap<String, usize>,
}

impl Lane {
    fn total(&self, ending: usize) -> usize {
        self.columns.iter().map(|column| column[ending]).sum()
    }

    fn tries(&self) -> usize {
        self.tries.iter().flatten().sum()
    }

    /// The task's own counts, of the items that are drawn.
    fn counts(&self) -> Counts {
        Counts {
            executed: self.total(0) as u64,
            idle: self.total(1) as u64,
            waved: self.total(2) as u64,
            trapped: self.total(3) as u64,
            tries: self.tries() as u64,
        }
    }

    /// An attempt of this item, which stands in this column if it is drawn.
    fn note(&mut self, look: Look, ending: Ending, item: usize, column: Option<usize>) {
        if let (Some(column), Attempt::Try) = (column, look.taken.attempt) {
            self.tries[column][place_of(ending)] += 1;
        }
        match ending {
            Ending::Waved if column.is_some() => {
                *self.waits.entry(look.waited_for()).or_insert(0) += 1;
            }
            Ending::Trapped { .. } => self.trapped_at = Some((item, reason(look, ending))),
            _ => {}
        }
    }
}

/// The whole picture of a run.
struct Picture {
    /// The items that are drawn, and how many there are.
    items: Range<usize>,
    all: usize,
    /// Items of a column.
    each: usize,
    lanes: Vec<Lane>,
    /// The item that raised the create fault flag.
    fault_at: Option<usize>,
}

impl Picture {
    fn new(machine: &Machine, schedule: &[u8], view: &View) -> Self {
        let all = schedule.len();
        let items = view.items.start.min(all)..view.items.end.min(all);
        let each = items.len().div_ceil(COLUMNS).max(1);
        let listed: Vec<u8> = machine.tasks().collect();
        let shown = (1..=7).filter(|task| listed.contains(task) || schedule.contains(task));
        let columns: Columns = vec![[0; ENDINGS.len()]; items.len().div_ceil(each)];
        let lane = |task| Lane {
            task,
            columns: columns.clone(),
            tries: columns.clone(),
            trapped_at: None,
            waits: BTreeMap::new(),
        };
        Picture { items, all, each, lanes: shown.map(lane).collect(), fault_at: None }
    }

    /// With room for the longest counts behind a lane.
    fn width(&self) -> usize {
        let letters = self.lanes.iter().map(|lane| lane.counts().to_string().len()).max();
        LEFT + PLOT + BEHIND.max(LETTER * letters.unwrap_or(0) + 16)
    }
}

/// Runs the schedule and draws it.
pub fn svg(machine: &mut Machine, schedule: &[u8], view: &View) -> String {
    let picture = run(machine, schedule, view);
    let (width, height) = (picture.width(), TOP + PITCH * picture.lanes.len() + 56);
    let mut out = format!(
        "<svg xmlns=\"http://www.w3.org/2000/svg\" width=\"{width}\" height=\"{height}\" \
         viewBox=\"0 0 {width} {height}\" font-family=\"sans-serif\" font-size=\"13\">\n\
         <title>{}: the steps of its schedule</title>\n\
         <rect width=\"{width}\" height=\"{height}\" fill=\"#fff\"/>\n",
        escaped(view.name)
    );
    heading(&mut out, &picture);
    for (place, lane) in picture.lanes.iter().enumerate() {
        let top = TOP + PITCH * place;
        columns(&mut out, &picture, &lane.columns, top, LANE);
        if lane.tries() > 0 {
            columns(&mut out, &picture, &lane.tries, top + THIN_TOP, THIN);
        }
        labels(&mut out, machine, lane, top);
        waits(&mut out, lane, top);
        trap(&mut out, machine, &picture, lane, top, view.symbols);
    }
    axis(&mut out, &picture);
    let from =
        format!("{}; steps by the emulator of hep-tools, which is not proved", escaped(view.name));
    text(
        &mut out,
        &(width - 16).to_string(),
        height - 8,
        " text-anchor=\"end\" font-size=\"11\" fill=\"#555\"",
        &from,
    );
    out + "</svg>\n"
}

/// Text as SVG takes it.
fn escaped(text: &str) -> String {
    text.replace('&', "&amp;").replace('<', "&lt;").replace('>', "&gt;")
}

/// The lanes of the listed tasks and of the others that have items.
fn run(machine: &mut Machine, schedule: &[u8], view: &View) -> Picture {
    let mut picture = Picture::new(machine, schedule, view);
    for (item, &task) in schedule.iter().enumerate() {
        let flag = machine.create_fault();
        let column =
            picture.items.contains(&item).then(|| (item - picture.items.start) / picture.each);
        let Some(lane) = picture.lanes.iter_mut().find(|lane| lane.task == task) else { continue };
        let note = |machine: &Machine, taken: Taken, ending: Ending| {
            lane.note(Look { machine, symbols: view.symbols, taken: &taken }, ending, item, column);
        };
        let ending = taken::item(machine, task, |_, taken| taken, note);
        if let Some(column) = column {
            lane.columns[column][place_of(ending)] += 1;
        }
        if machine.create_fault() && !flag {
            picture.fault_at = Some(item);
        }
    }
    picture
}

/// The ending's place in `ENDINGS`.
fn place_of(ending: Ending) -> usize {
    match ending {
        Ending::Executed => 0,
        Ending::Idle => 1,
        Ending::Waved => 2,
        Ending::Trapped { .. } => 3,
    }
}

/// Where an item begins, in tenths.
fn x_of(picture: &Picture, item: usize) -> usize {
    let drawn = item.clamp(picture.items.start, picture.items.end) - picture.items.start;
    10 * LEFT + 10 * PLOT * drawn / picture.items.len().max(1)
}

/// Tenths as SVG has them.
fn tenths(value: usize) -> String {
    match value % 10 {
        0 => format!("{}", value / 10),
        rest => format!("{}.{rest}", value / 10),
    }
}

fn text(out: &mut String, x: &str, y: usize, more: &str, text: &str) {
    *out += &format!("<text x=\"{x}\" y=\"{y}\"{more}>{text}</text>\n");
}

/// Items, columns and the flag; below it the legend with the counts of all tasks.
fn heading(out: &mut String, picture: &Picture) {
    let Picture { items, all, each, .. } = picture;
    let scale = match each {
        1 => "a column for each item".to_string(),
        _ => format!("each column is {each} items, heights are their shares"),
    };
    let fault = match picture.fault_at {
        Some(item) => format!("; create fault flag up at item {item}"),
        None => String::new(),
    };
    let drawn = match items.len() == *all {
        true => format!("{all} items"),
        false => format!("items {} to {} (of {all})", items.start, items.end.saturating_sub(1)),
    };
    let tasks = match picture.lanes.len() {
        1 => "1 task".to_string(),
        tasks => format!("{tasks} tasks"),
    };
    let title = format!("{drawn} of {tasks}, {scale}{fault}");
    text(out, "16", 26, " font-size=\"16\" font-weight=\"bold\"", &title);
    for (place, (name, colour)) in ENDINGS.iter().enumerate() {
        let count: usize = picture.lanes.iter().map(|lane| lane.total(place)).sum();
        legend(out, place, colour, &format!("{name}{count}"));
    }
    legend(out, ENDINGS.len(), NO_ITEM, "no item of the task");
    let tries: usize = picture.lanes.iter().map(Lane::tries).sum();
    if tries > 0 {
        let x = LEFT + LEGEND * (ENDINGS.len() + 1);
        text(out, &x.to_string(), 55, "", &format!("thin lane: tries S{tries}"));
    }
}

/// From one colour's meaning to the next.
const LEGEND: usize = 190;

/// A colour and what it means.
fn legend(out: &mut String, place: usize, colour: &str, meaning: &str) {
    let x = LEFT + LEGEND * place;
    *out += &format!(
        "<rect x=\"{x}\" y=\"42\" width=\"16\" height=\"16\" fill=\"{colour}\" stroke=\"#bbb\"/>\n"
    );
    text(out, &(x + 22).to_string(), 55, "", meaning);
}

/// Heights of the endings of a column: their shares of the lane, each that came at least `least`.
fn heights(column: &[usize; 4], Kind { height, least }: Kind) -> [usize; 4] {
    let all: usize = column.iter().sum();
    if all == 0 {
        return [0; 4];
    }
    let mut heights = column.map(|n| if n == 0 { 0 } else { least.max(height * n / all) });
    // What rounding leaves over or asks too much is the largest's.
    let largest = (0..4).max_by_key(|&i| column[i]).unwrap_or(0);
    let others: usize = (0..4).filter(|&i| i != largest).map(|i| heights[i]).sum();
    heights[largest] = height - others;
    heights
}

/// The columns of a lane, a path for each ending; neighbours of one height are one piece.
fn columns(out: &mut String, picture: &Picture, columns: &Columns, top: usize, kind: Kind) {
    let lane = kind.height;
    *out += &format!(
        "<rect x=\"{LEFT}\" y=\"{top}\" width=\"{PLOT}\" height=\"{lane}\" fill=\"{NO_ITEM}\"/>\n"
    );
    let heights: Columns = columns.iter().map(|column| heights(column, kind)).collect();
    for (ending, (_, colour)) in ENDINGS.iter().enumerate() {
        let mut path = String::new();
        let mut first = 0;
        while first < heights.len() {
            let piece = |column: &[usize; 4]| (column[..ending].iter().sum(), column[ending]);
            let (foot, height): (usize, usize) = piece(&heights[first]);
            let same = heights[first..].iter().take_while(|other| piece(other) == (foot, height));
            let end = first + same.count();
            if height > 0 {
                let item = |column: usize| picture.items.start + column * picture.each;
                let (left, right) = (x_of(picture, item(first)), x_of(picture, item(end)));
                let (x, width, y) = (tenths(left), tenths(right - left), top + lane - foot);
                path += &format!("M{x} {y}h{width}v-{height}h-{width}z");
            }
            first = end;
        }
        if !path.is_empty() {
            *out += &format!("<path fill=\"{colour}\" d=\"{path}\"/>\n");
        }
    }
}

/// The task's name, and its own counts and processes behind the lane.
fn labels(out: &mut String, machine: &Machine, lane: &Lane, top: usize) {
    text(out, "16", top + 21, " font-weight=\"bold\"", &format!("task {}", lane.task));
    let x = (LEFT + PLOT + 10).to_string();
    text(out, &x, top + 13, "", &lane.counts().to_string());
    let live = match machine.live_count(lane.task) {
        _ if machine.tasks().all(|task| task != lane.task) => "not in the image".to_string(),
        1 => "1 process at the end".to_string(),
        live => format!("{live} processes at the end"),
    };
    text(out, &x, top + 29, " fill=\"#555\"", &live);
}

/// What the task's processes waited for, the most first.
fn waits(out: &mut String, lane: &Lane, top: usize) {
    let mut waits: Vec<(&String, &usize)> = lane.waits.iter().collect();
    waits.sort_by_key(|(_, count)| std::cmp::Reverse(**count));
    let shown: Vec<String> =
        waits.iter().take(4).map(|(name, count)| format!("{name} ({count})")).collect();
    if shown.is_empty() {
        return;
    }
    let more =
        if waits.len() > 4 { format!(" and {} more", waits.len() - 4) } else { String::new() };
    let said = escaped(&format!("waited for {}{more}", shown.join(", ")));
    text(out, &LEFT.to_string(), top + WAITS, " font-size=\"11\" fill=\"#8a5a00\"", &said);
}

/// A mark at the item that trapped, with its record, and the reason where a pointer rests on it.
fn trap(
    out: &mut String,
    machine: &Machine,
    picture: &Picture,
    lane: &Lane,
    top: usize,
    symbols: &Symbols,
) {
    let Some((kind, psw)) = machine.trap_record(lane.task) else { return };
    let colour = ENDINGS[3].1;
    let pc = psw::pc(psw);
    let (item, when, why) = match &lane.trapped_at {
        Some((item, why)) => (*item, format!("at item {item}"), why.as_str()),
        None => (0, "before the run".to_string(), ""),
    };
    let x = x_of(picture, item);
    let (shift, anchor) = if x > 10 * (LEFT + PLOT / 2) { (-8, "end") } else { (8, "start") };
    let (left, tip, foot) = (tenths(x), top - 2, top + LANE.height + 4);
    *out += &format!(
        "<path fill=\"{colour}\" stroke=\"{colour}\" stroke-width=\"2\" d=\"M{left} {foot}V{tip}l-5 -9h10l-5 9\"><title>{}</title></path>\n",
        escaped(why)
    );
    let more =
        format!(" dx=\"{shift}\" text-anchor=\"{anchor}\" fill=\"{colour}\" font-weight=\"bold\"");
    let label =
        place(machine, symbols, lane.task, pc).map_or(String::new(), |label| format!(" ({label})"));
    text(
        out,
        &left,
        top - 4,
        &more,
        &escaped(&format!("trap {kind:02X} {when}, PC {pc:05X}{label}")),
    );
}

/// The items below the lanes, and the flag's line through them.
fn axis(out: &mut String, picture: &Picture) {
    let foot = TOP + PITCH * picture.lanes.len() - (PITCH - WAITS) + 8;
    if let Some(item) = picture.fault_at.filter(|item| picture.items.contains(item)) {
        let x = tenths(x_of(picture, item));
        let line = format!(
            "<path stroke=\"#7b2cbf\" stroke-dasharray=\"4 3\" d=\"M{x} {}V{foot}\"/>",
            TOP - 16
        );
        *out += &format!("{line}\n");
    }
    let step = step(picture.items.len());
    let first = picture.items.start.next_multiple_of(step);
    for item in (first..=picture.items.end).step_by(step) {
        let x = tenths(x_of(picture, item));
        *out += &format!("<path stroke=\"#888\" d=\"M{x} {foot}v5\"/>\n");
        text(out, &x, foot + 20, " text-anchor=\"middle\" fill=\"#555\"", &item.to_string());
    }
    text(out, "16", foot + 20, " fill=\"#555\"", "item");
}

/// A round number of items from one tick to the next: at most ten ticks.
fn step(items: usize) -> usize {
    let mut steps = (0..).map(|power| 10_usize.pow(power)).flat_map(|ten| [ten, 2 * ten, 5 * ten]);
    steps.find(|step| items / step <= 10).unwrap_or(1)
}

#[cfg(test)]
mod tests {
    use super::*;

    #[test]
    fn columns_are_filled_and_every_ending_shows() {
        let filled = |column: [usize; 4], kind: Kind| {
            let heights = heights(&column, kind);
            assert_eq!(heights.iter().sum::<usize>(), kind.height);
            for (n, height) in column.iter().zip(heights) {
                assert!(if *n == 0 { height == 0 } else { height >= kind.least }, "{column:?}");
            }
        };
        for column in [[1, 0, 0, 0], [0, 0, 0, 1], [249, 0, 1, 0], [1, 247, 1, 1], [1, 1, 1, 1]] {
            filled(column, LANE);
        }
        // No try is idle.
        for column in [[1, 0, 0, 0], [249, 0, 1, 0], [1, 0, 247, 1], [1, 0, 1, 1]] {
            filled(column, THIN);
        }
        assert_eq!(heights(&[0; 4], LANE), [0; 4]);
    }

    #[test]
    fn ticks_are_few_and_round() {
        for (items, expected) in [(0, 1), (7, 1), (11, 2), (400, 50), (60_000, 10_000)] {
            assert_eq!(step(items), expected);
        }
    }
}
