//! The frame check and the handover in examples/: README.md there has the figures and the trace.

use hep_tools::emulator::machine::Machine;
use hep_tools::emulator::{batch, image};
use hep_tools::tool;
use hep_tools::tool::load::open;
use hep_tools::tool::share::{cells_shown, share};
use hep_tools::tool::text::{dump, Source};
use hep_tools::tool::trace::{lines, Filter};
use std::fs;

fn example(name: &str) -> String {
    let path = format!("{}/../examples/{name}", env!("CARGO_MANIFEST_DIR"));
    fs::read_to_string(&path).unwrap_or_else(|error| panic!("{path}: {error}"))
}

/// House one's lines of an example.
fn house_one(text: &str) -> &str {
    let start = text.find("; House one").expect("house one");
    &text[start..text.find("; House t").expect("its neighbour")]
}

#[test]
fn reports() {
    for name in ["frame-a", "frame-b", "handover"] {
        let input = tool::load(example(&format!("{name}.hep")).as_bytes()).unwrap().bytes();
        assert_eq!(batch::output(&input), example(&format!("{name}.out")).into_bytes());
    }
}

#[test]
fn house_one_beside_either_neighbour() {
    let (a, b) = (example("frame-a.hep"), example("frame-b.hep"));
    assert_eq!(house_one(&a), house_one(&b));
    let [first, second] = [&a, &b].map(|text| {
        let input = tool::load(text.as_bytes()).unwrap().bytes();
        let image = batch::answer(&input).image.expect("accepted");
        share(&tool::load(&image).unwrap().draft, 1).expect("listed")
    });
    assert_eq!(first, second);
    let table = cells_shown(&first.data, &(32..=41), "data words", |state| state == 0);
    assert_eq!(table.unwrap(), example("house-one.table"));
}

/// House one's spans: section, dead and live load, span, factor.
const SPANS: [([u64; 4], u64, u64, u64); 6] = [
    ([80, 200, 0, 0], 900 + 1200, 360, 1587),
    ([80, 200, 0, 0], 900 + 1200, 420, 1587),
    ([100, 240, 0, 0], 1100 + 1500, 480, 882),
    ([100, 240, 0, 0], 1100 + 1500, 540, 882),
    ([120, 280, 40, 120], 1400 + 2000, 600, 555),
    ([120, 280, 40, 120], 1400 + 2000, 750, 555),
];

#[test]
fn figures_by_the_formula() {
    let figures =
        SPANS.map(|([width, height, hollow_width, hollow_height], load, span, factor)| {
            let own = 42 * (width * height - hollow_width * hollow_height);
            (own + 10_000 * load) * span * span * factor
        });
    let mut lines: Vec<String> =
        (32..).zip(figures).map(|(place, figure)| format!("{place} {figure} full")).collect();
    lines.extend(["38 0 empty", "39 0 empty"].map(str::to_string));
    lines.push(format!("40 {} full", figures.iter().max().unwrap()));
    let above = figures.iter().filter(|figure| **figure > 10_000_000_000_000_000).count();
    lines.push(format!("41 {above} full"));
    assert_eq!(example("house-one.table").lines().collect::<Vec<_>>(), lines);
}

/// C24 with k_mod 0.8 and gamma 1.3, in N/mm2; sizes in mm, the resistance in N mm.
#[test]
fn factors_by_the_formula() {
    for ([width, height, hollow_width, hollow_height], _, _, factor) in SPANS {
        let inertia = width * height.pow(3) - hollow_width * hollow_height.pow(3);
        let resistance = 24.0 * 0.8 / 1.3 * inertia as f64 / (6 * height) as f64;
        assert_eq!((1e11 / 8.0 / resistance).ceil() as u64, factor);
    }
}

/// Each section's word holds its four sizes, 16 bits each.
#[test]
fn sections_are_packed() {
    let packed = SPANS.map(|(sizes, ..)| sizes.iter().fold(0, |word, size| word << 16 | size));
    let source = tool::load(example("frame-a.hep").as_bytes()).unwrap();
    let words: Vec<u64> = source.draft.data[..6].iter().map(|cell| cell.1).collect();
    assert_eq!(words, packed);
}

/// An example's trace up to this item, each line as a document has it, and the machine then.
fn traced(name: &str, items: usize) -> (Vec<String>, Machine) {
    let loaded = open(example(name).as_bytes(), None).unwrap();
    let schedule = loaded.source.schedule.clone().unwrap();
    let mut machine = tool::machine(&loaded.source);
    let filter = Filter::default();
    let trace = lines(&mut machine, &schedule[..items], &loaded.symbols, &filter);
    let trace = trace.map(|line| format!("    {line}")).collect();
    (trace, machine)
}

/// README.md shows the handover's trace as it is, cut behind what each attempt wrote or waits for.
#[test]
fn the_handover_as_told() {
    let (trace, machine) = traced("handover.hep", 11);
    let cut: Vec<&str> = trace.iter().map(|line| line.split(';').next().unwrap()).collect();
    let readme = example("README.md");
    assert!(readme.contains(&(cut.join("\n") + "\n")), "{}", cut.join("\n"));
    assert_eq!(machine.register(0), (0, 7 + 8 + 9));
}

/// FORMAT.md shows lines of the handover's trace and of house three's trap, and the handover's processes after five items.
#[test]
fn traces_in_the_format() {
    let (trace, trap) = (traced("handover.hep", 11).0, traced("frame-b.hep", 1382).0);
    let format = example("../hep-tools/FORMAT.md");
    let shown = format[format.find("## What a trace shows").unwrap()..].lines().skip(2);
    let shown: Vec<&str> = shown.take_while(|line| line.starts_with("    ")).collect();
    assert_eq!(shown, [&trace[0], &trace[2], &trace[3], &trace[4], trap.last().unwrap()]);
    let source = Source { schedule: None, draft: image::draft(&traced("handover.hep", 5).1) };
    let dump = dump(&source);
    let processes: Vec<String> = dump
        .lines()
        .filter(|line| line.starts_with("process "))
        .map(|line| format!("    {line}"))
        .collect();
    assert!(format.contains(&(processes.join("\n") + "\n")), "{}", processes.join("\n"));
}
