//! Text to an image's fields. The text is read twice: first for the names, then for
//! the fields.

use super::instruction;
use super::line::{Error, Line};
use super::names::{no_field, plain_operand, Meaning, Names, KEYWORDS};
use super::nearest::{hint, nearest};
use super::symbols::Symbols;
use super::Source;
use crate::emulator::draft::{Draft, Process, Task};
use crate::emulator::image::{KINDS, MOST_CONSTANTS, MOST_WORDS};
use crate::emulator::machine::{EMPTY, NO_TRAP, PROCESSES, REGISTERS};
use crate::tool::share;

/// The most errors that are told of a text.
pub const MOST_ERRORS: usize = 20;

/// The fields of a row, each with its greatest value.
const ROW: [(&str, u64); 7] = [
    ("cb", 0xFFF),
    ("rb", 0x3FF),
    ("rl", 0x3FF),
    ("pb", 0xFFFF),
    ("pl", 0xFFFF),
    ("db", 0xFF_FFFF),
    ("dl", 0xFF_FFFF),
];

#[derive(Clone, Copy, PartialEq, Eq)]
enum Section {
    Start,
    Rows,
    /// Behind a line that was told as no row and no section: the lines below it are passed over.
    Unknown,
    Constants,
    Registers,
    Program,
    Data,
    Schedule,
}

/// The words that open a section.
const SECTIONS: [(&str, Section); 5] = [
    ("constants", Section::Constants),
    ("registers", Section::Registers),
    ("program", Section::Program),
    ("data", Section::Data),
    ("schedule", Section::Schedule),
];

/// The section that this word opens.
fn section_named(word: &str) -> Option<Section> {
    SECTIONS.iter().find(|(name, _)| *name == word).map(|(_, section)| *section)
}

/// The section that a misspelt head means, if there is one that is nearest.
fn section_meant(head: &str) -> Option<Section> {
    match nearest(head, KEYWORDS)[..] {
        [near] => section_named(near),
        _ => None,
    }
}

/// A reading of the text.
struct Reading<'a> {
    names: &'a mut Names,
    section: Section,
    /// Where the program's labels count from.
    origin: usize,
    draft: Draft,
    schedule: Option<Vec<u8>>,
    symbols: Symbols,
    task_lines: Vec<usize>,
    process_lines: Vec<usize>,
}

impl<'a> Reading<'a> {
    fn new(names: &'a mut Names) -> Self {
        Reading {
            names,
            section: Section::Start,
            origin: 0,
            draft: Draft::default(),
            schedule: None,
            symbols: Symbols::default(),
            task_lines: Vec::new(),
            process_lines: Vec::new(),
        }
    }
}

/// The image or input that the text describes, or what is wrong; its image is accepted by a reader.
pub fn assemble(text: &str) -> Result<Source, Vec<Error>> {
    assemble_named(text).map(|(source, _)| source)
}

/// The same with what the text calls things.
pub fn assemble_named(text: &str) -> Result<(Source, Symbols), Vec<Error>> {
    let mut names = Names::default();
    let mut first = Reading::new(&mut names);
    for (i, line) in text.lines().enumerate() {
        // What is wrong shows again in the second reading.
        let _ = first.line(&mut Line::new(i + 1, line));
    }
    names.complete = true;
    // Labels below a misspelt section are known once it has been told, so what is wrong is read again.
    complete_reading(text, &mut names).or_else(|_| complete_reading(text, &mut names))
}

/// The reading in which every name is known.
fn complete_reading(text: &str, names: &mut Names) -> Result<(Source, Symbols), Vec<Error>> {
    let mut reading = Reading::new(names);
    let mut errors = Vec::new();
    for (i, line) in text.lines().enumerate() {
        errors.extend(reading.line(&mut Line::new(i + 1, line)).err());
        if errors.len() == MOST_ERRORS || reading.section == Section::Start && !errors.is_empty() {
            break;
        }
    }
    if !errors.is_empty() {
        return Err(errors);
    }
    reading.finish(text.lines().count().max(1))
}

impl Reading<'_> {
    fn line(&mut self, line: &mut Line) -> Result<(), Error> {
        if line.is_done() {
            return Ok(());
        }
        if self.section == Section::Start {
            return self.header(line);
        }
        match line.peek() {
            "task" => self.task(line)?,
            "flag" => self.flag(line)?,
            "process" => self.process(line)?,
            "name" => self.name(line)?,
            word => match section_named(word) {
                Some(section) => self.open(line, section)?,
                None if self.section == Section::Unknown => return Ok(()),
                None => self.cell_or_head(line)?,
            },
        }
        line.end()
    }

    /// A line of the open section. If it is wrong and looks like the head of another, that one is opened, so that its lines are not
    /// told as wrong too.
    fn cell_or_head(&mut self, line: &mut Line) -> Result<(), Error> {
        let (start, head) = (line.mark(), line.head());
        let Err(error) = self.cell(line) else { return Ok(()) };
        line.back_to(start);
        if let Some((head, section)) = head.and_then(|head| Some((head, section_meant(head)?))) {
            // What is wrong behind the word shows when the word is right.
            let _ = self.open(line, section);
            let hint = hint(head, KEYWORDS);
            return Err(line.error_at(start, format!("`{head}` is no section{hint}")));
        }
        if self.section == Section::Rows && nearest(line.peek(), KEYWORDS).is_empty() {
            self.section = Section::Unknown;
        }
        Err(error)
    }

    fn header(&mut self, line: &mut Line) -> Result<(), Error> {
        let place = line.mark();
        if !line.keyword("hep") {
            return Err(line.error_at(place, "the text must begin with `hep image` or `hep input`"));
        }
        if line.keyword("input") {
            self.schedule = Some(Vec::new());
        } else if !line.keyword("image") {
            return Err(line.error("`image` or `input` should stand here"));
        }
        self.section = Section::Rows;
        line.end()
    }

    fn task(&mut self, line: &mut Line) -> Result<(), Error> {
        line.word();
        let place = line.mark();
        let number = self.names.between(line, "the task", 1, 7)? as u8;
        let last = self.draft.tasks.last().map_or(0, |task| task.number);
        if number <= last {
            return Err(line.error_at(place, "tasks stand in ascending order"));
        }
        let row = self.row(line, number);
        self.draft.tasks.push(*row.as_ref().unwrap_or(&Task::empty(number)));
        self.task_lines.push(line.number());
        row.map(|_| ())
    }

    /// The fields of a row behind its number.
    fn row(&self, line: &mut Line, number: u8) -> Result<Task, Error> {
        let mut fields = [0; ROW.len()];
        let given = self.names.fields(line, &ROW, &mut fields)?;
        no_field(line, &ROW, "trap")?;
        let missing = ROW.iter().enumerate().filter(|(i, _)| given >> i & 1 == 0);
        let missing: Vec<&str> = missing.map(|(_, (name, _))| *name).collect();
        match missing[..] {
            [] => {}
            [one] => return Err(line.error(format!("{one} is missing"))),
            _ => return Err(line.error(format!("{} are missing", missing.join(", ")))),
        }
        let (kind, trapped) = self.trap_record(line)?;
        let [cb, rb, rl, pb, pl] = [0, 1, 2, 3, 4].map(|i: usize| fields[i] as u16);
        let (db, dl) = (fields[5] as u32, fields[6] as u32);
        Ok(Task { number, cb, rb, rl, pb, pl, db, dl, kind, trapped })
    }

    /// Kind and status word of a trapped task.
    fn trap_record(&self, line: &mut Line) -> Result<(u8, u64), Error> {
        if !line.keyword("trap") {
            return Ok((NO_TRAP, 0));
        }
        line.expect('=')?;
        let place = line.mark();
        let kind = self.names.number(line, "trap", 0xFF)? as u8;
        if kind == NO_TRAP || !KINDS.contains(&kind) {
            return Err(line.error_at(place, "the kinds are 0x00 0x12 0x14 0x16 0x1A 0x1C 0x1E"));
        }
        Ok((kind, self.names.psw(line)?))
    }

    fn flag(&mut self, line: &mut Line) -> Result<(), Error> {
        line.word();
        self.draft.flag = self.names.number(line, "the flag", 1)? as u8;
        Ok(())
    }

    fn process(&mut self, line: &mut Line) -> Result<(), Error> {
        let start = line.mark();
        line.word();
        if self.draft.processes.len() == PROCESSES {
            return Err(line.error_at(start, "there are 64 processes already"));
        }
        let place = line.mark();
        let pt = self.names.number(line, "the process number", 63)? as u8;
        if self.draft.processes.iter().any(|process| process.pt == pt) {
            return Err(line.error_at(place, format!("process number {pt} stands twice")));
        }
        let (task, sfu) = self.queue(line)?;
        let psw = self.names.psw(line)?;
        self.draft.processes.push(Process { pt, task, sfu, psw });
        self.process_lines.push(line.number());
        Ok(())
    }

    /// `task=N`, and `sfu` behind it for its SFU queue.
    fn queue(&self, line: &mut Line) -> Result<(u8, bool), Error> {
        if !line.keyword("task") {
            return Err(line.error("`task=` should stand here"));
        }
        line.expect('=')?;
        let place = line.mark();
        let task = self.names.between(line, "the task", 1, 7)? as u8;
        if !self.draft.tasks.iter().any(|row| row.number == task) {
            return Err(line.error_at(place, format!("task {task} isn't listed above")));
        }
        let sfu = line.keyword("sfu");
        let word = line.peek();
        if !word.is_empty() && !line.is_field() {
            let hint = hint(word, ["sfu", "ci", "ri", "utm", "pc"]);
            return Err(line.error(format!("`{word}` is no field here{hint}")));
        }
        match self.draft.processes.last() {
            Some(last) if last.task > task => {
                Err(line.error_at(place, "processes stand by ascending task"))
            }
            Some(last) if last.task == task && last.sfu && !sfu => {
                Err(line.error_at(place, "a task's queue stands before its SFU queue"))
            }
            _ => Ok((task, sfu)),
        }
    }

    /// `name NAME = OPERAND` or `name NAME = NUMBER`.
    fn name(&mut self, line: &mut Line) -> Result<(), Error> {
        line.word();
        let place = line.mark();
        let name = line.word();
        line.expect('=')?;
        let start = line.mark();
        let meaning = if plain_operand(line.peek()).is_some() {
            Meaning::Operand(self.names.operand(line)?)
        } else {
            Meaning::Number(self.names.whole(line)?)
        };
        self.symbols.name(name, line.since(start));
        self.names.give(line, name, place, meaning)
    }

    /// Opens a section.
    fn open(&mut self, line: &mut Line, section: Section) -> Result<(), Error> {
        if section == Section::Schedule && self.schedule.is_none() {
            return Err(line.error("only `hep input` has a schedule"));
        }
        line.word();
        self.section = section;
        if section == Section::Schedule {
            return Ok(());
        }
        self.open_at(line, section)
    }

    /// `at N` behind a memory: it goes on at that real address; the cells between are zero.
    fn open_at(&mut self, line: &mut Line, section: Section) -> Result<(), Error> {
        if !line.keyword("at") {
            return Ok(());
        }
        let place = line.mark();
        let most = self.most() as u64;
        let at = self.names.number(line, "the address", most)? as usize;
        let Some(between) = at.checked_sub(self.length()) else {
            let reason = format!("there are {} cells already", self.length());
            return Err(line.error_at(place, reason));
        };
        if section == Section::Program {
            self.origin = at;
            self.symbols.origin(at);
        }
        self.push(0, u8::from(section == Section::Data), between);
        Ok(())
    }

    /// The most cells of the open section.
    fn most(&self) -> usize {
        match self.section {
            Section::Start | Section::Rows | Section::Unknown => 0,
            Section::Constants => MOST_CONSTANTS,
            Section::Registers => REGISTERS,
            Section::Program | Section::Data => MOST_WORDS,
            Section::Schedule => usize::MAX,
        }
    }

    /// The cells of the open section so far.
    fn length(&self) -> usize {
        match self.section {
            Section::Start | Section::Rows | Section::Unknown => 0,
            Section::Constants => self.draft.constants.len(),
            Section::Registers => self.draft.registers.len(),
            Section::Program => self.draft.program.len(),
            Section::Data => self.draft.data.len(),
            Section::Schedule => self.schedule.as_ref().map_or(0, Vec::len),
        }
    }

    /// Adds a cell to the open memory so many times.
    fn push(&mut self, word: u64, tag: u8, times: usize) {
        let draft = &mut self.draft;
        match self.section {
            Section::Constants => draft.constants.extend(vec![(tag, word); times]),
            Section::Registers => draft.registers.extend(vec![(tag, word); times]),
            Section::Program => draft.program.extend(vec![word; times]),
            Section::Data => draft.data.extend(vec![(tag, word); times]),
            Section::Start | Section::Rows | Section::Unknown | Section::Schedule => {}
        }
    }

    /// A line of the open section: one cell or a list of items, `* N` for N times.
    fn cell(&mut self, line: &mut Line) -> Result<(), Error> {
        let start = line.mark();
        let (mut word, mut tag, mut items, mut written) = (0, 0, Vec::new(), String::new());
        match self.section {
            Section::Start | Section::Rows | Section::Unknown => {
                let hint = hint(line.peek(), KEYWORDS);
                let reason = format!("`task`, `process` or a section should stand here{hint}");
                return Err(line.error(reason));
            }
            Section::Constants => (tag, word) = self.qualified(line)?,
            Section::Registers => (tag, word) = self.register(line)?,
            Section::Program => match self.labelled(line)? {
                Some(instruction) => (word, written) = instruction,
                None => return Ok(()),
            },
            Section::Data => {
                tag = u8::from(!self.empty(line)?);
                word = self.names.word(line)?;
            }
            Section::Schedule => items = self.items(line)?,
        }
        let times = self.times(line)?;
        if times.saturating_mul(items.len().max(1)) > self.most() - self.length() {
            return Err(line.error_at(start, format!("the section has at most {}", self.most())));
        }
        if self.section == Section::Program {
            self.symbols.write(self.length(), times, written);
        }
        self.push(word, tag, times);
        if let Some(schedule) = &mut self.schedule {
            schedule.extend(items.repeat(times));
        }
        Ok(())
    }

    fn times(&self, line: &mut Line) -> Result<usize, Error> {
        if !line.take('*') {
            return Ok(1);
        }
        Ok(self.names.between(line, "the repetition", 1, 1 << 20)? as usize)
    }

    /// Whether the state that is next is `empty`.
    fn empty(&self, line: &mut Line) -> Result<bool, Error> {
        if line.keyword("empty") {
            return Ok(true);
        }
        if line.keyword("full") {
            return Ok(false);
        }
        Err(line.error("`full` or `empty` should stand here"))
    }

    /// Quality and word: a constant.
    fn qualified(&self, line: &mut Line) -> Result<(u8, u64), Error> {
        let word = self.names.word(line)?;
        Ok((self.names.quality(line)?, word))
    }

    /// Tag and word of a register.
    fn register(&self, line: &mut Line) -> Result<(u8, u64), Error> {
        let state = if self.empty(line)? { EMPTY } else { 0 };
        let (quality, word) = self.qualified(line)?;
        Ok((state | quality, word))
    }

    /// The instruction behind the line's labels, if there is one, and its text.
    fn labelled(&mut self, line: &mut Line) -> Result<Option<(u64, String)>, Error> {
        loop {
            let place = line.mark();
            let Some(label) = line.label() else { break };
            let real = self.draft.program.len();
            let distance = Meaning::Number((real - self.origin) as i128);
            self.names.give(line, label, place, distance)?;
            self.symbols.label(real, self.origin, label);
        }
        if line.is_done() {
            return Ok(None);
        }
        let start = line.mark();
        let word = instruction::parse(line, self.names)?;
        Ok(Some((word, line.since(start))))
    }

    fn items(&self, line: &mut Line) -> Result<Vec<u8>, Error> {
        let mut items = Vec::new();
        while items.is_empty() || !line.peek().is_empty() {
            items.push(self.names.between(line, "an item", 1, 7)? as u8);
        }
        Ok(items)
    }

    /// What can be told only at the end.
    fn finish(self, last: usize) -> Result<(Source, Symbols), Vec<Error>> {
        if self.section == Section::Start {
            let reason = "the text must begin with `hep image` or `hep input`";
            return Err(vec![Error::at(last, reason)]);
        }
        let rows = self.draft.tasks.iter().zip(&self.task_lines);
        let lacking = rows.flat_map(|(task, &line)| lacking(&self.draft, task, line));
        let mut errors: Vec<Error> = lacking.collect();
        if self.draft.processes.len() == PROCESSES && self.draft.flag == 0 {
            let line = self.process_lines[PROCESSES - 1];
            errors.push(Error::at(line, "64 processes need `flag 1`"));
        }
        if !errors.is_empty() {
            return Err(errors);
        }
        Ok((Source { schedule: self.schedule, draft: self.draft }, self.symbols))
    }
}

/// The windows of a row that end past their memories, each with how much it lacks and a line that adds it.
fn lacking(draft: &Draft, task: &Task, line: usize) -> Vec<Error> {
    let windows = [
        ("register", "registers", share::registers(task), draft.registers.len(), "full 0"),
        ("program", "words", share::program(task), draft.program.len(), "NOP"),
        ("data", "words", share::data(task), draft.data.len(), "empty 0"),
    ];
    let past = windows
        .into_iter()
        .filter(|(.., window, size, _)| !window.is_empty() && window.end > *size);
    let told = past.map(|(name, unit, window, size, cell)| {
        let (end, lacks) = (window.end, window.end - size);
        let missing =
            if lacks == 1 { "1 is missing".into() } else { format!("{lacks} are missing") };
        let needs =
            format!("it needs {end} {unit}, {size} are there, {missing} (`{cell} * {lacks}`)");
        Error::at(line, format!("the {name} window ends past its memory: {needs}"))
    });
    told.collect()
}
