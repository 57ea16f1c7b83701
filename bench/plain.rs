//! The job of station_check in plain Rust, on std alone: the yardstick of `make bench`, and what
//! `sweep.rs` compares the shared library with.
//!
//! It takes the same command line for `words`, `list`, `means` and `check`, without options, and
//! prints the same where nothing is refused. It refuses what station_check refuses, but for a file
//! that is too long; a fault has no name here. Nothing is proved.

use std::borrow::Cow;
use std::collections::{HashMap, HashSet};
use std::io::{self, Write};
use std::process::ExitCode;
use std::{env, fs};

/// Units of 0.00001 gon in a full circle, and half units, in which sheets count.
const CIRCLE: i32 = 40_000_000;
const TURN: i64 = 80_000_000;
/// The greatest size of a face difference.
const LIMIT: i32 = 2_000;
/// Bytes of text that are written together.
const PIECE: usize = 65_536;
/// The most bytes of a line, stations of a file, sets and targets of a station, bytes of a name.
const LONGEST_LINE: usize = 1_024;
const MOST_STATIONS: usize = 1_000;
const MOST_SETS: usize = 40;
const MOST_TARGETS: usize = 100;
const LONGEST_NAME: usize = 16;
/// The greatest number of a set, and of full turns in a sheet.
const LARGEST_SET: i128 = 9_999;
const LARGEST_TURNS: i128 = 9;
/// The most bytes of a sheet, or of a table.
pub const LONGEST_SHEET: usize = 1_048_576;
/// The greatest denominator of a sheet, and direction or orientation, of either version.
const LARGEST: [(i128, i128); 2] =
    [(10_i128.pow(9), 10_i128.pow(18)), (10_i128.pow(12), 10_i128.pow(21))];

/// The bytes of a word: two of the index, four of information, the sign, the content.
#[derive(Clone, Copy)]
struct Word<'a>(&'a [u8]);

impl<'a> Word<'a> {
    fn is_one(self) -> bool {
        let bytes = self.0;
        bytes[0].is_ascii_digit()
            && bytes[1].is_ascii_digit()
            && !bytes[2..6].contains(&b' ')
            && matches!(bytes[6], b'+' | b'-')
    }

    fn index(self) -> u32 {
        u32::from(self.0[0] - b'0') * 10 + u32::from(self.0[1] - b'0')
    }

    fn name(self) -> &'a [u8] {
        let content = &self.0[7..];
        let zeros = content.iter().take_while(|b| **b == b'0').count();
        &content[zeros.min(content.len() - 1)..]
    }

    fn angle(self) -> Option<i32> {
        let in_gon = self.0[5] == b'2' && matches!(self.0[4], b'.' | b'0' | b'2' | b'3');
        let units = number(self.name()).filter(|units| *units < CIRCLE as u64)?;
        (in_gon && self.0[6] == b'+').then_some(units as i32)
    }
}

/// The number that at most 16 digits write.
fn number(digits: &[u8]) -> Option<u64> {
    digits.iter().try_fold(0, |sum, b| b.is_ascii_digit().then(|| sum * 10 + u64::from(b - b'0')))
}

fn read_words<'a>(line: &'a [u8], words: &mut Vec<Word<'a>>) -> Option<()> {
    // No early end, so that many bytes are tested at once.
    if line.iter().fold(false, |stray, b| stray | !(b' '..=b'~').contains(b)) {
        return None;
    }
    let (size, mut rest) = match line.strip_prefix(b"*") {
        Some(rest) => (23, rest),
        None => (15, line),
    };
    words.clear();
    while rest.len() >= size
        && Word(&rest[..size]).is_one()
        && matches!(rest.get(size), None | Some(b' '))
    {
        words.push(Word(&rest[..size]));
        rest = rest.get(size + 1..).unwrap_or_default();
    }
    let is_block = matches!(words.first()?.index(), 11 | 41) && rest.iter().all(|b| *b == b' ');
    is_block.then_some(())
}

/// Hands out the words of each block of a file.
fn each_block<'a>(file: &'a [u8], mut take: impl FnMut(&[Word<'a>]) -> Option<()>) -> Option<()> {
    let mut words = Vec::new();
    for line in file.split(|b| matches!(b, b'\r' | b'\n')) {
        (line.len() <= LONGEST_LINE).then_some(())?;
        if line.iter().any(|b| *b != b' ') {
            read_words(line, &mut words)?;
            take(&words)?;
        }
    }
    Some(())
}

/// The word of this index, if there is one. There may not be two.
fn word_of<'a>(words: &[Word<'a>], index: u32) -> Option<Option<Word<'a>>> {
    let mut found = words.iter().filter(|word| word.index() == index);
    let first = found.next().copied();
    if found.next().is_some() {
        None
    } else {
        Some(first)
    }
}

/// A text on its way to standard output, or one that is kept.
pub struct Text {
    pub bytes: Vec<u8>,
    pub is_kept: bool,
}

impl Text {
    pub fn add(&mut self, bytes: &[u8]) -> &mut Text {
        self.bytes.extend_from_slice(bytes);
        self
    }

    /// Adds a name to a sheet, with quotes where it needs them.
    pub fn add_name(&mut self, name: &[u8]) -> &mut Text {
        if !name.iter().any(|b| matches!(b, b',' | b'"')) {
            return self.add(name);
        }
        self.bytes.push(b'"');
        for b in name {
            self.add(if *b == b'"' { b"\"\"" } else { std::slice::from_ref(b) });
        }
        self.add(b"\"")
    }

    fn add_number(&mut self, value: impl Into<i64>) -> &mut Text {
        let value = value.into();
        let mut digits = [0; 20];
        let mut at = digits.len();
        let mut rest = value.unsigned_abs();
        while rest > 0 || at == digits.len() {
            at -= 1;
            digits[at] = b'0' + (rest % 10) as u8;
            rest /= 10;
        }
        if value < 0 {
            self.bytes.push(b'-');
        }
        self.add(&digits[at..])
    }

    fn write(&mut self) -> Option<()> {
        if !self.is_kept {
            io::stdout().write_all(&self.bytes).ok()?;
            self.bytes.clear();
        }
        Some(())
    }
}

fn print_words(file: &[u8], text: &mut Text) -> Option<()> {
    let mut block = 0_u32;
    each_block(file, |words| {
        block += 1;
        for (place, word) in (1_u32..).zip(words) {
            text.add_number(block).add(b" ").add_number(place).add(b" ");
            text.add_number(word.index()).add(b" ").add(&word.0[2..6]).add(b" ");
            text.add(&word.0[6..]).add(b"\n");
        }
        if text.bytes.len() < PIECE {
            Some(())
        } else {
            text.write()
        }
    })
}

pub struct Observation {
    pub set: usize,
    pub target: usize,
    pub p: i32,
    two_c: i32,
    two_i: i32,
}

#[derive(Default)]
pub struct Station<'a> {
    pub name: &'a [u8],
    pub sets: Vec<u32>,
    pub targets: Vec<&'a [u8]>,
    places: HashMap<&'a [u8], usize>,
    pub observations: Vec<Observation>,
}

/// The stations of the blocks so far.
#[derive(Default)]
struct Book<'a> {
    stations: Vec<Station<'a>>,
    names: HashSet<&'a [u8]>,
    /// The station that is open, and whether it had a set.
    open: Option<(&'a [u8], bool)>,
    in_set: bool,
    /// Of the set that is open: each target's direction and zenith angle in either face.
    readings: Vec<[Option<(i32, i32)>; 2]>,
}

impl<'a> Book<'a> {
    fn take(&mut self, words: &[Word<'a>]) -> Option<()> {
        let name = words[0].name();
        match (words[0].index(), name) {
            (11, _) if self.in_set => match word_of(words, 21)? {
                Some(hz) => self.read(name, hz.angle()?, word_of(words, 22)??.angle()?),
                None => Some(()),
            },
            (41, b"10") => {
                self.close()?;
                self.open = Some((word_of(words, 42)??.name(), false));
                Some(())
            }
            (41, b"20") => {
                self.close()?;
                let set = number(word_of(words, 42)??.name())?;
                (1..=LARGEST_SET as u64).contains(&set).then(|| self.open_set(set as u32))?
            }
            (41, b"30") => self.close(),
            _ => Some(()),
        }
    }

    fn open_set(&mut self, set: u32) -> Option<()> {
        let (name, had_set) = self.open?;
        if !had_set {
            self.names.insert(name).then_some(())?;
            (self.stations.len() < MOST_STATIONS).then_some(())?;
            self.stations.push(Station { name, ..Station::default() });
            self.open = Some((name, true));
        }
        let sets = &mut self.stations.last_mut()?.sets;
        if sets.contains(&set) || sets.len() == MOST_SETS {
            return None;
        }
        sets.push(set);
        self.in_set = true;
        Some(())
    }

    fn read(&mut self, name: &'a [u8], hz: i32, v: i32) -> Option<()> {
        let station = self.stations.last_mut()?;
        let target = *station.places.entry(name).or_insert(station.targets.len());
        if target == station.targets.len() {
            (target < MOST_TARGETS).then_some(())?;
            station.targets.push(name);
        }
        if target >= self.readings.len() {
            self.readings.resize(target + 1, [None; 2]);
        }
        let slot = &mut self.readings[target][usize::from(v > CIRCLE / 2)];
        if v == 0 || v == CIRCLE / 2 || slot.replace((hz, v)).is_some() {
            return None;
        }
        let [Some((hz_1, v_1)), Some((hz_2, v_2))] = self.readings[target] else {
            return Some(());
        };
        let two_c = (hz_2 - hz_1).rem_euclid(CIRCLE) - CIRCLE / 2;
        let two_i = v_1 + v_2 - CIRCLE;
        let p = (2 * hz_1 + two_c).rem_euclid(2 * CIRCLE);
        let set = station.sets.len() - 1;
        station.observations.push(Observation { set, target, p, two_c, two_i });
        (two_c.abs() <= LIMIT && two_i.abs() <= LIMIT).then_some(())
    }

    /// Closes the set that is open, if one is. Its observations get the order of the targets.
    fn close(&mut self) -> Option<()> {
        if !self.in_set {
            return Some(());
        }
        self.in_set = false;
        let faces = self.readings.drain(..).flatten().flatten().count();
        let station = self.stations.last_mut()?;
        let set = station.sets.len() - 1;
        let begin = station.observations.partition_point(|o| o.set < set);
        let observed = &mut station.observations[begin..];
        observed.sort_unstable_by_key(|o| o.target);
        (faces > 0 && faces == 2 * observed.len()).then_some(())
    }
}

pub fn survey(file: &[u8]) -> Option<Vec<Station<'_>>> {
    let mut book = Book::default();
    each_block(file, |words| book.take(words))?;
    book.close()?;
    Some(book.stations)
}

fn print_list(file: &[u8], text: &mut Text) -> Option<()> {
    for station in survey(file)? {
        text.add(b"station ");
        add_counts(&station, text).add(b"\n");
        for o in &station.observations {
            text.add(b"set ").add_number(station.sets[o.set]);
            text.add(b", target ").add(station.targets[o.target]).add(b": p ").add_number(o.p);
            text.add(b", 2c ").add_number(o.two_c).add(b", 2i ").add_number(o.two_i).add(b"\n");
        }
    }
    Some(())
}

fn add_counts<'t>(station: &Station, text: &'t mut Text) -> &'t mut Text {
    text.add(station.name).add(b": ").add_number(station.sets.len() as i64).add(b" sets, ");
    text.add_number(station.targets.len() as i64).add(b" targets, ");
    text.add_number(station.observations.len() as i64).add(b" directions")
}

fn print_means(file: &[u8], name: &[u8], text: &mut Text) -> Option<()> {
    let station = survey(file)?.into_iter().find(|s| s.name == name)?;
    let observations = &station.observations;
    let (sets, targets) = (station.sets.len(), station.targets.len());
    if observations.len() != sets * targets {
        return None;
    }
    let (mut of_target, mut of_set) = (vec![0; targets], vec![0; sets]);
    let mut turns = Vec::with_capacity(observations.len());
    for o in observations {
        let from_first = |set: usize, p: i32| i64::from(p - observations[set * targets].p);
        let apart = from_first(o.set, o.p) - from_first(0, observations[o.target].p);
        let k = -(apart + TURN / 2).div_euclid(TURN);
        turns.push(k);
        of_target[o.target] += i64::from(o.p) + TURN * k;
        of_set[o.set] += i64::from(o.p) + TURN * k;
    }
    let (s, t, first, all) =
        (sets as i64, targets as i64, of_target[0], of_set.iter().sum::<i64>());
    text.add(b"sheet,1,").add_name(name).add(b",").add_number(s * t).add(b",\n");
    for (name, total) in station.targets.iter().zip(of_target) {
        text.add(b"target,,").add_name(name).add(b",").add_number(t * (total - first)).add(b",\n");
    }
    for (set, total) in station.sets.iter().zip(of_set) {
        text.add(b"set,").add_number(*set).add(b",,");
        text.add_number(all - s * total - t * first).add(b",\n");
    }
    for (o, k) in observations.iter().zip(turns) {
        text.add(b"obs,").add_number(station.sets[o.set]).add(b",");
        text.add_name(station.targets[o.target]);
        text.add(b",").add_number(o.p).add(b",").add_number(k).add(b"\n");
    }
    Some(())
}

/// A field of comma-separated text, which is cut off the front of the rest.
fn read_field<'a>(rest: &mut &'a [u8], separator: u8) -> Cow<'a, [u8]> {
    let ends = |b: &u8| matches!(b, b'\r' | b'\n') || *b == separator;
    let text = *rest;
    let Some(quoted) = text.strip_prefix(b"\"") else {
        let (field, after) = text.split_at(text.iter().position(ends).unwrap_or(text.len()));
        *rest = after;
        return Cow::Borrowed(field);
    };
    let (mut field, mut after) = (Vec::new(), quoted);
    loop {
        let end = after.iter().position(|b| *b == b'"').unwrap_or(after.len());
        field.extend_from_slice(&after[..end]);
        after = after.get(end + 1..).unwrap_or_default();
        // Two quotes are one; what stands after a single one belongs to the field as it is.
        let Some(more) = after.strip_prefix(b"\"") else { break };
        field.push(b'"');
        after = more;
    }
    let (tail, after) = after.split_at(after.iter().position(ends).unwrap_or(after.len()));
    field.extend_from_slice(tail);
    *rest = after;
    Cow::Owned(field)
}

/// The fields of the next record, if there is one. Lines without a byte are none.
pub fn read_record<'a>(
    rest: &mut &'a [u8],
    separator: u8,
    fields: &mut Vec<Cow<'a, [u8]>>,
) -> bool {
    fields.clear();
    while let [b'\r' | b'\n', after @ ..] = *rest {
        *rest = after;
    }
    if rest.is_empty() {
        return false;
    }
    loop {
        fields.push(read_field(rest, separator));
        match *rest {
            [b, after @ ..] if *b == separator => *rest = after,
            _ => return true,
        }
    }
}

/// The text without the byte order mark at its front.
pub fn without_mark(text: &[u8]) -> &[u8] {
    text.strip_prefix(b"\xef\xbb\xbf").unwrap_or(text)
}

fn is_name(name: &[u8]) -> bool {
    (1..=LONGEST_NAME).contains(&name.len()) && name.iter().all(|b| (b' '..=b'~').contains(b))
}

/// The number that a canonical decimal of few enough digits writes.
fn canonical(field: &[u8]) -> Option<i128> {
    let digits = field.strip_prefix(b"-").unwrap_or(field);
    let is_one = match digits {
        [b'0'] => digits.len() == field.len(),
        [b'1'..=b'9', rest @ ..] => rest.iter().all(u8::is_ascii_digit),
        _ => false,
    };
    is_one.then(|| std::str::from_utf8(field).ok()?.parse().ok())?
}

/// A sheet: its rows, each kind in its own list.
#[derive(Default)]
struct Sheet<'a> {
    name: Cow<'a, [u8]>,
    denominator: i128,
    targets: Vec<(Cow<'a, [u8]>, i128)>,
    sets: Vec<(i128, i128)>,
    observations: Vec<(i128, Cow<'a, [u8]>, i128, i128)>,
}

fn read_sheet(text: &[u8]) -> Option<Sheet<'_>> {
    (text.len() <= LONGEST_SHEET).then_some(())?;
    let (mut sheet, mut largest) = (Sheet::default(), LARGEST[0]);
    let (mut rest, mut fields) = (without_mark(text), Vec::new());
    let mut last: &[u8] = b"";
    while read_record(&mut rest, b',', &mut fields) {
        let [kind, number, name, value, k] = fields.as_mut_slice() else { return None };
        let value = canonical(value)?;
        let set = || canonical(number).filter(|set| (1..=LARGEST_SET).contains(set));
        let named = is_name(name).then_some(());
        let is_within = value.abs() <= largest.1;
        last = match (last, &**kind) {
            (b"", b"sheet") if k.is_empty() => {
                largest = *LARGEST.get(usize::from(match &**number {
                    b"1" => 0_u8,
                    b"2" => 1,
                    _ => return None,
                }))?;
                (sheet.name, sheet.denominator) = (named.map(|()| std::mem::take(name))?, value);
                (1..=largest.0).contains(&value).then_some(b"sheet")?
            }
            (b"sheet" | b"target", b"target") if number.is_empty() && k.is_empty() && is_within => {
                sheet.targets.push((named.map(|()| std::mem::take(name))?, value));
                (sheet.targets.len() <= MOST_TARGETS).then_some(b"target")?
            }
            (b"target" | b"set", b"set") if name.is_empty() && k.is_empty() && is_within => {
                sheet.sets.push((set()?, value));
                (sheet.sets.len() <= MOST_SETS).then_some(b"set")?
            }
            (b"set" | b"obs", b"obs") => {
                let k = canonical(k).filter(|k| k.abs() <= LARGEST_TURNS)?;
                (0..TURN as i128).contains(&value).then_some(())?;
                let set = set()?;
                sheet.observations.push((set, named.map(|()| std::mem::take(name))?, value, k));
                (sheet.observations.len() <= MOST_SETS * MOST_TARGETS).then_some(b"obs")?
            }
            _ => return None,
        };
    }
    (last == b"obs").then_some(sheet)
}

/// Whether the sheet has the targets, sets and observations of its station, and the datum.
fn matches(sheet: &Sheet, station: &Station) -> bool {
    let stated = sheet.observations.iter().map(|o| (o.0, &*o.1, o.2));
    let observed = station.observations.iter();
    let set = |place: usize| i128::from(station.sets[place]);
    sheet.targets.iter().map(|t| &*t.0).eq(station.targets.iter().copied())
        && sheet.sets.iter().map(|s| s.0).eq((0..station.sets.len()).map(set))
        && stated.eq(observed.map(|o| (set(o.set), station.targets[o.target], o.p.into())))
        && sheet.targets[0].1 == 0
}

/// Whether observations hold all sets and targets together: marks spread from the first target.
fn is_connected(station: &Station) -> bool {
    let mut sets = vec![false; station.sets.len()];
    let mut targets = vec![false; station.targets.len()];
    targets[0] = true;
    let mut spreads = true;
    while spreads {
        spreads = false;
        for o in &station.observations {
            spreads |= sets[o.set] != targets[o.target];
            sets[o.set] |= targets[o.target];
            targets[o.target] |= sets[o.set];
        }
    }
    sets.iter().chain(&targets).all(|mark| *mark)
}

fn print_check(file: &[u8], sheet: &[u8], limit: Option<u32>, text: &mut Text) -> Option<()> {
    let stations = survey(file)?;
    let sheet = read_sheet(sheet)?;
    let station = stations.iter().find(|s| s.name == &*sheet.name)?;
    matches(&sheet, station).then_some(())?;
    let (mut of_target, mut of_set) = (vec![0; sheet.targets.len()], vec![0; sheet.sets.len()]);
    let mut greatest = 0;
    for (o, (_, _, p, k)) in station.observations.iter().zip(&sheet.observations) {
        let turned = sheet.denominator * (p + i128::from(TURN) * k);
        let residual = sheet.targets[o.target].1 - sheet.sets[o.set].1 - turned;
        of_target[o.target] += residual;
        of_set[o.set] += residual;
        greatest = greatest.max(residual.abs());
    }
    let vanish = of_target.iter().chain(&of_set).all(|sum| *sum == 0);
    let is_within = |limit: u32| greatest <= i128::from(limit) * sheet.denominator;
    (vanish && is_connected(station) && limit.map_or(true, is_within)).then_some(())?;
    add_counts(station, text.add(b"accepted "));
    let ends = format!(", greatest residual {greatest}/{}\n", sheet.denominator);
    text.add(ends.as_bytes());
    Some(())
}

/// What is asked, of files as they are: the words or the list of a field file, the means of a
/// station of it, or the check of a sheet, with a limit of residuals in half units or without one.
pub enum Asked<'a> {
    Words(&'a [u8]),
    List(&'a [u8]),
    Means(&'a [u8], &'a [u8]),
    Check(&'a [u8], &'a [u8], Option<u32>),
}

/// Adds what is answered to a text; nothing is answered where something is refused, but for words,
/// of which those before stand there.
pub fn answer(asked: Asked, text: &mut Text) -> Option<()> {
    match asked {
        Asked::Words(gsi) => print_words(gsi, text),
        Asked::List(gsi) => print_list(gsi, text),
        Asked::Means(gsi, name) => print_means(gsi, name, text),
        Asked::Check(gsi, sheet, limit) => print_check(gsi, sheet, limit, text),
    }
}

fn run(words: &[&str]) -> Option<()> {
    let read = |path: &str| fs::read(path).ok();
    let mut text = Text { bytes: Vec::with_capacity(2 * PIECE), is_kept: false };
    let done = match words {
        ["words", gsi] => answer(Asked::Words(&read(gsi)?), &mut text),
        ["list", gsi] => answer(Asked::List(&read(gsi)?), &mut text),
        ["means", gsi, name] => answer(Asked::Means(&read(gsi)?, name.as_bytes()), &mut text),
        ["check", gsi, sheet] => answer(Asked::Check(&read(gsi)?, &read(sheet)?, None), &mut text),
        _ => None,
    };
    text.write()?;
    done
}

pub fn main() -> ExitCode {
    let given: Vec<String> = env::args().skip(1).collect();
    let words: Vec<&str> = given.iter().map(String::as_str).collect();
    match run(&words) {
        Some(()) => ExitCode::SUCCESS,
        None => {
            eprintln!("refused");
            ExitCode::FAILURE
        }
    }
}
