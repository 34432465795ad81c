//! The comparison: the Rust beside the two programs, on the same trace files; and beside the listings that traces/ keeps.

use std::collections::{BTreeMap, BTreeSet, HashSet};
use std::path::{Path, PathBuf};
use std::sync::atomic::{AtomicBool, AtomicUsize, Ordering};
use std::time::{Duration, Instant};
use std::{fs, thread};

use super::expected::{self, By, Departure, Expected};
use super::generate::{self, Random};
use super::kinds::{self, Kind};
use super::places::{self, BEYOND, DOMAIN, Place};
use super::served::{self, Server};
use super::setting::{Write, Writes};
use super::swaps;
use super::trace::Header;

/// How much is compared.
pub struct Size {
    /// At which places every kind of event is tried.
    variety: Variety,
    /// Depth of the exhaustive runs for each port: not dual, dual, dual and swapped, then the four beyond the domain.
    depths: [usize; 7],
    /// The same under "standard", on the ports of the domain.
    standard_depth: usize,
    /// How many VCONN swaps one after the other, and with how many ends.
    swaps: (usize, usize),
    /// Long random runs for each port, and their largest length.
    random: usize,
    length: usize,
    /// Damaged files for each port.
    damaged: usize,
}

/// A place is reached with different contracts and counts, on different ports.
#[derive(Clone, Copy, PartialEq)]
enum Variety {
    /// Each place once with as little in the record as can be, and once with as much.
    Names,
    /// The same on each port.
    Ports,
    /// All that the search found.
    All,
}

impl Size {
    pub fn named(name: &str) -> Self {
        let (variety, depths, standard_depth, swaps, random, length, damaged) = match name {
            "quick" => (Variety::Names, [0, 1, 0, 0, 0, 0, 0], 0, (2, 4), 4, 1_000, 60),
            "gate" => (Variety::Ports, [3, 3, 2, 1, 1, 1, 1], 2, (3, 1), 72, 4_096, 1_500),
            "full" => (Variety::All, [4, 4, 3, 2, 2, 2, 2], 3, (3, 4), 400, 4_096, 6_000),
            other => panic!("no size is called {other}"),
        };
        Self { variety, depths, standard_depth, swaps, random, length, damaged }
    }
}

/// Traces to be made when their turn comes.
enum Job<'a> {
    Pairs(&'a Place),
    Numbers(&'a Place, bool),
    Exhaustive(&'a Place, usize),
    Swaps(Header, (usize, usize)),
    Random(Header, usize, u64),
    Damaged(Header, u64),
    Edges(Header),
}

impl Job<'_> {
    fn traces(&self) -> Vec<Vec<u8>> {
        match *self {
            Job::Pairs(place) => generate::pairs(place),
            Job::Numbers(place, every) => generate::numbers(place, every),
            Job::Exhaustive(place, depth) => generate::exhaustive(place, depth),
            Job::Swaps(header, (swaps, ends)) => swaps::runs(header, swaps, ends),
            Job::Random(header, length, seed) => {
                let mut random = Random(seed);
                let length = 100 + random.below(length - 100);
                vec![generate::random(header, length, &mut random)]
            }
            Job::Edges(header) => generate::edges(header),
            Job::Damaged(header, seed) => vec![generate::damaged(header, &mut Random(seed))],
        }
    }
}

/// The two programs, each as the command that starts a server of it.
pub struct Programs {
    pub explain: Vec<String>,
    pub list: Vec<String>,
}

/// Both, started for one thread.
struct Servers {
    explain: Server,
    list: Server,
}

impl Programs {
    fn start(&self) -> Servers {
        Servers { explain: Server::start(&self.explain), list: Server::start(&self.list) }
    }
}

/// What a comparison found.
#[derive(Default)]
pub struct Report {
    traces: usize,
    entries: usize,
    beyond: usize,
    swapped: usize,
    /// Entries under "standard"; those after a change of `vconn_source`, those at which it is another than that of the creation, and what was written.
    standard: usize,
    vconn_written: usize,
    vconn_swapped: usize,
    vconn_writes: Writes,
    /// Those at which "standard" has another text than the Rust alone, and those of these at which both programs printed that text: gives; then
    /// branches, by who asked for the swap and whether VCONN is turned on.
    gives: usize,
    as_asked: usize,
    branches: [[usize; 2]; 3],
    as_written: usize,
    /// Traces compared up to where they left the domain.
    cut: usize,
    panics: usize,
    /// Kept listings and explanations compared with the Rust, and how many of them to their end.
    kept: usize,
    whole: usize,
    pairs: HashSet<(String, Kind)>,
    differences: Vec<Difference>,
    hangs: bool,
}

struct Difference {
    file: Vec<u8>,
    entry: usize,
    program: String,
    expected: String,
    found: String,
}

impl Report {
    fn merge(mut self, other: Report) -> Self {
        self.traces += other.traces;
        self.entries += other.entries;
        self.beyond += other.beyond;
        self.swapped += other.swapped;
        self.standard += other.standard;
        self.vconn_written += other.vconn_written;
        self.vconn_swapped += other.vconn_swapped;
        self.vconn_writes.add(&other.vconn_writes);
        self.gives += other.gives;
        self.as_asked += other.as_asked;
        let branches = self.branches.iter_mut().flatten().zip(other.branches.iter().flatten());
        branches.for_each(|(mine, others)| *mine += others);
        self.as_written += other.as_written;
        self.cut += other.cut;
        self.panics += other.panics;
        self.kept += other.kept;
        self.whole += other.whole;
        self.hangs |= other.hangs;
        self.pairs.extend(other.pairs);
        self.differences.extend(other.differences);
        self
    }

    /// Run one trace on the Rust and on both programs.
    fn compare(&mut self, file: &[u8], servers: &mut Servers) {
        let mut expected = expected::run(file);
        self.pairs.extend(expected.pairs.drain(..));
        self.count(&expected);
        let mut printed: Vec<&Departure> = expected.departures.iter().collect();
        let both = [("explain", &mut servers.explain, &expected.explanation), ("list", &mut servers.list, &expected.listing)];
        for (program, server, entries) in both {
            let (found, complaint) = server.output(file);
            let (same, _) = as_expected(entries, &found);
            printed.retain(|departure| same.get(departure.number).is_some_and(|entry| after(departure.own(program), entry).is_none()));
            self.hangs |= complaint.as_deref() == Some(served::NO_END);
            let ended = complaint.map(|complaint| (entries.len(), "status 0, and nothing on standard error".to_string(), complaint));
            if let Some((entry, expected, found)) = ended.or_else(|| difference(entries, &found, expected.complete)) {
                self.differences.push(Difference { file: file.to_vec(), entry, program: program.to_string(), expected, found });
            }
        }
        let gives = printed.iter().filter(|departure| matches!(departure.by, By::Give)).count();
        self.as_asked += gives;
        self.as_written += printed.len() - gives;
    }

    /// Count a trace by what it is expected to do.
    fn count(&mut self, expected: &Expected) {
        self.traces += 1;
        self.entries += expected.listing.len();
        self.beyond += expected.beyond;
        self.swapped += expected.swapped;
        self.standard += expected.standard;
        self.vconn_written += expected.vconn_written;
        self.vconn_swapped += expected.vconn_swapped;
        self.vconn_writes.add(&expected.vconn_writes);
        for departure in &expected.departures {
            match departure.by {
                By::Give => self.gives += 1,
                By::Branch(branch) => self.branches[branch.asking as usize][usize::from(branch.turns_on)] += 1,
            }
        }
        self.cut += usize::from(!expected.complete);
        self.panics += expected.panics;
    }

    /// Compare what is kept beside a trace with the Rust: its listing, and its explanation where there is one.
    fn compare_kept(&mut self, trace: &Path) {
        let file = fs::read(trace).expect("a trace");
        let expected = expected::run(&file);
        for (end, entries) in [("list", &expected.listing), ("explain", &expected.explanation)] {
            let kept = trace.with_extension(end);
            if end == "explain" && !kept.exists() {
                continue;
            }
            let found = fs::read_to_string(&kept).expect("a listing beside each trace");
            self.kept += 1;
            self.whole += usize::from(expected.complete);
            if let Some((entry, expected, found)) = difference(entries, &found, expected.complete) {
                self.differences.push(Difference { file: file.clone(), entry, program: kept.display().to_string(), expected, found });
            }
        }
    }
}

/// The traces below a directory.
fn traces_below(directory: &Path) -> Vec<PathBuf> {
    let mut found = Vec::new();
    for entry in fs::read_dir(directory).expect("a directory of traces") {
        let path = entry.expect("an entry").path();
        match path.is_dir() {
            true => found.extend(traces_below(&path)),
            false => found.extend(path.extension().is_some_and(|end| end == "pes").then_some(path)),
        }
    }
    found.sort();
    found
}

/// What was printed for each entry, up to the first that is not as expected, and the rest.
fn as_expected<'a>(entries: &[String], found: &'a str) -> (Vec<&'a str>, &'a str) {
    let (mut same, mut rest) = (Vec::new(), found);
    for entry in entries {
        let Some(after) = after(entry, rest) else { break };
        same.push(&rest[..rest.len() - after.len()]);
        rest = after;
    }
    (same, rest)
}

/// The first entry that differs, with what was expected of it and what was found.
fn difference(entries: &[String], found: &str, complete: bool) -> Option<(usize, String, String)> {
    let (same, rest) = as_expected(entries, found);
    let first = |lines: usize| rest.lines().take(lines).collect::<Vec<_>>().join("\n");
    match entries.get(same.len()) {
        Some(entry) => Some((same.len(), entry.clone(), first(entry.lines().count() + 2))),
        None if complete && !rest.is_empty() => Some((same.len(), "the end".to_string(), first(3))),
        None => None,
    }
}

/// What follows an expected text, in which `?` stands for any number; none if it is not there.
fn after<'a>(expected: &str, found: &'a str) -> Option<&'a str> {
    let mut rest = found;
    for (index, part) in expected.split('?').enumerate() {
        if index > 0 {
            let number = rest.trim_start_matches(|c: char| c.is_ascii_digit());
            if number.len() == rest.len() {
                return None;
            }
            rest = number;
        }
        rest = rest.strip_prefix(part)?;
    }
    Some(rest)
}

/// For each name, on each port or on all together, the place with the least in the record and the one with the most.
pub fn ends(all: &[Vec<Place>], by_port: bool) -> Vec<(&Place, &Place)> {
    let mut ends: BTreeMap<(usize, &str), (&Place, &Place)> = BTreeMap::new();
    for (port, places) in all.iter().enumerate() {
        for place in places {
            let key = (if by_port { port } else { 0 }, place.name.as_str());
            let (_, most) = ends.entry(key).or_insert((place, place));
            if (place.engine.in_domain, place.load) > (most.engine.in_domain, most.load) {
                *most = place;
            }
        }
    }
    ends.into_values().collect()
}

/// Every kind of event at each of these places, as far as the size asks for.
fn pairs<'a>(size: &Size, all: &'a [Vec<Place>]) -> Vec<Job<'a>> {
    let chosen = ends(all, size.variety != Variety::Names);
    match size.variety {
        Variety::All => all.iter().flatten().map(Job::Pairs).collect(),
        _ => chosen.into_iter().flat_map(|(least, most)| [Job::Pairs(least), Job::Pairs(most)]).collect(),
    }
}

/// The same under "standard". Where it is not about a give, one place for each name is enough, the one with the most in the record; and in the full run
/// the two ends on each port.
fn standard_pairs<'a>(size: &Size, standard: &'a [Vec<Place>]) -> Vec<Job<'a>> {
    let about_give = |place: &Place| !place.engine.vconn_writes.changed() && !places::swaps_vconn(&place.engine);
    let gives = pairs(size, standard).into_iter().filter(|job| matches!(job, Job::Pairs(place) if about_give(place)));
    let full = size.variety == Variety::All;
    let others = ends(standard, full).into_iter().filter(|(_, most)| !about_give(most));
    let others = others.flat_map(|(least, most)| [Some(most), full.then_some(least)]).flatten();
    gives.chain(others.map(Job::Pairs)).collect()
}

/// The exhaustive runs under "standard", on the ports of the domain. None begins at the answer to our VCONN_Swap: those that begin where it is sent
/// come there.
fn standard_runs<'a>(size: &Size, standard: &'a [Vec<Place>]) -> Vec<Job<'a>> {
    let plain = ends(&standard[..DOMAIN.len()], true).into_iter().map(|(least, _)| least);
    let plain = plain.filter(|place| size.standard_depth > 0 && !place.name.ends_with(" 17.6"));
    plain.map(|place| Job::Exhaustive(place, size.standard_depth)).collect()
}

/// The runs of VCONN swaps: under "standard" on a port of each sort, created with VCONN and without, and under "crate" on one.
fn swaps<'a>(size: &Size) -> Vec<Job<'a>> {
    let standard = [DOMAIN[0], DOMAIN[1], BEYOND[0], BEYOND[1]].map(|port| Job::Swaps(port.under_standard(), size.swaps));
    standard.into_iter().chain([Job::Swaps(DOMAIN[1], (2, 4))]).collect()
}

fn jobs<'a>(size: &Size, seed: u64, all: &'a [Vec<Place>], standard: &'a [Vec<Place>]) -> Vec<Job<'a>> {
    let mut jobs = vec![Job::Edges(DOMAIN[1])];
    let chosen = ends(all, size.variety != Variety::Names);
    let in_domain = chosen.iter().filter(|(least, _)| least.header.in_domain());
    jobs.extend(in_domain.map(|(least, _)| Job::Numbers(least, size.variety == Variety::All)));
    jobs.extend(pairs(size, all));
    jobs.extend(standard_pairs(size, standard));
    jobs.extend(standard_runs(size, standard));
    jobs.extend(swaps(size));
    for (index, header) in DOMAIN.iter().chain(&BEYOND).enumerate() {
        let depth = size.depths[index];
        let plain = ends(&all[index..=index], true).into_iter().filter(|_| depth > 0);
        jobs.extend(plain.map(|(least, _)| Job::Exhaustive(least, depth)));
        let seed = |number: usize| seed ^ ((index as u64) << 48) ^ ((number as u64) << 20);
        jobs.extend((0..size.random).map(|number| Job::Random(*header, size.length, seed(number))));
        jobs.extend((0..size.damaged).map(|number| Job::Damaged(*header, !seed(number))));
    }
    jobs
}

/// What is compared, how, and where differing traces are kept.
pub struct Task {
    pub size: Size,
    pub seed: u64,
    pub programs: Programs,
    pub keep: PathBuf,
    /// Where traces with their listings are kept.
    pub traces: PathBuf,
    /// Stop at the first difference.
    pub first: bool,
}

impl Task {
    /// Compare, and print what was found. True if nothing differs and every pair was compared.
    pub fn run(&self) -> bool {
        let all = places::search_all();
        let standard = places::under_standard(&all);
        let mut report = self.kept();
        // Where a program hangs, each trace could cost its whole time: one is enough.
        if !report.hangs {
            report = report.merge(self.on_all_cores(&jobs(&self.size, self.seed, &all, &standard)));
        }
        let names = all.iter().chain(&standard).flatten().map(|place| place.name.as_str());
        let missing = print_report(&report, &names.collect(), &self.keep);
        report.differences.is_empty() && missing == 0
    }

    /// The traces that are kept: the programs and the kept texts, beside the Rust.
    fn kept(&self) -> Report {
        let (mut report, mut servers) = (Report::default(), self.programs.start());
        for trace in traces_below(&self.traces) {
            report.compare(&fs::read(&trace).expect("a trace"), &mut servers);
            report.compare_kept(&trace);
            if report.hangs {
                break;
            }
        }
        report
    }

    fn on_all_cores(&self, jobs: &[Job]) -> Report {
        let (next, ended) = (AtomicUsize::new(0), AtomicBool::new(false));
        let work = || {
            let (mut report, mut servers) = (Report::default(), self.programs.start());
            while let Some(job) = jobs.get(next.fetch_add(1, Ordering::Relaxed)) {
                for trace in job.traces() {
                    report.compare(&trace, &mut servers);
                    if report.hangs {
                        break;
                    }
                }
                if report.hangs || self.first && !report.differences.is_empty() {
                    next.store(jobs.len(), Ordering::Relaxed);
                }
            }
            report
        };
        let cores = thread::available_parallelism().map_or(1, |cores| cores.get());
        thread::scope(|scope| {
            let threads: Vec<_> = (0..cores).map(|_| scope.spawn(work)).collect();
            scope.spawn(|| show_how_far(&next, jobs.len(), &ended));
            let reports = threads.into_iter().map(|thread| thread.join().expect("a thread that ends"));
            let report = reports.reduce(Report::merge).expect("a thread");
            ended.store(true, Ordering::Relaxed);
            report
        })
    }
}

/// Every ten seconds, how many of the groups of traces were begun.
fn show_how_far(next: &AtomicUsize, jobs: usize, ended: &AtomicBool) {
    let mut shown = Instant::now();
    while !ended.load(Ordering::Relaxed) {
        thread::sleep(Duration::from_millis(20));
        if shown.elapsed() >= Duration::from_secs(10) {
            shown = Instant::now();
            eprintln!("  {} of {jobs} groups of traces", next.load(Ordering::Relaxed).min(jobs));
        }
    }
}

/// Print what was found, and return how many pairs of a place of these names and a kind were not compared.
fn print_report(report: &Report, names: &BTreeSet<&str>, keep: &Path) -> usize {
    let kinds: Vec<Kind> = kinds::all().iter().map(kinds::kind).collect();
    let wanted: Vec<(String, Kind)> = names
        .iter()
        .flat_map(|name| kinds.iter().map(move |kind| (name.to_string(), *kind)))
        // NoSafe where it fits is outside the domain.
        .filter(|(name, kind)| !(name.ends_with(" 10.0") && *kind == (4, 0)))
        .collect();
    let missing: Vec<_> = wanted.iter().filter(|pair| !report.pairs.contains(*pair)).collect();
    eprintln!("traces       {}, of which {} compared up to where they leave the domain", report.traces, report.cut);
    eprintln!("entries      {}, of which {} beyond the domain, set inside the crate", report.entries, report.beyond);
    eprintln!("             {} after a data role that the harness wrote, the Rust writing none", report.swapped);
    eprintln!("             {} after a vconn_source that the harness changed, the Rust writing none", report.vconn_written);
    print_standard(report);
    eprintln!("stood in     {} panics of the Rust, with document 01's answer", report.panics);
    eprintln!("coverage     {} of {} pairs of place and outcome kind", wanted.len() - missing.len(), wanted.len());
    eprintln!("             {} places, {} kinds", names.len(), kinds.len());
    for (name, kind) in missing.iter().take(10) {
        eprintln!("  missing: {name} with {kind:?}");
    }
    eprintln!("kept         {} texts of traces/, {} of them to their end", report.kept, report.whole);
    eprintln!("differences  {}", report.differences.len());
    print_differences(report, keep);
    missing.len()
}

/// Print what was found under "standard": where it differs from the Rust, by kind, and what was written for that.
fn print_standard(report: &Report) {
    let (gives, differing) = (report.gives, report.as_asked);
    eprintln!("standard     {} entries, {gives} gives, {differing} of them differ from the Rust in the argument of 4", report.standard);
    let branches: usize = report.branches.iter().flatten().sum();
    let alone = if report.differences.is_empty() { ", and but for the port line nothing else does" } else { "" };
    eprintln!("branches     {branches}, {} of them differ from the Rust alone, which takes the other one{alone}", report.as_written);
    for (turns_on, to) in ["WaitForVconn", "TurnOnVconn"].into_iter().enumerate() {
        let [sink, manager, epr] = report.branches.map(|asked| asked[turns_on]);
        eprintln!("             to {to}: {sink} by the sink's VCONN_Swap, {manager} by the DPM's event 6, {epr} for EPR");
    }
    let (cleared, set) = ((Write::Cleared, "cleared", "TurnOffVconn"), (Write::Set, "set", "TurnOnVconn"));
    for (write, name, by) in [cleared, set, (Write::Restored, "restored", "Startup")] {
        let (made, changing) = report.vconn_writes.of(write);
        eprintln!("{name:12} {made} times, {changing} of them to another value: vconn_source, by {by}");
    }
    eprintln!("             another than that of the creation at {} entries", report.vconn_swapped);
}

/// Print the differences with the shortest traces, and keep these traces.
fn print_differences(report: &Report, keep: &Path) {
    let mut differences: Vec<&Difference> = report.differences.iter().collect();
    differences.sort_by_key(|difference| (difference.entry, difference.file.len()));
    for (number, difference) in differences.iter().take(5).enumerate() {
        fs::create_dir_all(keep).expect("a directory for the traces");
        let path = keep.join(format!("{number}.pes"));
        fs::write(&path, &difference.file).expect("a trace is kept");
        eprintln!("{}, entry {} of {}", difference.program, difference.entry, path.display());
        eprintln!("expected:\n{}\nfound:\n{}", difference.expected.trim_end(), difference.found);
    }
}
