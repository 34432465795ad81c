//! The waiting places, found by a search with the Rust itself.

use std::collections::{BTreeMap, HashSet, VecDeque};
use std::thread;

use super::super::{Contract, DataRole, State};
use super::engine::{Answer, Engine, Status};
use super::fits::fits;
use super::swaps::{ACCEPT, DONE, MANAGER_ASKS, PS_RDY};
use super::trace::{Event, Header, RE_ENTRY};
use super::{kinds, words};

/// A place, and a shortest way to it from creation.
pub struct Place {
    pub header: Header,
    pub name: String,
    pub prefix: Vec<Event>,
    pub engine: Engine,
    /// How many of these hold: an explicit contract, hard resets counted, capabilities counted, a request of two words in the state, the
    /// data role Ufp.
    /// A wrong write to the record shows only where there is something to overwrite.
    pub load: usize,
}

/// Document 01's domain: the crate's own limits and VCONN source; not dual, dual, dual and swapped.
pub const DOMAIN: [Header; 3] = [
    Header { flags: 4, hard_limit: 3, caps_limit: 50 },
    Header { flags: 5, hard_limit: 3, caps_limit: 50 },
    Header { flags: 7, hard_limit: 3, caps_limit: 50 },
];

/// Beyond the domain, set inside the crate: no VCONN source, and limits of other counters of the crate.
pub const BEYOND: [Header; 4] = [
    Header { flags: 0, hard_limit: 3, caps_limit: 50 },
    Header { flags: 3, hard_limit: 2, caps_limit: 5 },
    Header { flags: 4, hard_limit: 2, caps_limit: 50 },
    Header { flags: 5, hard_limit: 7, caps_limit: 2 },
];

impl Place {
    /// The same place under "standard". No second VCONN swap is on the way, and so the Rust gets there in the same way.
    fn under_standard(&self) -> Self {
        let engine = walk(self.header.under_standard(), &self.prefix);
        assert_eq!(words::place(&engine), words::place(&self.engine));
        Self { header: engine.header(), name: name(&engine), prefix: self.prefix.clone(), engine, load: self.load }
    }
}

/// The name by which coverage is counted: setting, port as it was created, whether VCONN is swapped since, mode, state, await, and what Ready has
/// armed.
pub fn name(engine: &Engine) -> String {
    let (_, dual) = engine.port();
    let setting = if engine.header().standard() { "standard; " } else { "" };
    let mode = if engine.is_epr() { "EPR" } else { "SPR" };
    let argument = match engine.status {
        Status::Waiting(action) => format!(" {}.{}", action.number, action.argument),
        _ => String::new(),
    };
    let port = match (dual, engine.header().vconn_source()) {
        (false, true) => "single",
        (true, true) => "dual",
        (false, false) => "single, no VCONN",
        (true, false) => "dual, no VCONN",
    };
    let swapped = if engine.vconn_swapped() { ", VCONN swapped" } else { "" };
    format!("{setting}{port}{swapped}; {mode}; {}{argument}", words::bare_place(engine))
}

/// What the search tells apart: more than the name, so that it can come to places that need a contract or a count.
pub fn node(engine: &Engine) -> String {
    let (hard, caps) = engine.counts();
    let caps = (caps > 0, caps == engine.header().caps_limit);
    let contract = words::contract(&engine.contract());
    let flags = (engine.hard_lost, engine.caps_lost, engine.in_domain);
    format!("{} {} {contract} {hard} {caps:?} {flags:?} {:?}", name(engine), words::place(engine), engine.data_role())
}

/// The way to a full capabilities count: send, fail, re-enter Discovery, and again.
fn count_up(header: Header) -> Vec<Event> {
    let done = Event::new(1, 0, 0);
    // A swapped port has a timer before VBUS.
    let mut events = vec![done; if header.role_swapped() { 2 } else { 1 }];
    for _ in 0..header.caps_limit {
        events.extend([Event::new(2, 7, 0), Event::new(RE_ENTRY, 0, 0), done]);
    }
    events
}

fn load(engine: &Engine) -> usize {
    let (hard, caps) = engine.counts();
    let explicit = matches!(engine.contract(), Contract::Explicit(_));
    let two_words = words::place(engine).contains("EprRequest");
    let ufp = matches!(engine.data_role(), DataRole::Ufp);
    [explicit, hard > 0, caps > 0, two_words, ufp].into_iter().map(usize::from).sum()
}

/// The places of all ports, those of the domain first.
pub fn search_all() -> Vec<Vec<Place>> {
    thread::scope(|scope| {
        let all = |header: Header| search(header, [Vec::new(), count_up(header)].into_iter(), |_| true);
        let searches: Vec<_> = DOMAIN.iter().chain(&BEYOND).map(|header| scope.spawn(move || all(*header))).collect();
        searches.into_iter().map(|search| search.join().expect("a search that ends")).collect()
    })
}

/// The places where the setting tells, under "standard": those to which the Rust gets in the same way, which is not searched again, and those behind a
/// VCONN swap.
pub fn under_standard(all: &[Vec<Place>]) -> Vec<Vec<Place>> {
    let same = |places: &[Place]| places.iter().filter(|place| tells(&place.engine)).map(Place::under_standard).collect();
    thread::scope(|scope| {
        let ports: Vec<_> = all.iter().map(|places| scope.spawn(move || [same(places), behind_swap(places)])).collect();
        ports.into_iter().map(|port| port.join().expect("a search that ends").into_iter().flatten().collect()).collect()
    })
}

/// Whether the setting tells here: where capabilities are asked for or given, and where VCONN is swapped.
fn tells(engine: &Engine) -> bool {
    engine.in_ready() || engine.asked().is_some() || swaps_vconn(engine)
}

/// Whether the engine waits in a VCONN swap.
pub fn swaps_vconn(engine: &Engine) -> bool {
    matches!((engine.status, engine.state()), (Status::Waiting(_), State::VconnSwap { .. }))
}

/// The places of a port behind a VCONN swap made in each Ready. With the `vconn_source` that it left: where the setting tells, where the run has
/// stopped, ended or is handed over, and on the way through a Hard Reset. With that of the creation once more: in the next swap, and in Startup.
fn behind_swap(places: &[Place]) -> Vec<Place> {
    let header = places[0].header.under_standard();
    let swap = [MANAGER_ASKS, DONE, ACCEPT, if header.vconn_source() { PS_RDY } else { DONE }, DONE];
    let roots = places.iter().filter(|place| place.engine.in_ready()).map(|place| [&place.prefix[..], &swap].concat());
    search(header, roots, |engine| match (engine.status, engine.state(), engine.vconn_swapped()) {
        (Status::Waiting(_), State::VconnSwap { .. } | State::Startup { .. }, _) => true,
        (Status::Waiting(_), State::HardReset | State::HardResetReceived | State::TransitionToDefault, swapped) => swapped,
        (Status::Waiting(_), _, swapped) => swapped && tells(engine),
        (_, _, swapped) => swapped,
    })
}

/// The places of a port that come by the way of others of this sort, for each contract and each load. The prefix is a shortest one from a root, inside
/// the domain if there is any.
fn search(header: Header, roots: impl Iterator<Item = Vec<Event>>, is_sought: impl Fn(&Engine) -> bool) -> Vec<Place> {
    let events = kinds::all();
    let mut found: BTreeMap<(String, usize, String), Place> = BTreeMap::new();
    let mut nodes = HashSet::new();
    let mut roots = roots.map(|root| (walk(header, &root), root));
    let (mut queue, mut beyond) = (VecDeque::new(), VecDeque::new());
    while let Some((engine, prefix)) = queue.pop_front().or_else(|| roots.next()).or_else(|| beyond.pop_front()) {
        if !nodes.insert(node(&engine)) {
            continue;
        }
        for (event, next) in successors(&engine, &events).into_iter().filter(|(_, next)| is_sought(next)) {
            let leaves = engine.in_domain && !next.in_domain;
            let queue = if leaves { &mut beyond } else { &mut queue };
            queue.push_back((next, [&prefix[..], &[event]].concat()));
        }
        let (name, load) = (name(&engine), load(&engine));
        let key = (name.clone(), load, words::contract(&engine.contract()));
        found.entry(key).or_insert(Place { header, name, prefix, engine, load });
    }
    found.into_values().collect()
}

/// The engines after each event that is accepted.
pub fn successors(engine: &Engine, events: &[Event]) -> Vec<(Event, Engine)> {
    let awaited = match engine.status {
        Status::Waiting(action) => Some(action),
        _ => None,
    };
    let likely = events.iter().filter(|event| awaited.is_none_or(|action| fits(&action, event)));
    let taken = likely.filter_map(|event| {
        let mut next = engine.fork();
        match next.take(event) {
            None | Some(Answer::Refused(_)) => None,
            Some(_) => Some((*event, next)),
        }
    });
    taken.collect()
}

/// A shortest way of accepted events from an engine to a node, if there is one of at most five events.
pub fn way(engine: &Engine, target: &str) -> Option<Vec<Event>> {
    let alphabet = kinds::alphabet();
    let mut nodes = HashSet::new();
    let mut queue = VecDeque::from([(engine.fork(), Vec::new())]);
    while let Some((engine, way)) = queue.pop_front() {
        let here = node(&engine);
        if here == target {
            return Some(way);
        }
        if way.len() < 5 && nodes.insert(here) {
            for (event, next) in successors(&engine, &alphabet) {
                queue.push_back((next, [&way[..], &[event]].concat()));
            }
        }
    }
    None
}

/// The engine after a prefix that stays inside the domain.
fn walk(header: Header, events: &[Event]) -> Engine {
    let (mut engine, _) = Engine::create(header).expect("a limit that the crate has");
    for event in events {
        engine.take(event).expect("a prefix inside the domain");
    }
    engine
}
