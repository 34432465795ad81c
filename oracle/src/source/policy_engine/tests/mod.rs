//! The harness. It stands where the crate has its own tests, and so sees the private state, mode, contract and counters.

mod answers;
mod compare;
mod differences;
mod engine;
mod expected;
mod fits;
mod generate;
mod kinds;
mod live;
mod outcomes;
mod places;
mod served;
mod setting;
mod swaps;
mod trace;
mod words;

use std::cell::Cell;
use std::path::Path;
use std::{env, fs, panic};

use setting::Write;

std::thread_local! {
    static QUIET: Cell<bool> = const { Cell::new(false) };
}

/// Run something in which the Rust may panic. The message of the panic is not printed, but handed back.
fn expect_panic<T>(run: impl FnOnce() -> T) -> Result<T, String> {
    QUIET.set(true);
    let result = panic::catch_unwind(panic::AssertUnwindSafe(run));
    QUIET.set(false);
    result.map_err(|panicked| match panicked.downcast::<String>() {
        Ok(message) => *message,
        Err(other) => other.downcast::<&str>().map_or_else(|_| "no message".to_string(), |message| message.to_string()),
    })
}

/// Let only unexpected panics print.
fn hush_expected_panics() {
    let print = panic::take_hook();
    panic::set_hook(Box::new(move |info| {
        if !QUIET.get() {
            print(info);
        }
    }));
}

/// Document 01's example, from the Rust.
#[test]
fn listing_of_document_01() {
    let header = trace::Header { flags: 4, hard_limit: 2, caps_limit: 50 };
    let done = trace::Event::new(1, 0, 0);
    let request = trace::Event::request(0, 0, [0x1105_d12c, 0]);
    let accept = trace::Event::new(7, 0, 0);
    let file = trace::file(header, &[done, done, request, accept, done, done, done]);
    let expected = expected::run(&file);
    let listing = "0 W D 0 0 1.0 3.0\n1 W D 0 0 4.0\n2 W D 0 0 5.0\n3 W D 0 0 7.0\n\
                   4 W D 0 0 8.3\n5 W T 0 0 9.0\n6 W E 0 0 8.6\n7 W E 0 0 11.0\n";
    assert_eq!(expected.listing.concat(), listing);
}

/// Data role swaps, from the Rust: asked for by the device policy manager and by the partner, the second handing out the role that the first took
/// away; then one that is not answered, and one that is not sent.
#[test]
fn data_role_swaps() {
    let header = trace::Header { flags: 5, hard_limit: 3, caps_limit: 50 };
    let (done, timeout, ready) = (trace::Event::new(1, 0, 0), trace::Event::new(2, 1, 0), trace::Event::new(trace::RE_ENTRY, 2, 0));
    let (ask, yes) = (trace::Event::new(9, 7, 0), trace::Event::new(8, 1, 0));
    let [accept, dr_swap] = [3, 9].map(|number| trace::Event::new(5, 3, number));
    let events = [done, timeout, ready, ask, done, accept, done, dr_swap, yes, done, done, ask, done, timeout, ask, timeout];
    let expected = expected::run(&trace::file(header, &events));
    let short: Vec<&str> = expected.listing.iter().map(|line| line.trim_end().rsplit(' ').next().expect("a word")).collect();
    let roles = expected.explanation.iter().map(|entry| if entry.contains("data_role Ufp") { 'U' } else { 'D' });
    assert_eq!(short.join(" "), "3.0 4.0 0 11.0 8.9 29.0 28.0 11.0 27.0 8.3 28.1 11.0 8.9 29.0 11.0 8.9 0");
    assert_eq!(roles.collect::<String>(), "DDDDDDDUUUUDDDDDD");
    assert!(expected.explanation[16].starts_with("entry 16: S.1, "));
}

/// Gives under both settings: EPR_Get_Source_Cap in SPR, then Get_Source_Cap in EPR. The argument of 4 differs, and the setting's name.
#[test]
fn gives_under_both_settings() {
    let (done, failed, power_swap) = (trace::Event::new(1, 0, 0), trace::Event::new(2, 7, 0), trace::Event::new(9, 8, 0));
    let [ready, ready_in_epr] = [0, 2].map(|change| trace::Event::new(trace::RE_ENTRY, 2, change));
    let (epr_get_source_cap, get_source_cap) = (trace::Event::with_word(4, 1), trace::Event::new(5, 3, 7));
    let events = [done, failed, ready, epr_get_source_cap, done, power_swap, ready_in_epr, get_source_cap];
    let header = trace::Header { flags: 5, hard_limit: 3, caps_limit: 50 };
    let [rust, standard] = [header, header.under_standard()].map(|header| expected::run(&trace::file(header, &events)));
    assert_eq!([4, 8].map(|give: usize| rust.listing[give].as_str()), ["4 W D 0 0 4.0\n", "8 W D 0 0 4.1\n"]);
    assert_eq!([4, 8].map(|give: usize| standard.listing[give].as_str()), ["4 W D 0 0 4.1\n", "8 W D 0 0 4.0\n"]);
    for (number, text) in rust.explanation.iter().enumerate() {
        let text = text.replace(", setting crate\n", ", setting standard\n");
        let text = match number {
            4 => text.replace("4.0, send capabilities: SPR", "4.1, send capabilities: EPR"),
            8 => text.replace("4.1, send capabilities: EPR", "4.0, send capabilities: SPR"),
            _ => text,
        };
        assert_eq!(standard.explanation[number], text);
    }
    assert_eq!((rust.departures.len(), standard.departures.len()), (0, 2));
}

/// Three VCONN swaps under both settings, then Startup. The second is where they part: the Rust alone waits for VCONN once more, and after a written
/// `vconn_source` it turns VCONN on. What does not belong to a branch is refused there.
#[test]
fn vconn_swaps_under_both_settings() {
    let [done, timeout, yes, ask] = [(1, 0), (2, 1), (8, 1), (9, 6)].map(|(code, a)| trace::Event::new(code, a, 0));
    let [ready, startup] = [2, 9].map(|target| trace::Event::new(trace::RE_ENTRY, target, 0));
    let [accept, ps_rdy, vconn_swap] = [3, 6, 11].map(|number| trace::Event::new(5, 3, number));
    let by_sink = [vconn_swap, yes, done, ps_rdy, done];
    let events = [&[done, timeout, ready][..], &by_sink, &[ask, done, accept, ps_rdy, done, done], &by_sink, &[timeout, startup]].concat();
    let header = trace::Header { flags: 5, hard_limit: 3, caps_limit: 50 };
    let [rust, standard] = [header, header.under_standard()].map(|header| expected::run(&trace::file(header, &events)));
    let last_words = |expected: &expected::Expected| {
        let words = expected.listing.iter().map(|line| line.trim_end().rsplit(' ').next().expect("a word"));
        words.collect::<Vec<_>>().join(" ")
    };
    let values = |expected: &expected::Expected| {
        let value = |entry: &String| entry.split("vconn_source ").nth(1).map_or('-', |value| value.chars().next().expect("a value"));
        expected.explanation.iter().map(value).collect::<String>()
    };
    let (before, after) = ("3.0 4.0 0 11.0 23.0 8.3 17.5 14.0 11.0 8.11 17.6", "23.0 8.3 17.5 14.0 11.0 0 3.0");
    assert_eq!(last_words(&rust), format!("{before} 17.5 14.0 11.0 R5 {after}"));
    assert_eq!(last_words(&standard), format!("{before} 14.1 R5 8.6 11.0 {after}"));
    assert_eq!((values(&rust), values(&standard)), ("tttttttttttttt-ttttttt".to_string(), "ttttttttffff-ttttttfft".to_string()));
    assert!(standard.explanation[11].contains("  port      vconn_source false (created true), dual_role true, "));
    assert_eq!((rust.departures.len(), standard.departures.len()), (0, 1));
    let written = [Write::Cleared, Write::Set, Write::Restored].map(|write| standard.vconn_writes.of(write));
    assert_eq!(written, [(2, 2), (1, 1), (1, 1)]);
}

/// What `oracle/run` asks for through the environment; without it there is nothing to do.
#[test]
fn task() {
    let setting = |name: &str| env::var(format!("ORACLE_{name}"));
    let Ok(task) = setting("TASK") else { return };
    let setting = |name: &str| setting(name).unwrap_or_else(|_| panic!("ORACLE_{name} is not set"));
    let command = |name: &str| setting(name).split('\n').map(str::to_string).collect();
    hush_expected_panics();
    match task.as_str() {
        "compare" => {
            let task = compare::Task {
                size: compare::Size::named(&setting("SIZE")),
                seed: setting("SEED").parse().expect("a number for the seed"),
                programs: compare::Programs { explain: command("EXPLAIN"), list: command("LIST") },
                keep: setting("KEEP").into(),
                traces: setting("TRACES").into(),
                first: setting("FIRST") == "yes",
            };
            assert!(task.run(), "the programs differ from the Rust, or not every pair was compared");
        }
        "answers" => answers::write(Path::new(&setting("OUT"))),
        "differences" => differences::print(),
        "show" => {
            let file = fs::read(setting("TRACE")).expect("a trace file");
            eprint!("{}", expected::run(&file).explanation.concat());
        }
        other => panic!("no task is called {other}"),
    }
}
