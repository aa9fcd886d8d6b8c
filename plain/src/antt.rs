//! The text of a session in the proof checker's language: its calls, its
//! outcomes and the theorem that running the calls gives the outcomes. Other
//! files may name the calls.

use crate::calls::{Ask, Call, Outcome};
use crate::found::Found;
use crate::state::Command;
use std::fmt::Display;

pub mod reads;

/// The lines of a header.
pub const HEADER_LINES: usize = 6;

/// The lines before the sessions with this text, which a program of plain/
/// writes. Of the names that not all sessions need, it brings in those that the
/// text has.
pub fn header(program: &str, sessions: &str) -> String {
    let used = |names: &[(&str, &str)]| -> String {
        let used = names.iter().filter(|(text, _)| sessions.contains(text));
        used.map(|(_, name)| format!(", {name}")).collect()
    };
    let found = used(&[
        ("found_cache", "found_cache"),
        ("found_level", "found_level"),
    ]);
    let calls = used(&[("call (save)", "save"), ("call (load ", "load")]);
    let out = used(&[("out_found", "out_found"), ("zeros_then", "zeros_then")]);
    format!(
        "\
-- Random sessions, with the outcomes of an independent implementation. Written by plain/src/bin/{program}.rs.
use Rattle.std.specs.Prelude.{{◌≡◌, refl, List, [], ◌∷◌}}
use Rattle.rules.specs.State.{{cmd, closed{found}}}
use Rattle.rules.specs.Questions.{{opening, request, turn, completion, collect{calls}, Call}}
use Rattle.rules.specs.Run.{{Outcome, run}}
use Rattle.rules.specs.Unfold.{{model, shape, call, out{out}}}
"
    )
}

fn list<T: Display>(items: &[T]) -> String {
    if items.is_empty() {
        return "[]".into();
    }
    let parts: Vec<String> = items.iter().map(|item| format!("{item} ∷ ")).collect();
    format!("({}[])", parts.concat())
}

/// Zeros from which on a run of them is told by its length, and the numbers or
/// runs of a line.
const RUN: usize = 8;
const ROW: usize = 64;

/// Bytes, with runs of zeros told by their length and broken into lines.
fn bytes(bytes: &[u8]) -> String {
    if bytes.is_empty() {
        return "[]".into();
    }
    let equal = bytes.chunk_by(|left, right| *left == 0 && *right == 0);
    let parts = equal.flat_map(|part| match part.len() {
        RUN.. => vec![part],
        _ => part.chunks(1).collect(),
    });
    let (mut text, mut closing) = (String::from("("), String::from(")"));
    for (index, part) in parts.enumerate() {
        if index > 0
            && index.is_multiple_of(ROW)
            && let Some(line) = text.strip_suffix(" ∷ ")
        {
            text = format!("{line}\n    ∷ ");
        }
        match part {
            [byte] => text += &format!("{byte} ∷ "),
            zeros => {
                text += &format!("zeros_then {} (", zeros.len());
                closing += ")";
            }
        }
    }
    (text + "[]" + &closing).replace("([])", "[]")
}

fn command(c: &Command) -> String {
    format!("(cmd {} {} {} {})", c.kind, c.partition, c.level, c.slot)
}

fn ask(ask: &Ask) -> String {
    match ask {
        Ask::Open(s) => format!(
            "opening (shape {} {} {} {} {} {})",
            s.blocks, s.partitions, s.levels, s.bytes, s.places, s.window
        ),
        Ask::Request {
            kind,
            block,
            contents,
        } => format!("request {kind} {block} {}", bytes(contents)),
        Ask::Turn => "turn".into(),
        Ask::Completion {
            command: c,
            bytes: read,
        } => format!("completion {} {}", command(c), bytes(read)),
        Ask::Collect => "collect".into(),
        Ask::Save => "save".into(),
        Ask::Load(form) => format!("load {}", bytes(form)),
        // No session has it: what it loads is not told by the call.
        Ask::Reload => "reload".into(),
    }
}

fn call(call: &Call) -> String {
    let words = list(&call.words);
    format!(
        "call ({}) {} {words} {}",
        ask(&call.ask),
        call.memory,
        call.buffer
    )
}

fn outcome(o: &Outcome) -> String {
    let (command, bytes) = (command(&o.command), bytes(&o.bytes));
    let all = format!("{} {} {command} {bytes}", o.number, o.taken);
    match o.found {
        Found::Nowhere => format!("out {all}"),
        Found::Cache => format!("out_found {all} found_cache"),
        Found::Level(level) => format!("out_found {all} (found_level {level})"),
    }
}

fn definition(marks: &str, name: &str, kind: &str, lines: Vec<String>) -> String {
    let body = lines.join("\n    ∷ ");
    format!("{marks}{name} : List {kind}\n{name} =\n    ({body}\n    ∷ [])\n")
}

/// The session of this name.
pub fn session(name: &str, calls: &[Call], outcomes: &[Outcome]) -> String {
    let lists = [
        definition(
            "unfoldable pub ",
            &format!("{name}-calls"),
            "Call",
            calls.iter().map(call).collect(),
        ),
        definition(
            "",
            &format!("{name}-outcomes"),
            "Outcome",
            outcomes.iter().map(outcome).collect(),
        ),
    ];
    let theorem = format!(
        "{name} : run closed {name}-calls ≡ {name}-outcomes
unfolding model {name}-calls {name}-outcomes
{name} = refl
"
    );
    format!("{}\n{theorem}", lists.join("\n"))
}
