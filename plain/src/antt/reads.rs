//! The text of what the partition reader is compared with (document 02, P6):
//! for each of some sessions the reads that were told from each release to its
//! collect.

use super::list;
use crate::told::Reads;

/// The number of a session, the file that has its calls, what is met in it, and
/// its reads.
pub struct Told {
    pub number: usize,
    pub file: String,
    pub met: String,
    pub reads: Vec<Reads>,
}

/// Where the sessions are.
const CHECKED: &str = "Rattle.rules.proofs.Checked";

const COMMENT: &str = "\
-- The partition reader's lists at each release, compared with an independent implementation. Written by plain/src/bin/sessions.rs.
-- Document 02, P6. The reads are those that turns told from the release to its collect, in sessions with look-ups while a partition is rebuilt.
";

const NAMES: &str = "\
use Rattle.std.specs.Prelude.{◌≡◌, refl, Bool, true, false, not, ◌&&◌, List, [], ◌∷◌, ℕ}
use Rattle.std.proofs.Math.Option.{Option, none, some}
use Rattle.rules.specs.Reader.{read_partition}
use Rattle.rules.specs.Request.{held}
use Rattle.rules.specs.Questions.{Call}
use Rattle.rules.specs.Run.{step}
use Rattle.rules.specs.State.{State, Request, closed}
use Rattle.rules.specs.Unfold.{model}
";

const DEFINITIONS: &str = "\
-- a released request is in hand
unfoldable released : Option Request → Bool
released none = false
released (some r) = not (held r)

unfoldable list_of : State → Option Request → List (ℕ × ℕ)
list_of s none = []
list_of s (some r) = read_partition s r.block

-- the lists of a run, one for each call after which a request is released that was not before
unfoldable lists : State → List Call → List (List (ℕ × ℕ))
lists s [] = []
lists s (c ∷ cs) = elim (released (step s c).0.request && not (released s.request)) \
[ true ↦ list_of (step s c).0 (step s c).0.request ∷ lists (step s c).0 cs \
| false ↦ lists (step s c).0 cs ]
";

/// The file with these sessions' reads.
pub fn text(told: &[Told]) -> String {
    let of_file = told.chunk_by(|left, right| left.file == right.file);
    let names: String = of_file.map(calls).collect();
    let theorems: String = told.iter().map(theorem).collect();
    format!("{COMMENT}{NAMES}{names}\n{DEFINITIONS}{theorems}")
}

/// Brings in the calls of sessions of one file.
fn calls(told: &[Told]) -> String {
    let names = told
        .iter()
        .map(|told| format!("session{}-calls", told.number));
    let names = names.collect::<Vec<String>>().join(", ");
    let file = &told[0].file;
    format!("use {CHECKED}.{file}.{{{names}}}\n")
}

fn theorem(told: &Told) -> String {
    let Told { number, met, .. } = told;
    let of_request = |reads: &Reads| {
        let pairs = reads
            .iter()
            .map(|(level, slot)| format!("({level}, {slot})"));
        list(&pairs.collect::<Vec<String>>())
    };
    let reads: Vec<String> = told.reads.iter().map(of_request).collect();
    let reads = list(&reads);
    format!(
        "
-- {met}
reads{number} : lists closed session{number}-calls ≡ {reads}
unfolding model session{number}-calls released list_of lists
reads{number} = refl
"
    )
}
