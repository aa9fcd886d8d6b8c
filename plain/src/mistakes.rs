//! Wrong rules that can be switched on in the model. A test that compares
//! outcomes or transcripts has to tell each of them from the right rules.

use crate::form::Rule;
use crate::joined::joined;

#[derive(Clone, Copy, Debug, PartialEq, Eq, Hash)]
pub enum Mistake {
    /// The right rules.
    None,
    /// A dummy read takes the lowest unread dummy slot, not the lowest item.
    LowestDummySlot,
    /// A request for a block that waits in the cache sends no reads.
    WaitingSendsNothing,
    /// A request is finished once its block's own slot has been read, though
    /// other reads are unsent or outstanding.
    FinishedEarly,
    /// The eviction partition is drawn among those with a block waiting.
    EvictionAmongWaiting,
    /// A level keeps the order of its first rebuild; later ones take their
    /// words and ignore them.
    OrderDrawnOnce,
    /// As OrderDrawnOnce, but later rebuilds take no words.
    OrderNotTaken,
    /// The eviction partition's job is queued before p's.
    QueueOtherOrder,
    /// A full cache refuses a waiting block, too.
    EightForWaiting,
    /// A full counter goes on to 2^L, which wraps to 0.
    FullCounterGrows,
    /// A request reports three words taken.
    WordsInvented,
    /// The source slots of a rebuild keep naming their blocks.
    SourcesKept,
    /// The room test of a partition counts the blocks of source levels only.
    OnlySourcesCounted,
    /// The slot that a collected block leaves keeps naming it.
    SlotKept,
    /// A collected block keeps its partition.
    KeepsPartition,
    /// An order draws j below i (at least 1), so no item stays in place.
    DrawBelowI,
    /// Collect hands out the contents after a write.
    NewContentsHandedOut,
    /// Collect hands out zeros.
    ZerosForever,
    /// A full partition takes a waiting block nevertheless.
    FullPartitionTakesBlock,
    /// A held request tells where its block was at acceptance.
    FoundAtAcceptance,
    /// The block is looked up after the collect has put it in the cache.
    FoundAfterCollect,
    /// A refused collect tells where the block in hand was found.
    RefusalTells,
    /// A request is looked up at acceptance in any case, and so is not held.
    ReleasedAtOnce,
    /// The limit of a draw is one too high: a word equal to it is taken.
    LimitTaken,
    /// A word that a draw passes over does not count as taken.
    PassedNotCounted,
    /// A draw takes the remainder of any word.
    NothingPassed,
    /// Every job for its partition holds a request, as before look-ups beside
    /// a rebuild.
    HeldByEveryJob,
    /// A request is released beside two jobs for its partition, the first of
    /// them at the front and undrawn.
    ReleasedBesideTwo,
    /// A request is released beside its partition's only job though jobs of
    /// other partitions are before it.
    ReleasedBehindOthers,
    /// A request is released beside a job that has drawn its order.
    ReleasedBesideDrawn,
    /// What holds a request is asked again after it was released: its own read
    /// may be the last that a level can spare.
    HeldAgain,
    /// A source is read at its lowest unread slot, not at its lowest-numbered
    /// unread item.
    LowestUnreadSlot,
    /// A source is read as other levels are, at its lowest-numbered unread
    /// dummy.
    SourceReadsDummy,
    /// The slot of a block in a source is read though the job has read it.
    SlotReadTwice,
    /// A source with no slot unread costs a read, that of its item 0.
    SpentSourceCostsRead,
    /// A request's read of a source's slot does not count as read, so the job
    /// reads the slot again.
    SourceReadUnmarked,
    /// Beside a rebuild, a request for a block that waits sends no reads.
    WaitingSkipsRebuild,
    /// Beside a rebuild, a request is finished once its block's own read has
    /// completed.
    FinishedByOwnRead,
    /// A request awaits none of the reads that the job beside it has sent.
    JobReadsNotAwaited,
    /// A request awaits only that one of them which has its block.
    OwnJobReadAwaited,
    /// A request awaits the reads, too, that the job sends after its release.
    LaterJobReadsAwaited,
    /// The job beside a request draws its order before the collect.
    DrawsWithRequest,
    /// The job beside a request sends no reads before the collect.
    JobStandsStill,
    /// A block whose slot the job has read is told to be in the cache.
    ReadCountsAsCache,
    /// Each job runs alone, as before jobs of one partition ran together.
    JobsNotJoined,
    /// Jobs are joined only if a block waits for their partition.
    JoinsIfWaiting,
    /// Only those jobs are joined that stand right behind the front one.
    JoinsNeighbours,
    /// Jobs that are queued after the front one has begun are joined until it
    /// draws.
    JoinsUntilDrawn,
    /// The jobs of a run may be 2^L − counter, and the counter then falls as a
    /// full one does.
    CutLater,
    /// The job of a full partition takes others with it.
    FullJoins,
    /// The jobs that a run takes with it hold requests.
    RunHolds,
    /// The sources of a run end below the lowest empty level.
    SourcesFromBelow,
    /// A run takes one waiting block.
    TakesOne,
    /// A run takes as many blocks as it has jobs if there is room for one.
    RoomAskedOnce,
    /// A run writes its lowest level first, in all respects.
    LowestLevelFirst,
    /// The order of the lowest level is drawn first.
    LowestDrawnFirst,
    /// Blocks go into the lowest level first.
    LowestFilledFirst,
    /// All levels of a run are ordered by the numbers drawn for the first; the
    /// others take their words and ignore them.
    OrderShared,
    /// The counter grows by all jobs of a run, but only the front one leaves
    /// the queue.
    OnlyFrontLeaves,
    /// A block's sum leaves out the block's number.
    SumWithoutNumber,
    /// A mark is 1 for a slot that has not been read.
    MarksTurned,
    /// The order of a saved level has the item of each slot.
    OrderBySlot,
    /// Age 0 is that of the block that has waited shortest.
    AgesReversed,
    /// A state with a request in hand is saved.
    SavesInHand,
    /// A state with commands outstanding is saved, a request's or a job's.
    SavesOutstanding,
    /// A state with a job begun is saved.
    SavesBegun,
    /// A request's read of a source's slot does not begin the job.
    SharedReadBeginsNothing,
    /// A save's buffer need be no longer than the form is.
    BufferByForm,
    /// The buffer behind a saved form is filled with zeros.
    TailCleared,
    /// A save that is refused with 16 reports the length of the form.
    LengthWhenRefused,
    /// A refused load leaves the state as it was.
    RefusedLoadKeeps,
    /// 18 is asked before the sums.
    FormBeforeSums,
    /// The memory for a form's shape is asked before its other fields.
    MemoryBeforeForm,
    /// Records in another order than longest waiting first are refused.
    RecordsFixed,
    /// A load forgets the contents of the block that has waited longest.
    ContentsDropped,
    /// After a load the front job counts as begun.
    LoadBegins,
    /// After a load no slot counts as read.
    LoadClearsMarks,
    /// A load brings jobs forward whose partition has a block waiting.
    LoadPrefersWaiting,
    /// A load does not ask this.
    Unasked(Rule),
}

impl Mistake {
    pub const ALL: [Mistake; 88] = joined(&[
        &Mistake::BASE,
        &Mistake::FOUND,
        &Mistake::DRAWS,
        &Mistake::BESIDE,
        &Mistake::TOGETHER,
        &Mistake::SAVED,
    ]);

    /// Those in document 01's rules.
    pub const BASE: [Mistake; 18] = [
        Mistake::LowestDummySlot,
        Mistake::WaitingSendsNothing,
        Mistake::FinishedEarly,
        Mistake::EvictionAmongWaiting,
        Mistake::OrderDrawnOnce,
        Mistake::OrderNotTaken,
        Mistake::QueueOtherOrder,
        Mistake::EightForWaiting,
        Mistake::FullCounterGrows,
        Mistake::WordsInvented,
        Mistake::SourcesKept,
        Mistake::OnlySourcesCounted,
        Mistake::SlotKept,
        Mistake::KeepsPartition,
        Mistake::DrawBelowI,
        Mistake::NewContentsHandedOut,
        Mistake::ZerosForever,
        Mistake::FullPartitionTakesBlock,
    ];

    /// Those of which only what a collect tells is wrong. A session doesn't
    /// print it, and the host is not told.
    pub const UNPRINTED: [Mistake; 4] = [
        Mistake::FoundAtAcceptance,
        Mistake::FoundAfterCollect,
        Mistake::RefusalTells,
        Mistake::ReadCountsAsCache,
    ];

    /// Those that show only while commands are outstanding, as they are in no
    /// session.
    pub const OUTSTANDING: [Mistake; 3] = [
        Mistake::JobReadsNotAwaited,
        Mistake::OwnJobReadAwaited,
        Mistake::LaterJobReadsAwaited,
    ];

    /// Those in where a block is found, and when (document 02, P2).
    pub const FOUND: [Mistake; 4] = [
        Mistake::FoundAtAcceptance,
        Mistake::FoundAfterCollect,
        Mistake::RefusalTells,
        Mistake::ReleasedAtOnce,
    ];

    /// Those in which words a draw takes, and how it counts them (document
    /// 02, P3).
    pub const DRAWS: [Mistake; 3] = [
        Mistake::LimitTaken,
        Mistake::PassedNotCounted,
        Mistake::NothingPassed,
    ];

    /// Those in look-ups while a partition is rebuilt (document 02, P4).
    pub const BESIDE: [Mistake; 18] = [
        Mistake::HeldByEveryJob,
        Mistake::ReleasedBesideTwo,
        Mistake::ReleasedBehindOthers,
        Mistake::ReleasedBesideDrawn,
        Mistake::HeldAgain,
        Mistake::LowestUnreadSlot,
        Mistake::SourceReadsDummy,
        Mistake::SlotReadTwice,
        Mistake::SpentSourceCostsRead,
        Mistake::SourceReadUnmarked,
        Mistake::WaitingSkipsRebuild,
        Mistake::FinishedByOwnRead,
        Mistake::JobReadsNotAwaited,
        Mistake::OwnJobReadAwaited,
        Mistake::LaterJobReadsAwaited,
        Mistake::DrawsWithRequest,
        Mistake::JobStandsStill,
        Mistake::ReadCountsAsCache,
    ];

    /// Those in jobs of one partition together (document 02, P7).
    pub const TOGETHER: [Mistake; 15] = [
        Mistake::JobsNotJoined,
        Mistake::JoinsIfWaiting,
        Mistake::JoinsNeighbours,
        Mistake::JoinsUntilDrawn,
        Mistake::CutLater,
        Mistake::FullJoins,
        Mistake::RunHolds,
        Mistake::SourcesFromBelow,
        Mistake::TakesOne,
        Mistake::RoomAskedOnce,
        Mistake::LowestLevelFirst,
        Mistake::LowestDrawnFirst,
        Mistake::LowestFilledFirst,
        Mistake::OrderShared,
        Mistake::OnlyFrontLeaves,
    ];

    /// Those in saving the client (document 02, P5). No session saves.
    pub const SAVED: [Mistake; 30] = joined(&[&Mistake::FORMS, &Mistake::UNASKED]);

    const FORMS: [Mistake; 19] = [
        Mistake::SumWithoutNumber,
        Mistake::MarksTurned,
        Mistake::OrderBySlot,
        Mistake::AgesReversed,
        Mistake::SavesInHand,
        Mistake::SavesOutstanding,
        Mistake::SavesBegun,
        Mistake::SharedReadBeginsNothing,
        Mistake::BufferByForm,
        Mistake::TailCleared,
        Mistake::LengthWhenRefused,
        Mistake::RefusedLoadKeeps,
        Mistake::FormBeforeSums,
        Mistake::MemoryBeforeForm,
        Mistake::RecordsFixed,
        Mistake::ContentsDropped,
        Mistake::LoadBegins,
        Mistake::LoadClearsMarks,
        Mistake::LoadPrefersWaiting,
    ];

    const UNASKED: [Mistake; 11] = {
        let mut all = [Mistake::None; 11];
        let mut at = 0;
        while at < all.len() {
            all[at] = Mistake::Unasked(Rule::FORGOTTEN[at]);
            at += 1;
        }
        all
    };
}
