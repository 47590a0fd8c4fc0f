//! Test builds only: errors that look right, each built into a copy of the reader, the planner, the judge, the line, the log
//! or the sheet, and how soon each is found.

use crate::answers::OWN;
use crate::compare::Difference;
use crate::library::Peer;
use crate::measure::USUAL;
use crate::runs::guarded;
use crate::slipped::Slipped;
use crate::tally::Tally;

#[derive(Clone, Copy, Debug, PartialEq, Eq)]
pub enum Slip {
    FansUsed,
    FansUsedLater,
    AnySet,
    WholeDivision,
    WholeDivisionTop,
    Floats,
    WideFloats,
    NoCap,
    StraightLine,
    RoundedSlots,
    DosingAtEnd,
    Instant,
    FirstInFile,
    DosingBefore,
    TouchingMeets,
    NoTotals,
    PenMoves,
    TickFirst,
    Reduced,
    Clears,
    Merged,
    OnlyOwnPlan,
    NoTurn,
    LaterFlow,
    FlowIntoUnknown,
    RisenThroughout,
    FourteenFirst,
    OneWalk,
    NoNumberIsZero,
    InfiniteIsTop,
    NoMinusZero,
    OneTooMany,
    PlannedAsBefore,
    ClosedToJudging,
    ClosedToDrawing,
    LastOpenClosed,
    LastTrialOpen,
    PastLastClosed,
    FifteenBeforeFive,
    FifteenBeforeFour,
    FifteenAfterRecords,
    FifteenAfterEight,
    DoseForPlace,
    LastRecordLost,
    FirstLeftOut,
    OfNextFan,
    FromFirstFan,
    RaggedRead,
    LongerRead,
    LongestRefused,
    EmptyRefused,
    LongOrderRefusesAll,
    ClosedToSeason,
    AloneLeftOut,
    RefusedGrams,
    RefusedFirst,
    FirstClassSeconds,
    LaterTie,
    WholeDivisionFirst,
    FloatFirst,
    ReducedFirst,
    NoneIsZero,
    OneLess,
    OneMore,
    AskedOfRuleZero,
    AskedOfAllBays,
    AskedOneWay,
    AskedOfNeighbours,
    AskedBehindFans,
    RuleOfFirstRecord,
    AskedInPlanning,
    RestAtEarlier,
    RuleFour,
    AnyRuleRests,
    WideRule,
    ThirdByteUnread,
    RuleOfFirstOrder,
}

use Slip::*;

pub const SLIPS: [(Slip, &str); 77] = [
    (FansUsed, "Fig. 2, line 6 as printed: the smaller of active doses and fans already used"),
    (FansUsedLater, "the same, but the first class sees all fans"),
    (AnySet, "any set of greatest rate: the last one met"),
    (WholeDivision, "rates of sets compared by whole division"),
    (WholeDivisionTop, "top rate compared by whole division (P9 passes)"),
    (Floats, "rates compared as 32-bit floats"),
    (WideFloats, "rates compared as 64-bit floats (never differs, see below)"),
    (NoCap, "shares laid end to end without the cap L x W"),
    (StraightLine, "a straight line from release to deadline"),
    (RoundedSlots, "amounts rounded slot by slot"),
    (DosingAtEnd, "Dosing at the slot's end"),
    (Instant, "Dosing by the instant t alone"),
    (FirstInFile, "the fan of the first slot in the file"),
    (DosingBefore, "a slot that starts at t + 1 counts as Dosing at t"),
    (TouchingMeets, "judging: touching slots count as overlapping"),
    (NoTotals, "judging: totals not checked"),
    (PenMoves, "the pen moved on a refusal"),
    (TickFirst, "12 before 11"),
    (Reduced, "W and P written reduced"),
    (Clears, "the rest of the plan buffer cleared"),
    (Merged, "slots merged across intervals"),
    (OnlyOwnPlan, "judging: only the planner's own bytes stand"),
    (NoTurn, "log: plain subtraction where the counter turns"),
    (LaterFlow, "log: the later record's flow"),
    (FlowIntoUnknown, "log: a flow held until a missing record or a counter, an unknown stretch counted"),
    (RisenThroughout, "log: the line's rise over all stretches"),
    (FourteenFirst, "log: 14 looked for before 13"),
    (OneWalk, "log: 13 and 14 looked for in one walk"),
    (NoNumberIsZero, "log: a flow that is no number read as zero"),
    (InfiniteIsTop, "log: an infinite flow read as 1,000"),
    (NoMinusZero, "log: minus zero refused"),
    (OneTooMany, "log: 4,097 records laid"),
    (PlannedAsBefore, "trial bays planned as before"),
    (ClosedToJudging, "15 in judging, drawing and laying too"),
    (ClosedToDrawing, "15 in drawing and laying too"),
    (LastOpenClosed, "bay 899 taken for a trial bay"),
    (LastTrialOpen, "bay 999 not taken for a trial bay"),
    (PastLastClosed, "bay 1,000 taken for a trial bay: 15 where 5 is due"),
    (FifteenBeforeFive, "15 before 5"),
    (FifteenBeforeFour, "15 before 4 and 5"),
    (FifteenAfterRecords, "15 looked for after all records, before 6"),
    (FifteenAfterEight, "15 looked for after 8"),
    (DoseForPlace, "15 with the dose's number as place"),
    (LastRecordLost, "season: the last order without its last record"),
    (FirstLeftOut, "season: orders from the second F on"),
    (OfNextFan, "season: doses read with the F behind them"),
    (FromFirstFan, "season: a stream that doesn't open with F read from its first F on"),
    (RaggedRead, "season: bytes behind the last whole record left out"),
    (LongerRead, "season: the first 65,536 bytes of a longer stream read"),
    (LongestRefused, "season: 65,536 bytes refused"),
    (EmptyRefused, "season: no bytes refused"),
    (LongOrderRefusesAll, "season: 16 for an order over 1,600 bytes"),
    (ClosedToSeason, "season: 15 for trial bays"),
    (AloneLeftOut, "season: an F alone not counted"),
    (RefusedGrams, "season: grams of orders refused by 9 counted"),
    (RefusedFirst, "season: first classes of orders refused by 9 counted"),
    (FirstClassSeconds, "season: fan-seconds of the first class only"),
    (LaterTie, "season: a tie won by the later"),
    (WholeDivisionFirst, "season: first classes compared by whole division"),
    (FloatFirst, "season: first classes compared as 32-bit floats"),
    (ReducedFirst, "season: W and P reduced"),
    (NoneIsZero, "season: 0 and 0 if there is none"),
    (OneLess, "rest: 299 seconds"),
    (OneMore, "rest: 301 seconds"),
    (AskedOfRuleZero, "rest: asked by rule 0 too"),
    (AskedOfAllBays, "rest: asked of different bays too"),
    (AskedOneWay, "rest: asked only where the later record is later in time"),
    (AskedOfNeighbours, "rest: asked only of the dose of that bay before it in the order"),
    (AskedBehindFans, "rest: asked only of doses behind F"),
    (RuleOfFirstRecord, "rest: the rule taken only of an F in front of all doses"),
    (AskedInPlanning, "rest: asked in planning alone"),
    (RestAtEarlier, "rest: 8 with the earlier dose's place"),
    (RuleFour, "rest: 4 for byte 2 above 1"),
    (AnyRuleRests, "rest: byte 2 above 1 read as rule 1"),
    (WideRule, "rest: bytes 2 and 3 read as one number, 5 where 4 is due"),
    (ThirdByteUnread, "rest: byte 3 not tested"),
    (RuleOfFirstOrder, "rest: all orders of a stream read by the first one's rule"),
];

/// The first case from `from` on that differs, if one does.
fn find(peer: &dyn Peer, from: u64, cases: u64, seed: u64) -> Option<(u64, Difference)> {
    let mut tally = Tally::default();
    (from..from + cases).find_map(|n| guarded(peer, seed, n, USUAL, &mut tally).err().map(|d| (n - from + 1, d)))
}

/// Builds each error in and prints the case that found it; true if all but 64-bit floats were found.
pub fn run(cases: u64, seed: u64) -> bool {
    println!("seed {seed}, at most {cases} cases for each error\n");
    println!("| error | found by case | by random case | what differed first |\n|---|---|---|---|");
    let fixed = crate::cases::fixed().len() as u64;
    let mut good = find(&OWN, 0, cases.min(50), seed).is_none();
    let mut count = 0;
    std::panic::set_hook(Box::new(|_| {}));
    for (slip, words) in SLIPS {
        let random = find(&Slipped(slip), fixed, cases, seed).map_or(format!("not in {cases}"), |(n, _)| n.to_string());
        let (n, what) = match find(&Slipped(slip), 0, if slip == WideFloats { fixed } else { cases }, seed) {
            Some((n, d)) => {
                count += 1;
                (n.to_string(), d.what)
            }
            None => {
                good = good && slip == WideFloats;
                ("none".into(), "nothing".into())
            }
        };
        let short = [": Planned", ": Judged", ": Drawn", ": Laid", ": Season"]
            .iter()
            .fold(&what[..], |what, answer| what.split(answer).next().unwrap_or(""));
        println!("| {words} | {n} | {random} | {} |", short.trim());
    }
    println!("\n{count} of {} errors found; 64-bit floats never differ", SLIPS.len());
    good
}
