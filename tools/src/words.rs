//! What each refusal's number says, and what its place is. This is the one table: README.md, man/hrafnolt.1 and hrafnolt_reason in the header say the
//! same, and tests/tools holds them to it.

pub struct Reason {
    pub number: u64,
    pub says: &'static str,
    pub place: &'static str,
}

const fn reason(number: u64, says: &'static str, place: &'static str) -> Reason {
    Reason { number, says, place }
}

const RECORD: &str = "byte offset of the record";
const STEP: &str = "the step's number";

pub const REASONS: &[Reason] = &[
    reason(1, "the file ends inside a record", RECORD),
    reason(2, "the kind of a record is unknown, or not allowed here", RECORD),
    reason(3, "a number of the shape (processes, variables, a present variable's values) or a count of states is outside its range", RECORD),
    reason(
        4,
        "a field names what does not exist, a value is outside its variable's range, or an absent one is not 0; in a report a claim out of its turn",
        RECORD,
    ),
    reason(5, "one record more than a count allows", RECORD),
    reason(
        6,
        "the file ends before the claim, or before the starting memory of a run; a program file before its first 04; a report before its last run",
        "the length of the file that ended",
    ),
    reason(7, "an entry without message, with a pointer outside its messages, or with none at 1", "offset of its 10"),
    reason(8, "the work area has under 65,536 bytes", "0"),
    reason(9, "a configuration in a target is not above the list", "the lowest such target"),
    reason(10, "a start, of whatever memory, is above an entry", "the lowest such entry"),
    reason(
        11,
        "one step leads above this entry from outside the list",
        "the lowest such entry, and the lowest such step: transitions by number, serialise by process then variable, update by process",
    ),
    reason(12, "the step's process is not in the transition's first local state", STEP),
    reason(13, "the last local states are no target", "the number of steps"),
    reason(14, "the program only: more than 65,536 bytes", "65536"),
    reason(15, "the value that is read, or that an arw expects, is not the one there", STEP),
    reason(
        16,
        "a queue that must be empty is not: one of the process's for a fence (under claim 2 for an mfence), the variable's own for an arw",
        STEP,
    ),
    reason(17, "the pointer is not at the newest message, for an mfence or an arw; never under claim 2", STEP),
    reason(
        18,
        "nothing waits to be serialised, or there is no newer message to update to; under claim 2 no value heads the buffer, or a mark does not head all of them",
        STEP,
    ),
    reason(19, "programs with registers only: a process would need more than 32 local states", "the lowest such process"),
    reason(
        22,
        "fence reports only: a mark repeats an earlier one, or is neither mfence nor sfence",
        "the place of the lowest such mark among the marks",
    ),
    reason(
        23,
        "fence reports only: the list, or the run of a mark, fails its judgement",
        "8 for the list, which is judged first, or the place of the lowest failing mark among the marks",
    ),
    reason(24, "figures only: no safe result to take the mean or variance of, or no result at all to take the share of", "none"),
    reason(25, "figures only: more than 4,096 results, a safe result of more than 524,288 entries, or a collection that no addition made", "none"),
    reason(26, "drawings only: the output is too short", "the bytes needed"),
    reason(
        27,
        "drawings only: the text is no drawing",
        "offset of the first byte that no drawing has after the same beginning, or the text's length if it stops early",
    ),
    reason(28, "programs with registers only: more than 256 transitions would be written", "the number of the 05 that the 257th comes from"),
    reason(29, "programs with registers only: the output is too short", "the bytes needed"),
];

pub fn says(number: u64) -> &'static str {
    REASONS.iter().find(|reason| reason.number == number).map_or("no refusal has this number", |reason| reason.says)
}

/// The table, a line for each number.
pub fn table() -> String {
    REASONS.iter().map(|reason| format!("{:2}  {}; place: {}\n", reason.number, reason.says, reason.place)).collect()
}
