//! Compares the engine in libconsole.a, called from outside as a console written in C calls it, with a slow engine written from
//! documents 01 and 02 alone (slow.rs), on seeded tables (tables.rs).
//!
//!     rustc -O --edition 2021 tests/console/compare.rs -L native=. -l static=console -o compare
//!     ./compare [SEED [CALLS]] [--vectors DIR] [--mutant K]
//!     ./compare --mutants
//!
//! For every call of fly_run: the five numbers of the answer, every word of the log's and the scratch's buffers (which reach past the
//! lent part on both sides and hold noise before the call), and the table. For every call of fly_sheet: the length, the text, zeros
//! past it, the bytes around the buffer, and the table. For every call of fly_stands: the two numbers, the log with the words around it,
//! and the table. For every call of fly_convert: the two numbers, every byte of the output's buffer (likewise with noise, and past the
//! lent part), and the table. For every call of fly_join the same, and both tables. For every call of fly_parts the number, every word of the
//! list's buffer (likewise), and the table; for every call of fly_part what there is for a conversion. The lengths lent are around the limits: of
//! the log the lines that the run writes under its budget, and 4A; of the list A; of the output the byte count of the new file. By the lines of a
//! run no rule may both fire and be out. A table with origins runs like the same without them, in both editions, and a table that is converted
//! there and back is the table again. A joined table is accepted, and by the log of its finished run the house's rules have what S-7 promises
//! them. So is a part's table, and finished runs of it and of the whole give the part's atoms the same tags. In the well-founded reading the
//! bound finishes and is not exceeded, every line of the finished plain run is there, and no literal has a tag and its opposite; in either
//! reading the log of a smaller budget is a beginning of that of a larger one. The first mismatch is printed and
//! ends the program with status 1: where the table comes from and what differs first (records, words, bytes and lines are counted from 0). What
//! is printed at the end is how often each verdict stood on a sheet, and how often each answer came, in the old layout and in edition two, among
//! them lines in a log below 4A words (a short log), short logs that a larger budget outgrows, and in the well-founded reading how runs stopped,
//! by how many searches they finished, and whether these added lines. Each must have come often enough, unless
//! fewer CALLS (of fly_run) than the default are asked for.
//!
//! --vectors DIR: base.bin, sheets-S6.bin, short-logs.bin, editions.bin, joins.bin, parts.bin, part-tables.bin and well-founded.bin there, against
//! both engines, before the CALLS.
//! --mutant K: the test's own test, of fewer CALLS. A deliberate fault in the slow engine or in what is expected of the buffers, which
//! must end in a mismatch.
//! --mutants: the number and the fault of each, a line for each K.

mod slow;
mod tables;

use slow::{mutant, plain, well_founded, Answer, Join, Listing, Part, Run, Standing, Terms, Written};
use slow::{FIRING, OLD, OUT, PLAIN, SCRATCH, TWO, WAITING, WELL_FOUNDED};
use std::fmt::Debug;
use std::ops::Range;
use std::sync::atomic::Ordering::Relaxed;
use tables::{Draft, Rng, Table, LIMITS};

extern "C" {
    fn fly_run(
        table: *const u8,
        table_len: usize,
        edition: u32,
        reading: u32,
        budget: u32,
        log: *mut u16,
        log_len: usize,
        scratch: *mut u16,
        scratch_len: usize,
    ) -> Answer;
    fn fly_sheet(table: *const u8, table_len: usize, out: *mut u8) -> u32;
    fn fly_stands(table: *const u8, table_len: usize, edition: u32, rule: u32, log: *const u16, log_len: usize) -> Standing;
    fn fly_convert(table: *const u8, table_len: usize, edition: u32, out: *mut u8, out_len: usize) -> Written;
    fn fly_join(
        house: *const u8,
        house_len: usize,
        tour: *const u8,
        tour_len: usize,
        edition: u32,
        out: *mut u8,
        out_len: usize,
    ) -> Written;
    fn fly_parts(table: *const u8, table_len: usize, edition: u32, list: *mut u16, list_len: usize) -> u32;
    fn fly_part(table: *const u8, table_len: usize, edition: u32, atom: u32, out: *mut u8, out_len: usize) -> Written;
}

const SEED: u64 = 20_260;
const CALLS: u64 = 1_100_000;
const MUTANT_CALLS: u64 = 10_300; // the mutant that is caught last needs 10,087
const SHEET: usize = 5_041;
const GUARD: usize = 32; // the most words or bytes of a buffer before the lent part, and the least past it
const LOG_MOST: usize = 4_096; // the longest log and the longest list lent
const SCRATCH_MOST: usize = SCRATCH + 1_024; // the longest scratch lent
const OUT_MOST: usize = 40_000; // the longest output lent

/// Numbers of no edition, some of them with the lowest bits of one.
const NO_EDITION: &[u32] =
    &[0, 3, 4, 5, 6, 255, 256, 257, 258, 513, 65_535, 65_536, 65_537, 65_538, (1 << 24) + 2, 1 << 31, (1 << 31) + 1, u32::MAX];

/// Numbers of no reading, likewise.
const NO_READING: &[u32] =
    &[2, 3, 4, 5, 255, 256, 257, 512, 513, 65_535, 65_536, 65_537, 1 << 24, (1 << 24) + 1, 1 << 31, (1 << 31) + 1, u32::MAX];

/// The deliberate faults, from 1. `slow::mutant` asks for them by number.
const MUTANTS: &[&str] = &[
    "a defeater supports",
    "a rule's pairs charged at every visit",
    "visited rules in falling order",
    "priority is transitive",
    "one supporter must beat all attackers",
    "a defeater does not attack",
    "−∂q without −Δq",
    "only pairs with complementary heads charged",
    "a pair charged to its stronger rule only",
    "lines follow from written lines, worked or not",
    "rules without antecedents settle at once",
    "a strange fact (5) seen before a wrong kind (4)",
    "a pair (r, r) is no circle",
    "9 before 8",
    "scratch word 32,768 becomes 0 too",
    "scratch is left as it was if the opening is not paid",
    "the log word past the lines becomes 0",
    "go before clash",
    "the sheet's buffer is left past the text",
    "equal neighbours are in order",
    "9 for a log below 4A words",
    "9 by the number worked",
    "9 by the lines of a run to its finish",
    "scratch becomes 0 with 9",
    "the lines that fit are written with 9",
    "scratch is left as it was with a log below 4A words",
    "a log below 4A words lacks the last line",
    "out before firing",
    "a rule without antecedents waits",
    "out by −Δ",
    "firing by +Δ",
    "one antecedent with +∂ is enough to fire",
    "a rule number not below N fires",
    "a rule number cut to 16 bits",
    "a strange rule number (5) seen before the table's refusal",
    "words of the log past the first 4A ignored",
    "the log's length cut to 16 bits",
    "the log ends at the first word that is no line",
    "a word of the log cut to 12 bits",
    "+∂ counted by words, repeated or not",
    "out by +∂ of an antecedent's complement too",
    "a refusal has standing 2",
    "a pair charged to its weaker rule only",
    "pairs counted for the first 1,023 rules alone",
    "a settled rule charged the pairs of the whole table",
    "an origin of 4 is legal",
    "in edition two a left word above 2 is a wrong kind",
    "a rule works by its whole left word",
    "in edition two every left word up to 14 is legal",
    "in edition two a fact's left word is read by its remainder by 4",
    "an origin in the old layout is passed over",
    "the first byte of edition two is not looked at",
    "the first byte of edition two counts towards the ten",
    "an unknown edition is the old layout",
    "the edition cut to 8 bits",
    "the edition cut to 16 bits",
    "a standing reads every table in the old layout",
    "a house rule is stronger than a tour rule",
    "10 before 9",
    "9 before the table's refusal",
    "9 by the byte count of the table",
    "origins are dropped on the way back",
    "every rule of a new file is the house's",
    "a conversion looks for no circle",
    "a conversion answers with the byte count of the table",
    "a conversion answers with a byte count beside 9",
    "the byte past the new file becomes 0",
    "a refused conversion writes the first byte",
    "idle by the supporters of 2a alone",
    "idle by the supporters of 2a + 1 alone",
    "split before idle",
    "a defeater counts as a supporter for idle",
    "idle where no supporter fires",
    "an atom without supporters is not idle",
    "idle by −Δ of an antecedent",
    "an added pair has the tour's rule over the house's",
    "a fact of both tables stands twice",
    "a join gives the rules the origins house and tour",
    "12 before 2 on the joined sizes",
    "2 on the joined sizes before 11",
    "the tour judged before the house",
    "no pair is added for a defeater",
    "joined pairs counted in 16 bits",
    "the tour's entries keep their rule numbers",
    "added pairs stand after all others",
    "the byte past the joined file becomes 0",
    "a refused join writes the first byte",
    "the lowest number that applies to a join",
    "the tour's pairs keep their rule numbers",
    "a pair is added for equal heads too",
    "a join answers with a byte count beside 12",
    "12 for an output that has fewer than ten bytes more than the joined file",
    "the antecedents of a rule connect, its head does not",
    "the rules of a pair connect",
    "facts connect",
    "the list has the largest atom of a part",
    "atoms connect by one rule, and not through chains",
    "a part is written in the other edition",
    "an atom cut to 16 bits",
    "a defeater does not connect",
    "a complement does not connect",
    "the first antecedent of a rule connects, and no other",
    "the word past the list becomes 0",
    "9 for a list before the table's refusal",
    "9 for a list of A words",
    "the lowest number that applies to a part",
    "12 before 5 of an atom",
    "a part answers with a byte count beside 12",
    "12 by the byte count of the whole table",
    "a part is that of the atoms whose word is the atom named",
    "a part's A is the number of its atoms",
    "a part's atoms are numbered anew",
    "a part's rules keep their numbers",
    "a part has the facts of all others",
    "a part's rules have no origins",
    "a pair is kept by one rule of a part",
    "a rule without antecedents belongs to no part",
    "the facts of an atom that no rule names belong to no part",
    "the byte past a part's file becomes 0",
    "a refused list writes the first word",
    "a refused part writes the first byte",
    "the ∂ search comes before the Δ search",
    "a search is not charged",
    "members of the second set need not have −Δ",
    "finished after the Δ search alone",
    "a search is begun though Size does not fit",
    "a set has one literal beside those that have the tag",
    "finished as soon as every line is worked",
    "the Δ search is not made again",
    "the plain run in the well-founded reading",
    "for an attacker's sake a supporter is out by an antecedent in the set",
    "the lines of a search go by falling literal",
    "9 by the lines of the plain run",
    "a fact can be in the first set",
    "defeasible rules count in the first set",
    "defeaters count in the second set",
    "one supporter is asked in the second set",
    "a search is begun only if more than Size is left",
    "the ∂ search follows a Δ search that adds lines",
    "the ∂ search is not charged",
    "an unknown reading is the plain one",
    "an unknown reading is the well-founded one",
    "the reading cut to 8 bits",
    "the reading cut to 16 bits",
    "an unknown reading is refused after the table",
    "the sheet is of the well-founded reading",
    "scratch is left as it was in the well-founded reading",
    "an unknown reading clears the scratch",
];

/// How often each answer of a run came.
#[derive(Default)]
struct Runs {
    refused: [u64; 10],
    stopped: u64,
    finished: u64,
    short: u64, // accepted, with lines in a log below 4A words
}

/// How often runs in the well-founded reading came to this.
#[derive(Default)]
struct Searches {
    before: u64,        // stopped with every line worked, before a Δ search
    between: u64,       // stopped with every line worked, before a ∂ search
    delta: u64,         // a Δ search added lines
    partial: u64,       // a ∂ search added lines
    finished: [u64; 7], // finished by so many searches, or by more if it is the last
}

/// How often each answer came for tables of one edition.
#[derive(Default)]
struct Counts {
    runs: [Runs; 3], // in the plain reading, in the well-founded one, in none
    searches: Searches,
    stood: [u64; 3],     // by how the rule stands, if it has antecedents
    bodiless: u64,       // rules that have none
    not_stood: [u64; 8], // by the number of the table's refusal
    strange: u64,        // rule numbers not below N, of tables that are accepted
    converted: u64,
    not_converted: [u64; 11], // by the number of the refusal
    joins: Joins,
    parts: Parts,
}

/// How often each answer of a join came.
#[derive(Default)]
struct Joins {
    joined: u64,
    fitted: u64,          // joined, in an output that has no byte more than the file
    of_house: [u64; 8],   // by the number of the house's refusal
    of_tour: [u64; 8],    // of a house that is accepted, by the number of the tour's refusal
    tour_lower: u64,      // the house is refused, and the tour by a lower number
    apart: u64,           // 11
    apart_and_large: u64, // 11, where the joined sizes are too large too
    too_large: [u64; 4],  // 2 on the joined sizes, of which F, N, B or P is the first above its limit
    wrapped: u64,         // 2, where there are more pairs than 16 bits count
    large_and_short: u64, // 2, where the output is too short too
    too_short: u64,       // 12
}

/// How often each answer of a list of parts came, and of a part's table.
#[derive(Default)]
struct Parts {
    listed: u64,
    list_fitted: u64,       // listed, in a list of A words
    several: u64,           // listed, some atoms of one part and some of others
    not_listed: [u64; 8],   // by the number of the table's refusal
    refused_and_short: u64, // such, where the list is below A words too
    short_lists: u64,       // 9
    parted: u64,
    fitted: u64,              // parted, in an output that has no byte more than the file
    smaller: u64,             // parted, the part with rules and less than the whole
    cut: u64,                 // parted, without pairs of which one rule is the part's
    not_parted: [u64; 8],     // by the number of the table's refusal
    refused_and_strange: u64, // such by 6 or 7, where the atom is not below A too
    strange: u64,             // 5 of the atom
    strange_and_short: u64,   // such, where the output is too short for any table
    too_short: u64,           // 12
}

const VERDICTS: [&str; 6] = ["clash", "go", "hold", "idle", "split", "open"];

/// What was counted, how often it came, and how often it must have come.
type Count = (String, u64, u64);

fn counted(what: &str, came: u64, least: u64) -> Count {
    (what.to_string(), came, least)
}

impl Counts {
    /// The answers that there are in both editions; `least` is for those that are no refusals.
    fn list(&self, edition: &str, least: u64) -> Vec<Count> {
        let refusals = |of: &str, numbers: &[usize], came: &[u64]| -> Vec<Count> {
            numbers.iter().map(|&k| counted(&format!("{edition}{of}refused {k}:"), came[k], 1_000)).collect()
        };
        let answers = |answers: &[(&str, u64)], least: u64| -> Vec<Count> {
            answers.iter().map(|&(what, came)| counted(&format!("{edition}{what}"), came, least)).collect()
        };
        let [firing, out, waiting] = self.stood;
        let [plain, _, _] = &self.runs;
        [
            refusals("", &[1, 2, 3, 4, 5, 6, 7, 8], &plain.refused),
            answers(&[("refused 9:", plain.refused[9])], 10_000),
            answers(&[("stopped", plain.stopped), ("finished", plain.finished), ("short logs accepted", plain.short)], least),
            self.list_searches(edition, least / 2),
            refusals("standings ", &[1, 2, 3, 4, 5, 6, 7], &self.not_stood),
            answers(&[("rule numbers refused", self.strange)], 10_000),
            answers(&[("firing", firing), ("out", out), ("waiting", waiting)], least),
            answers(&[("firing without antecedents", self.bodiless)], least),
            refusals("conversions ", &[1, 2, 3, 4, 5, 6, 7, 9], &self.not_converted),
            answers(&[("converted", self.converted)], 20_000),
            refusals("joins, the house ", &[1, 2, 3, 4, 5, 6, 7], &self.joins.of_house),
            refusals("joins, the tour ", &[1, 2, 3, 4, 5, 6, 7], &self.joins.of_tour),
            self.joins.list(edition),
            refusals("lists of parts ", &[1, 2, 3, 4, 5, 6, 7], &self.parts.not_listed),
            refusals("parts ", &[1, 2, 3, 4, 5, 6, 7], &self.parts.not_parted),
            self.parts.list(edition),
        ]
        .concat()
    }

    /// The answers of runs in the well-founded reading, and of those in none.
    fn list_searches(&self, edition: &str, least: u64) -> Vec<Count> {
        let ([_, runs, none], searches) = (&self.runs, &self.searches);
        let mut list: Vec<(String, u64, u64)> =
            (1..9).map(|k| (format!("well-founded, refused {k}:"), runs.refused[k], 300)).collect();
        let more = [
            ("well-founded, refused 9:", runs.refused[9], least),
            ("well-founded, stopped", runs.stopped, least),
            ("well-founded, stopped with every line worked, before a Δ search", searches.before, least / 5),
            ("well-founded, stopped with every line worked, before a ∂ search", searches.between, least / 5),
            ("well-founded, finished", runs.finished, least),
            ("well-founded, short logs accepted", runs.short, least),
            ("well-founded, runs in which a Δ search added lines", searches.delta, least / 5),
            ("well-founded, runs in which a ∂ search added lines", searches.partial, least),
            ("no reading, refused 1:", none.refused[1], 1_000),
        ];
        list.extend(more.map(|(what, came, least)| (what.to_string(), came, least)));
        for k in 2..7 {
            let or_more = if k == 6 { " or more" } else { "" };
            list.push((format!("well-founded, finished by {k}{or_more} searches"), searches.finished[k], least / 10));
        }
        list.into_iter().map(|(what, came, least)| counted(&format!("{edition}{what}"), came, least)).collect()
    }
}

impl Runs {
    fn count(&mut self, answer: &Answer, short: bool) {
        match (answer.refused, answer.finished) {
            (0, 0) => self.stopped += 1,
            (0, _) => self.finished += 1,
            (number, _) => self.refused[number as usize] += 1,
        }
        self.short += (answer.lines != 0 && short) as u64;
    }
}

impl Searches {
    /// A run that is accepted.
    fn count(&mut self, run: &Run) {
        let (answer, made) = (&run.answer, &run.searches);
        let (opened, quiet) = (answer.spent != 0, answer.worked == answer.lines && answer.finished == 0);
        let last = made.last().filter(|s| s.added == 0);
        self.between += (opened && quiet && last.is_some_and(|s| !s.partial)) as u64;
        self.before += (opened && quiet && last.is_none()) as u64;
        self.delta += made.iter().any(|s| !s.partial && s.added != 0) as u64;
        self.partial += made.iter().any(|s| s.partial && s.added != 0) as u64;
        if answer.finished != 0 {
            self.finished[made.len().min(6)] += 1;
        }
    }
}

impl Joins {
    /// The answers but for the refusals of one table.
    fn list(&self, edition: &str) -> Vec<Count> {
        let [_, rules, entries, pairs] = self.too_large;
        let list = [
            ("joined", self.joined, 10_000),
            ("joined, the output just long enough", self.fitted, 5_000),
            ("joins, the house refused, the tour by a lower number", self.tour_lower, 1_000),
            ("joins refused 11:", self.apart, 1_000),
            ("joins refused 11, too large as well:", self.apart_and_large, 150),
            ("joins refused 2 by rules:", rules, 300),
            ("joins refused 2 by entries:", entries, 300),
            ("joins refused 2 by pairs:", pairs, 700),
            ("joins refused 2 by more pairs than 16 bits count:", self.wrapped, 300),
            ("joins refused 2, the output too short as well:", self.large_and_short, 700),
            ("joins refused 12:", self.too_short, 2_000),
        ];
        list.into_iter().map(|(what, came, least)| counted(&format!("{edition}{what}"), came, least)).collect()
    }

    /// The answer of a join with an output of this length.
    fn count(&mut self, join: &Join, answer: &Written, out_len: usize) {
        let above = [1_024, 1_024, 4_096, 2_048].iter().zip(join.sizes).position(|(&limit, size)| size > limit);
        let short = out_len < join.len;
        match (join.house, join.tour, answer.refused) {
            (0, 0, 0) => {
                self.joined += 1;
                self.fitted += (out_len == join.len) as u64;
            }
            (0, 0, 11) => {
                self.apart += 1;
                self.apart_and_large += above.is_some() as u64;
            }
            (0, 0, 2) => {
                above.into_iter().for_each(|k| self.too_large[k] += 1);
                self.wrapped += (join.sizes[3] > 65_535) as u64;
                self.large_and_short += short as u64;
            }
            (0, 0, _) => self.too_short += 1,
            (0, number, _) => self.of_tour[number as usize] += 1,
            (number, other, _) => {
                self.of_house[number as usize] += 1;
                self.tour_lower += (other != 0 && other < number) as u64;
            }
        }
    }
}

impl Parts {
    /// The answers but for the refusals of the table.
    fn list(&self, edition: &str) -> Vec<Count> {
        let list = [
            ("lists of parts", self.listed, 10_000),
            ("lists of parts, the list just long enough", self.list_fitted, 5_000),
            ("lists of several parts", self.several, 10_000),
            ("lists of parts refused by the table, the list too short as well:", self.refused_and_short, 2_000),
            ("lists of parts refused 9:", self.short_lists, 5_000),
            ("parts written", self.parted, 10_000),
            ("parts written, the output just long enough", self.fitted, 5_000),
            ("parts written that are not the whole", self.smaller, 5_000),
            ("parts written without pairs across", self.cut, 2_000),
            ("parts refused by 6 or 7, the atom strange as well:", self.refused_and_strange, 500),
            ("parts refused 5 by the atom:", self.strange, 5_000),
            ("parts refused 5 by the atom, the output too short as well:", self.strange_and_short, 1_000),
            ("parts refused 12:", self.too_short, 5_000),
        ];
        list.into_iter().map(|(what, came, least)| counted(&format!("{edition}{what}"), came, least)).collect()
    }

    /// The answer of a list of this length.
    fn count_list(&mut self, listing: &Listing, refused: u32, list_len: usize) {
        let (parts, most) = listing.parts_and_most();
        match (listing.judged, refused) {
            (0, 0) => {
                self.listed += 1;
                self.list_fitted += (list_len == listing.a) as u64;
                self.several += (parts > 1 && most > 1) as u64;
            }
            (0, _) => self.short_lists += 1,
            (number, _) => {
                self.not_listed[number as usize] += 1;
                self.refused_and_short += (list_len < listing.a) as u64;
            }
        }
    }

    /// The answer of a part of this table with an output of this length.
    fn count(&mut self, t: &Table, part: &Part, answer: &Written, out_len: usize) {
        let len = part.file.len();
        match (part.judged, answer.refused) {
            (0, 0) => {
                self.parted += 1;
                self.fitted += (out_len == len) as u64;
                self.smaller += (len < t.bytes.len() && rules(&Table { bytes: part.file.clone(), ..*t }) != 0) as u64;
                self.cut += (part.cut != 0) as u64;
            }
            (0, 5) => {
                self.strange += 1;
                self.strange_and_short += (out_len < 10) as u64;
            }
            (0, _) => self.too_short += 1,
            (number, _) => {
                self.not_parted[number as usize] += 1;
                self.refused_and_strange += (number > 5 && part.strange) as u64;
            }
        }
    }
}

struct Bench {
    rng: Rng,
    base: Vec<u16>,
    log: Vec<u16>,
    log_expected: Vec<u16>,
    scratch: Vec<u16>,
    scratch_expected: Vec<u16>,
    out: Vec<u8>,
    table: Vec<u8>,
    lines: Vec<u16>, // the archive's lines of the last call
    place: String,   // where the tables come from
    last: u64,       // the number of calls to end at
    calls: u64,
    sheets: u64,
    verdicts: [u64; 6], // by their words on the sheets
    standings: u64,
    conversions: u64,
    joins: u64,
    counts: [Counts; 3], // of no edition, of the old layout, of edition two
    outgrown: u64,       // lengths of log that held the lines under one budget, and were too short under a larger one
    coherent: u64,       // logs of runs by which no rule both fires and is out
    alike: u64,          // tables with origins that ran like the same without them
    returned: u64,       // tables that came back from the other edition
    claimed: u64,        // house rules of which S-7 promises that their heads have +∂
    contested: u64,      // those of them against which a tour's rule fires
    lists: u64,
    parts: u64,
    accepted: u64,     // tables of parts that are accepted
    tagged_alike: u64, // parts whose atoms have the tags that the whole gives them
    founded: u64,      // tables of which the well-founded reading keeps what S-9 promises
    concluded: u64,    // those of them that conclude more in it than in the plain reading
    beyond: u64,       // those of them that five times Size does not finish in it
}

/// The k-th of the five sizes, or 0 if the table ends before it.
fn size(t: &Table, k: usize) -> usize {
    t.layout().get(2 * k..2 * k + 2).map_or(0, |w| u16::from_le_bytes([w[0], w[1]]) as usize)
}

fn atoms(t: &Table) -> usize {
    size(t, 0)
}

fn rules(t: &Table) -> u32 {
    size(t, 2) as u32
}

/// The words of a full log, 4A, or nearly all that can be lent.
fn full_log(t: &Table) -> usize {
    (4 * atoms(t)).min(LOG_MOST - 64)
}

/// The byte count of the table in the other edition, or nearly all that can be lent.
fn new_len(t: &Table) -> usize {
    let n = t.bytes.len();
    let new = if t.edition == TWO { less_one(n) } else { n + 1 };
    new.min(OUT_MOST - 64)
}

/// What the table is refused by, 1 to 7, or 0; 8 and 9 are about buffers.
fn of_table(answer: &Answer) -> u32 {
    if answer.refused < 8 {
        answer.refused
    } else {
        0
    }
}

fn less_one(n: usize) -> usize {
    n.saturating_sub(1)
}

fn hex(bytes: &[u8]) -> String {
    bytes.iter().map(|b| format!("{b:02x}")).collect()
}

/// Noise by one of four cheap functions of a seed and the index: words that differ, one word, bits, rising words.
fn fill(words: &mut [u16], base: &[u16], seed: u64) {
    let k = (seed >> 8) as u16;
    match seed % 4 {
        0 => words.iter_mut().zip(base).for_each(|(w, b)| *w = b ^ k),
        1 => words.fill(k),
        2 => words.iter_mut().zip(base).for_each(|(w, b)| *w = (b ^ k) & 1),
        _ => words.iter_mut().enumerate().for_each(|(i, w)| *w = k.wrapping_add(i as u16)),
    }
}

/// The first number that differs.
fn numbers_differ(names: &[&str], came: &[u32], wanted: &[u32]) -> Option<String> {
    let i = (0..names.len()).find(|&i| came[i] != wanted[i])?;
    Some(format!("{} came {} wanted {}", names[i], came[i], wanted[i]))
}

fn answers_differ(came: &Answer, wanted: &Answer) -> Option<String> {
    let numbers = |a: &Answer| [a.refused, a.finished, a.lines, a.worked, a.spent];
    numbers_differ(&["refused", "finished", "lines", "worked", "spent"], &numbers(came), &numbers(wanted))
}

fn standings_differ(came: &Standing, wanted: &Standing) -> Option<String> {
    let numbers = |s: &Standing| [s.refused, s.standing];
    numbers_differ(&["refused", "standing"], &numbers(came), &numbers(wanted))
}

fn written_differs(came: &Written, wanted: &Written) -> Option<String> {
    let numbers = |w: &Written| [w.refused, w.bytes];
    numbers_differ(&["refused", "bytes"], &numbers(came), &numbers(wanted))
}

/// The first element that differs, by its place from `start`.
fn elements_differ<T: PartialEq + Debug>(what: &str, came: &[T], wanted: &[T], start: usize) -> Option<String> {
    if came == wanted {
        return None; // faster than the search below, which is for the one call that differs
    }
    let i = came.iter().zip(wanted).take_while(|(x, y)| x == y).count();
    let shown = |x: Option<&T>| x.map_or("nothing".to_string(), |x| format!("{x:?}"));
    Some(format!("{what} {} came {} wanted {}", i as isize - start as isize, shown(came.get(i)), shown(wanted.get(i))))
}

fn lines_differ(came: &str, wanted: &str) -> Option<String> {
    let lines = |text| -> Vec<&str> { str::split_inclusive(text, '\n').collect() };
    elements_differ("line", &lines(came), &lines(wanted), 0)
}

impl Bench {
    fn new(seed: u64) -> Bench {
        let mut rng = Rng(seed);
        let base = (0..OUT_MOST + 2 * GUARD).map(|_| rng.next() as u16).collect();
        Bench {
            rng,
            base,
            log: vec![0; LOG_MOST + 2 * GUARD],
            log_expected: vec![0; LOG_MOST + 2 * GUARD],
            scratch: vec![0; SCRATCH_MOST + 2 * GUARD],
            scratch_expected: vec![0; SCRATCH_MOST + 2 * GUARD],
            out: vec![],
            table: vec![],
            lines: vec![],
            place: String::new(),
            last: u64::MAX,
            calls: 0,
            sheets: 0,
            verdicts: [0; 6],
            standings: 0,
            conversions: 0,
            joins: 0,
            counts: Default::default(),
            outgrown: 0,
            coherent: 0,
            alike: 0,
            returned: 0,
            claimed: 0,
            contested: 0,
            lists: 0,
            parts: 0,
            accepted: 0,
            tagged_alike: 0,
            founded: 0,
            concluded: 0,
            beyond: 0,
        }
    }

    fn counts(&mut self, t: &Table) -> &mut Counts {
        let [none, old, two] = &mut self.counts;
        match t.edition {
            OLD => old,
            TWO => two,
            _ => none,
        }
    }

    fn mismatch(&self, what: &str, table: &[u8], rest: String) -> ! {
        println!("MISMATCH: {}: {what}", self.place);
        println!("table ({} bytes) {}", table.len(), hex(table));
        println!("{rest}");
        println!("mismatches 1");
        std::process::exit(1)
    }

    /// The table in a buffer of its own, at any alignment, with bytes around it. Returns where it begins.
    fn lend_table(&mut self, t: &[u8]) -> usize {
        let at = self.rng.within(1, 8);
        self.table.clear();
        self.table.resize(at, 0xA5);
        self.table.extend_from_slice(t);
        self.table.resize(at + t.len() + 8, 0xA5);
        at
    }

    fn table_altered(&self, at: usize, t: &[u8]) -> Option<String> {
        let end = at + t.len();
        let same = self.table[at..end] == *t && self.table[..at].iter().chain(&self.table[end..]).all(|&b| b == 0xA5);
        (!same).then(|| "the table is altered".to_string())
    }

    /// Noise in a buffer of bytes. Returns the part of it that is lent.
    fn lend_output(&mut self, out_len: usize) -> Range<usize> {
        let (at, k) = (self.rng.within(1, GUARD), self.rng.next() as u8);
        self.out.clear();
        self.out.extend(self.base[..out_len + 2 * GUARD].iter().map(|&b| b as u8 ^ k));
        at..at + out_len
    }

    /// Noise in the log's buffer, which is a list's too. Returns the part of it that is lent.
    fn lend_words(&mut self, len: usize) -> Range<usize> {
        let at = self.rng.within(1, GUARD);
        fill(&mut self.log, &self.base, self.rng.next());
        self.log_expected.copy_from_slice(&self.log);
        at..at + len
    }

    /// Noise in both buffers. Returns the parts of them that are lent.
    fn lend_buffers(&mut self, log_len: usize, scratch_len: usize) -> (Range<usize>, Range<usize>) {
        let (log, at) = (self.lend_words(log_len), self.rng.within(1, GUARD));
        fill(&mut self.scratch, &self.base, self.rng.next());
        self.scratch_expected.copy_from_slice(&self.scratch);
        (log, at..at + scratch_len)
    }

    /// "Log words past the lines are untouched; on every accepted call the first 32,768 scratch words are 0 and the rest untouched."
    /// A refusal "writes nothing"; with 9, "log and scratch untouched". `short`: the log is below 4A words.
    fn expect(&mut self, reading: u32, answer: &Answer, lines: &[u16], short: bool, log: &Range<usize>, scratch: &Range<usize>) {
        let (log, scratch) = (&mut self.log_expected[log.clone()], &mut self.scratch_expected[scratch.clone()]);
        let n = lines.len().min(log.len());
        if answer.refused != 0 {
            if mutant(24) && answer.refused == 9 {
                scratch[..SCRATCH].fill(0);
            }
            if mutant(25) && answer.refused == 9 {
                log[..n].copy_from_slice(&lines[..n]);
            }
            if mutant(148) && reading > WELL_FOUNDED && scratch.len() >= SCRATCH {
                scratch[..SCRATCH].fill(0);
            }
            return;
        }
        let n = if mutant(27) && short { less_one(n) } else { n };
        log[..n].copy_from_slice(&lines[..n]);
        if !(mutant(16) && answer.spent == 0 || mutant(26) && short || mutant(147) && reading == WELL_FOUNDED) {
            scratch[..SCRATCH].fill(0);
        }
        if mutant(17) && n < log.len() {
            log[n] = 0;
        }
        if mutant(15) && scratch.len() > SCRATCH {
            scratch[SCRATCH] = 0;
        }
    }

    fn count(&mut self, t: &Table, reading: u32, answer: &Answer, run: &Run, short: bool) {
        let counts = self.counts(t);
        counts.runs[reading.min(2) as usize].count(answer, short);
        if reading == WELL_FOUNDED && answer.refused == 0 {
            counts.searches.count(run);
        }
    }

    /// One call of fly_run and all that is compared for it; the run is the slow engine's.
    fn call(&mut self, t: &Table, terms: Terms, run: &Run, log_len: usize, scratch_len: usize) -> Answer {
        if self.calls == self.last {
            self.end();
        }
        let Terms { reading, budget } = terms;
        let (expected, short) = (slow::call(&t.bytes, t.edition, terms, run, log_len, scratch_len), log_len < full_log(t));
        let at = self.lend_table(&t.bytes);
        let (log_lent, scratch_lent) = self.lend_buffers(log_len, scratch_len);
        let (log, scratch) = (self.log[log_lent.clone()].as_mut_ptr(), self.scratch[scratch_lent.clone()].as_mut_ptr());
        let lent = &self.table[at..at + t.bytes.len()];
        let answer = unsafe { fly_run(lent.as_ptr(), lent.len(), t.edition, reading, budget, log, log_len, scratch, scratch_len) };
        self.calls += 1;
        self.lines.clear();
        self.lines.extend_from_slice(&self.log[log_lent.clone()][..(answer.lines as usize).min(log_len)]);
        self.expect(reading, &expected, &run.lines, short, &log_lent, &scratch_lent);
        let difference = answers_differ(&answer, &expected)
            .or_else(|| elements_differ("log word", &self.log, &self.log_expected, log_lent.start))
            .or_else(|| elements_differ("scratch word", &self.scratch, &self.scratch_expected, scratch_lent.start))
            .or_else(|| self.table_altered(at, &t.bytes));
        if let Some(what) = difference {
            let lengths = format!("log_len {log_len} scratch_len {scratch_len}");
            let call = format!("call {} edition {} reading {reading} budget {budget} {lengths}", self.calls, t.edition);
            let logs = format!("archive log {:?}\nslow    log {:?}", self.lines, run.lines);
            self.mismatch(&what, &t.bytes, format!("{call}\narchive {answer:?}\nslow    {expected:?}\n{logs}"));
        }
        self.count(t, reading, &expected, run, short);
        answer
    }

    /// One call of fly_sheet and all that is compared for it.
    fn sheet(&mut self, t: &[u8]) {
        let text = slow::sheet(t);
        let at = self.lend_table(t);
        let out = self.lend_output(SHEET);
        let mut expected = self.out.clone();
        if !mutant(19) {
            expected[out.clone()].fill(0);
        }
        expected[out.clone()][..text.len()].copy_from_slice(text.as_bytes());
        let lent = &self.table[at..at + t.len()];
        let length = unsafe { fly_sheet(lent.as_ptr(), lent.len(), self.out[out.clone()].as_mut_ptr()) } as usize;
        self.sheets += 1;
        let words = text.lines().filter_map(|line| line.split_once(' '));
        for k in words.filter_map(|(_, word)| VERDICTS.iter().position(|&v| v == word)) {
            self.verdicts[k] += 1;
        }
        let shown = String::from_utf8_lossy(&self.out[out.clone()][..length.min(SHEET)]);
        let difference = lines_differ(&shown, &text)
            .or_else(|| (length != text.len()).then(|| format!("length came {length} wanted {}", text.len())))
            .or_else(|| elements_differ("byte", &self.out, &expected, out.start))
            .or_else(|| self.table_altered(at, t));
        if let Some(what) = difference {
            let call = format!("sheet {} after call {}", self.sheets, self.calls);
            self.mismatch(&format!("sheet: {what}"), t, format!("{call}\narchive {shown:?}\nslow    {text:?}"));
        }
    }

    /// The log with words around it, which are lines of these antecedents and would count. Returns where it begins, too.
    fn lend_log(&mut self, log: &[u16], body: &[usize]) -> (usize, Vec<u16>) {
        let lines: Vec<u16> = body.iter().flat_map(|&q| [4 * q + 3, 4 * q + 2]).chain([0]).map(|l| l as u16).collect();
        let (at, around) = (self.rng.within(1, GUARD), lines.iter().cycle());
        (at, around.clone().take(at).chain(log).chain(around.take(GUARD)).copied().collect())
    }

    /// One call of fly_stands and all that is compared for it; `judged` is the slow engine's refusal of the table, or 0.
    fn stands(&mut self, t: &Table, judged: u32, rule: u32, log: &[u16]) -> Standing {
        let body = slow::antecedents(&t.bytes, t.edition, rule);
        let expected = slow::stands(&t.bytes, t.edition, judged, rule, log);
        let at = self.lend_table(&t.bytes);
        let (log_at, words) = self.lend_log(log, &body);
        let before = words.clone();
        let (lent, read) = (&self.table[at..at + t.bytes.len()], &words[log_at..log_at + log.len()]);
        let standing = unsafe { fly_stands(lent.as_ptr(), lent.len(), t.edition, rule, read.as_ptr(), read.len()) };
        self.standings += 1;
        let difference = standings_differ(&standing, &expected)
            .or_else(|| elements_differ("log word", &words, &before, log_at))
            .or_else(|| self.table_altered(at, &t.bytes));
        if let Some(what) = difference {
            let number = format!("standing {} after call {}", self.standings, self.calls);
            let call = format!("{number} edition {} rule {rule} log_len {}", t.edition, log.len());
            let numbers = format!("archive {standing:?}\nslow    {expected:?}");
            self.mismatch(&format!("standing: {what}"), &t.bytes, format!("{call}\n{numbers}\nlog {log:?}"));
        }
        let counts = self.counts(t);
        match (judged, expected.refused) {
            (0, 0) if body.is_empty() => counts.bodiless += 1,
            (0, 0) => counts.stood[expected.standing as usize] += 1,
            (0, _) => counts.strange += 1,
            (number, _) => counts.not_stood[number as usize] += 1,
        }
        standing
    }

    /// One call of fly_convert and all that is compared for it: "a refusal leaves the output untouched, and bytes past the new file always
    /// are." Returns the new file, unless it is refused.
    fn convert(&mut self, t: &Table, out_len: usize) -> Option<Table> {
        let (expected, file) = slow::convert(&t.bytes, t.edition, out_len);
        let at = self.lend_table(&t.bytes);
        let out = self.lend_output(out_len);
        let mut wanted = self.out.clone();
        wanted[out.start..out.start + file.len()].copy_from_slice(&file);
        if mutant(67) && expected.refused == 0 && file.len() < out_len {
            wanted[out.start + file.len()] = 0;
        }
        if mutant(68) && expected.refused != 0 && out_len != 0 {
            wanted[out.start] = 2;
        }
        let lent = &self.table[at..at + t.bytes.len()];
        let came = unsafe { fly_convert(lent.as_ptr(), lent.len(), t.edition, self.out[out.clone()].as_mut_ptr(), out_len) };
        self.conversions += 1;
        let difference = written_differs(&came, &expected)
            .or_else(|| elements_differ("output byte", &self.out, &wanted, out.start))
            .or_else(|| self.table_altered(at, &t.bytes));
        if let Some(what) = difference {
            let number = format!("conversion {} after call {}", self.conversions, self.calls);
            let call = format!("{number} edition {} out_len {out_len}", t.edition);
            let numbers = format!("archive {came:?}\nslow    {expected:?}");
            let files = format!("archive output {}\nslow    file   {}", hex(&self.out[out]), hex(&file));
            self.mismatch(&format!("conversion: {what}"), &t.bytes, format!("{call}\n{numbers}\n{files}"));
        }
        let counts = self.counts(t);
        if came.refused != 0 {
            counts.not_converted[came.refused as usize] += 1;
            return None;
        }
        counts.converted += 1;
        let edition = if t.edition == OLD { TWO } else { OLD };
        Some(Table { edition, bytes: self.out[out][..came.bytes as usize].to_vec() })
    }

    /// A lent length of the output: enough for the new file, or around its byte count.
    fn out_len(&mut self, new: usize) -> usize {
        let (more, less) = (self.rng.within(new, OUT_MOST), self.rng.below(new));
        if self.rng.chance(1, 32) {
            more
        } else {
            self.rng.pick(&[new, new, new, new + 1, new + 40, less_one(new), less_one(new), new.saturating_sub(2), 0, less])
        }
    }

    /// A table in the other edition, by an output of any length; and back, by one that is long enough. "each way giving the unique file"
    fn there_and_back(&mut self, t: &Table) {
        let out_len = self.out_len(new_len(t));
        let Some(there) = self.convert(t, out_len) else { return };
        let out_len = new_len(&there) + self.rng.below(2);
        let back = self.convert(&there, out_len);
        if back.as_ref().map(|t| &t.bytes) != Some(&t.bytes) {
            let files = format!("there {}\nback  {}", hex(&there.bytes), hex(&back.map_or(vec![], |t| t.bytes)));
            self.mismatch("there and back is another table", &t.bytes, files);
        }
        self.returned += 1;
    }

    /// Every output length around the byte count of the new file.
    fn output_lengths(&mut self, t: &Table) {
        let new = new_len(t);
        for out_len in [0, 1, new.saturating_sub(2), less_one(new), new, new + 1, new + 40, OUT_MOST] {
            self.convert(t, out_len);
        }
    }

    /// One call of fly_join and all that is compared for it: "A join that is turned away leaves the output untouched; otherwise its bytes past
    /// the table are untouched." The join is the slow engine's, the edition the house's. What is joined must be as S-7 says.
    fn join(&mut self, house: &Table, tour: &Table, join: &Join, out_len: usize) {
        let (edition, expected) = (house.edition, join.answer(out_len));
        let file: &[u8] = if expected.refused == 0 { &join.file } else { &[] };
        let gap = vec![0xA5; self.rng.within(1, 8)];
        let both = [&house.bytes[..], &gap, &tour.bytes].concat();
        let at = self.lend_table(&both);
        let out = self.lend_output(out_len);
        let mut wanted = self.out.clone();
        wanted[out.start..out.start + file.len()].copy_from_slice(file);
        if mutant(86) && expected.refused == 0 && file.len() < out_len {
            wanted[out.start + file.len()] = 0;
        }
        if mutant(87) && expected.refused != 0 && out_len != 0 {
            wanted[out.start] = 2;
        }
        let (h, rest) = self.table[at..].split_at(house.bytes.len());
        let (t, lent) = (&rest[gap.len()..][..tour.bytes.len()], self.out[out.clone()].as_mut_ptr());
        let came = unsafe { fly_join(h.as_ptr(), h.len(), t.as_ptr(), t.len(), edition, lent, out_len) };
        self.joins += 1;
        let difference = written_differs(&came, &expected)
            .or_else(|| elements_differ("output byte", &self.out, &wanted, out.start))
            .or_else(|| self.table_altered(at, &both));
        if let Some(what) = difference {
            let call = format!("join {} after call {} edition {edition} out_len {out_len}", self.joins, self.calls);
            let tables = format!("tour  ({} bytes) {}\n{call}", tour.bytes.len(), hex(&tour.bytes));
            let numbers = format!("archive {came:?}\nslow    {expected:?}");
            let files = format!("archive output {}\nslow    file   {}", hex(&self.out[out]), hex(file));
            self.mismatch(&format!("join: {what}"), &house.bytes, format!("{tables}\n{numbers}\n{files}"));
        }
        self.counts(house).joins.count(join, &expected, out_len);
        if came.refused == 0 {
            let joined = Table { edition, bytes: self.out[out][..came.bytes as usize].to_vec() };
            self.house_prevails(&joined, rules(house) as usize);
        }
    }

    /// A house and a tour joined, by an output of any length.
    fn join_any(&mut self, house: &Table, tour: &Table) {
        let join = slow::join(&house.bytes, &tour.bytes, house.edition);
        let new = if join.len == 0 { house.bytes.len() + tour.bytes.len() } else { join.len };
        let out_len = self.out_len(new.min(OUT_MOST - 64));
        self.join(house, tour, &join, out_len);
    }

    /// "The result is always free of circles", and legal otherwise: it runs to its finish. By these lines "a strict or defeasible house rule
    /// that fires gives its head +∂ wherever no house rule attacks it and the head's complement has −Δ." The first n rules are the house's.
    fn house_prevails(&mut self, joined: &Table, n: usize) {
        let answer = if rules(joined) <= 200 { self.enough(joined, plain(u32::MAX)) } else { self.alone(joined, PLAIN) };
        if answer.refused != 0 || answer.finished != 1 {
            self.mismatch("a joined table does not run to its finish", &joined.bytes, format!("archive {answer:?}"));
        }
        let claim = slow::claim(&joined.bytes, joined.edition, n, &self.lines);
        if let Some(rule) = claim.broken {
            let log = format!("rules of the house {n}\narchive log {:?}", self.lines);
            self.mismatch(&format!("house rule {rule} fires, and its head lacks +∂"), &joined.bytes, log);
        }
        self.claimed += claim.claimed;
        self.contested += claim.contested;
    }

    /// A run of the archive alone to its finish, of a table that the slow engine takes long for.
    fn alone(&mut self, t: &Table, reading: u32) -> Answer {
        let (log, scratch) = self.lend_buffers(LOG_MOST, SCRATCH);
        let (log_lent, scratch) = (self.log[log.clone()].as_mut_ptr(), self.scratch[scratch].as_mut_ptr());
        let (table, most) = (&t.bytes, u32::MAX);
        let answer =
            unsafe { fly_run(table.as_ptr(), table.len(), t.edition, reading, most, log_lent, LOG_MOST, scratch, SCRATCH) };
        self.lines = self.log[log][..(answer.lines as usize).min(LOG_MOST)].to_vec();
        answer
    }

    /// Every output length around the byte count of the joined file.
    fn joined_lengths(&mut self, house: &Table, tour: &Table) {
        let join = slow::join(&house.bytes, &tour.bytes, house.edition);
        let new = join.len.min(OUT_MOST - 64);
        for out_len in [0, 1, new.saturating_sub(2), less_one(new), new, new + 1, new + 40, OUT_MOST] {
            self.join(house, tour, &join, out_len);
        }
    }

    /// One call of fly_parts and all that is compared for it: "Refusals write nothing, and words or bytes past the result are untouched." The
    /// listing is the slow engine's.
    fn list(&mut self, t: &Table, listing: &Listing, list_len: usize) {
        let (expected, n) = (listing.refused(list_len), listing.words.len());
        let at = self.lend_table(&t.bytes);
        let list = self.lend_words(list_len);
        let wanted = &mut self.log_expected[list.clone()];
        if expected == 0 {
            wanted.iter_mut().zip(&listing.words).for_each(|(w, &a)| *w = a as u16);
        }
        if mutant(103) && expected == 0 && n < list_len {
            wanted[n] = 0;
        }
        if mutant(120) && expected != 0 && list_len != 0 {
            wanted[0] = 0;
        }
        let (lent, words) = (&self.table[at..at + t.bytes.len()], self.log[list.clone()].as_mut_ptr());
        let came = unsafe { fly_parts(lent.as_ptr(), lent.len(), t.edition, words, list_len) };
        self.lists += 1;
        let difference = numbers_differ(&["refused"], &[came], &[expected])
            .or_else(|| elements_differ("list word", &self.log, &self.log_expected, list.start))
            .or_else(|| self.table_altered(at, &t.bytes));
        if let Some(what) = difference {
            let call = format!("list {} after call {} edition {} list_len {list_len}", self.lists, self.calls, t.edition);
            let lists = format!("archive {came} {:?}\nslow    {expected} {:?}", &self.log[list], listing.words);
            self.mismatch(&format!("list of parts: {what}"), &t.bytes, format!("{call}\n{lists}"));
        }
        self.counts(t).parts.count_list(listing, expected, list_len);
    }

    /// One call of fly_part and all that is compared for it, likewise; the part is the slow engine's. What is written must be as S-8 says.
    fn part(&mut self, t: &Table, atom: u32, part: &Part, out_len: usize) {
        let expected = part.answer(out_len);
        let file: &[u8] = if expected.refused == 0 { &part.file } else { &[] };
        let at = self.lend_table(&t.bytes);
        let out = self.lend_output(out_len);
        let mut wanted = self.out.clone();
        wanted[out.start..out.start + file.len()].copy_from_slice(file);
        if mutant(119) && expected.refused == 0 && file.len() < out_len {
            wanted[out.start + file.len()] = 0;
        }
        if mutant(121) && expected.refused != 0 && out_len != 0 {
            wanted[out.start] = 2;
        }
        let (lent, bytes) = (&self.table[at..at + t.bytes.len()], self.out[out.clone()].as_mut_ptr());
        let came = unsafe { fly_part(lent.as_ptr(), lent.len(), t.edition, atom, bytes, out_len) };
        self.parts += 1;
        let difference = written_differs(&came, &expected)
            .or_else(|| elements_differ("output byte", &self.out, &wanted, out.start))
            .or_else(|| self.table_altered(at, &t.bytes));
        if let Some(what) = difference {
            let number = format!("part {} after call {}", self.parts, self.calls);
            let call = format!("{number} edition {} atom {atom} out_len {out_len}", t.edition);
            let numbers = format!("archive {came:?}\nslow    {expected:?}");
            let files = format!("archive output {}\nslow    file   {}", hex(&self.out[out]), hex(file));
            self.mismatch(&format!("part: {what}"), &t.bytes, format!("{call}\n{numbers}\n{files}"));
        }
        self.counts(t).parts.count(t, part, &expected, out_len);
        if came.refused == 0 {
            let of_part = Table { edition: t.edition, bytes: self.out[out][..came.bytes as usize].to_vec() };
            self.accepted(&of_part);
            if self.rng.chance(1, 4) {
                self.tagged_alike(t, &of_part, part, atom as usize);
            }
        }
    }

    /// The archive accepts a part's table: without scratch a table is refused by 8 once it is judged, and by nothing lower.
    fn accepted(&mut self, t: &Table) {
        let (log, scratch) = (self.log.as_mut_ptr(), self.scratch.as_mut_ptr());
        let answer = unsafe { fly_run(t.bytes.as_ptr(), t.bytes.len(), t.edition, PLAIN, 0, log, 0, scratch, 0) };
        if answer.refused != 8 {
            self.mismatch("a part's table is not accepted", &t.bytes, format!("archive {answer:?}"));
        }
        self.accepted += 1;
    }

    /// "gives that part's atoms the same tags as the whole, given budgets that finish both", in either reading.
    fn tagged_alike(&mut self, whole: &Table, of_part: &Table, part: &Part, atom: usize) {
        let reading = self.rng.pick(&[PLAIN, WELL_FOUNDED]);
        self.alone(whole, reading);
        let lines = self.lines.clone();
        let answer = self.alone(of_part, reading);
        if answer.refused != 0 || answer.finished != 1 {
            self.mismatch("a part's table does not run to its finish", &of_part.bytes, format!("archive {answer:?}"));
        }
        if let Some(a) = slow::tagged_otherwise(&part.words, atom, &self.lines, &lines) {
            let logs = format!("reading {reading} whole {}\nits log {lines:?}\nthe part's {:?}", hex(&whole.bytes), self.lines);
            self.mismatch(&format!("atom {a} has other tags in its part"), &of_part.bytes, logs);
        }
        self.tagged_alike += 1;
    }

    /// A lent length of the list: A words, or around that.
    fn list_len(&mut self, t: &Table) -> usize {
        let a = atoms(t).min(LOG_MOST - 64);
        let (more, less) = (self.rng.within(a, LOG_MOST), self.rng.below(a + 1));
        self.rng.pick(&[a, a, a, a + 1, a + 40, less_one(a), less_one(a), 0, less, more, LOG_MOST])
    }

    /// An atom: of the table, or around A, or one whose lowest bits are those of an atom.
    fn atom(&mut self, t: &Table) -> u32 {
        let a = atoms(t) as u32;
        let (below, any) = (self.rng.below(a as usize) as u32, self.rng.next() as u32);
        let high = below + (1 << self.rng.within(16, 31));
        if self.rng.chance(3, 4) {
            below
        } else {
            self.rng.pick(&[0, a.saturating_sub(1), a, a, a + 1, 2 * a, 511, 512, 65_535, 65_536 + below, high, u32::MAX, any])
        }
    }

    /// The list of a table's parts, by a list of any length, and the part of some atom, by an output of any length.
    fn parts_any(&mut self, t: &Table) {
        let (listing, list_len) = (slow::listing(&t.bytes, t.edition), self.list_len(t));
        self.list(t, &listing, list_len);
        let atom = self.atom(t);
        let part = slow::part(&t.bytes, t.edition, atom);
        let new = if part.file.is_empty() { t.bytes.len() } else { part.file.len() };
        let out_len = self.out_len(new.min(OUT_MOST - 64));
        self.part(t, atom, &part, out_len);
    }

    /// Every list length around A, and of every part every output length around the byte count of its file; of many atoms those of some.
    fn parts_lengths(&mut self, t: &Table) {
        let (a, listing) = (atoms(t), slow::listing(&t.bytes, t.edition));
        for list_len in [0, 1, less_one(a), a, a + 1, a + 40, LOG_MOST] {
            self.list(t, &listing, list_len);
        }
        for atom in (0..a as u32 + 2).step_by(1 + a / 8).chain([less_one(a) as u32]) {
            let part = slow::part(&t.bytes, t.edition, atom);
            let new = part.file.len();
            for out_len in [0, 9, 10, 11, new.saturating_sub(2), less_one(new), new, new + 1, new + 40, OUT_MOST] {
                self.part(t, atom, &part, out_len);
            }
        }
    }

    /// A rule number: of a rule, or around N, or one whose lowest bits are those of a rule.
    fn rule(&mut self, t: &Table) -> u32 {
        let n = rules(t);
        let (below, any) = (self.rng.below(n as usize) as u32, self.rng.next() as u32);
        let high = below + (1 << self.rng.within(16, 31));
        if self.rng.chance(3, 4) {
            below
        } else {
            self.rng.pick(&[0, n.saturating_sub(1), n, n, n + 1, 65_535, 65_536 + below, high, u32::MAX, any])
        }
    }

    /// How a rule stands by a log that is made from the archive's lines of the last call.
    fn stands_by_any(&mut self, t: &Table, judged: u32, rule: u32) {
        let log = tables::log(&mut self.rng, atoms(t), &slow::antecedents(&t.bytes, t.edition, rule), &self.lines);
        self.stands(t, judged, rule, &log);
    }

    /// Some rules, likewise, and numbers that are no rule's.
    fn some_stand(&mut self, t: &Table, judged: u32, count: usize) {
        for _ in 0..count {
            let rule = self.rule(t);
            self.stands_by_any(t, judged, rule);
        }
    }

    /// Each rule of a legal table, likewise.
    fn all_stand(&mut self, t: &Table) {
        for rule in 0..rules(t) {
            self.stands_by_any(t, 0, rule);
        }
        self.coheres(t);
    }

    /// "Over the worked lines of any run, firing and out never both hold"; nor do they over the written ones, of the last call here.
    fn coheres(&mut self, t: &Table) {
        if slow::fires_and_is_out(&t.bytes, t.edition, &self.lines) {
            self.mismatch("a rule fires and is out", &t.bytes, format!("archive log {:?}", self.lines));
        }
        self.coherent += !self.lines.is_empty() as u64;
    }

    /// A lent length of the log that is enough for every run of the table.
    fn full_len(&mut self, t: &Table) -> usize {
        let full = full_log(t);
        let more = full + self.rng.below(64);
        self.rng.pick(&[full, full, full + 1, more, LOG_MOST])
    }

    /// A lent length of the log: enough for every run, or around what this run writes and works, and around 4A.
    fn log_len(&mut self, t: &Table, answer: &Answer) -> usize {
        if self.rng.chance(1, 2) {
            return self.full_len(t);
        }
        let (lines, worked, full) = (answer.lines as usize, answer.worked as usize, full_log(t));
        let between = self.rng.within(lines.min(full), full);
        let around_lines = [less_one(worked), worked, less_one(lines), less_one(lines), lines, lines, lines + 1, between];
        let around_full = [0, 1, less_one(full), full, full + 1, LOG_MOST];
        if self.rng.chance(2, 3) {
            self.rng.pick(&around_lines)
        } else {
            self.rng.pick(&around_full)
        }
    }

    /// A lent length of the scratch: long enough, or around 32,768.
    fn scratch_len(&mut self, enough: bool) -> usize {
        let more = SCRATCH + self.rng.below(1_024);
        if enough || self.rng.chance(9, 10) {
            self.rng.pick(&[SCRATCH, SCRATCH, SCRATCH + 1, more, SCRATCH_MOST])
        } else {
            let less = self.rng.below(SCRATCH);
            self.rng.pick(&[0, 1, SCRATCH - 1, SCRATCH - 1, SCRATCH, SCRATCH + 1, less, SCRATCH_MOST])
        }
    }

    /// A call with random lengths.
    fn any(&mut self, t: &Table, terms: Terms) -> Answer {
        let run = slow::run(&t.bytes, t.edition, terms);
        let (log_len, scratch_len) = (self.log_len(t, &run.answer), self.scratch_len(false));
        self.call(t, terms, &run, log_len, scratch_len)
    }

    /// A call whose buffers suffice.
    fn enough(&mut self, t: &Table, terms: Terms) -> Answer {
        let (log_len, scratch_len) = (self.full_len(t), self.scratch_len(true));
        self.call(t, terms, &slow::run(&t.bytes, t.edition, terms), log_len, scratch_len)
    }

    /// A legal table.
    fn legal(&mut self, d: &Draft, edition: u32) -> Table {
        let t = d.table(edition);
        assert_eq!(slow::judge(&t.bytes, edition), 0, "the generator made an illegal table: {}", hex(&t.bytes));
        t
    }

    /// The plain reading and a budget, random or extreme, for a table that may be illegal.
    fn plain(&mut self, t: &Table) -> Terms {
        plain(self.budget(t, PLAIN))
    }

    /// The well-founded reading, likewise.
    fn well_founded(&mut self, t: &Table) -> Terms {
        well_founded(self.budget(t, WELL_FOUNDED))
    }

    fn budget(&mut self, t: &Table, reading: u32) -> u32 {
        let any = self.rng.next() as u32;
        if slow::judge(&t.bytes, t.edition) != 0 {
            return self.rng.pick(&[0, 1, 50, any, u32::MAX]);
        }
        let (bound, size) = slow::bound_and_size(&t.bytes, t.edition, reading);
        let between = size + self.rng.below((bound - size) as usize + 1) as u32;
        let below = self.rng.below(size as usize + 1) as u32;
        let choice = [0, u32::MAX, any, size, size.saturating_sub(1), bound, bound.saturating_sub(1), bound + 1, below];
        if self.rng.chance(1, 2) {
            between
        } else {
            self.rng.pick(&choice)
        }
    }

    /// One length of log under rising budgets, until it is too short and from then on. Beside each call another whose log is enough;
    /// each of these logs is a beginning of the next, and some rule stands by it.
    fn rising(&mut self, t: &Table, reading: u32, log_len: usize, budgets: impl IntoIterator<Item = u32>) {
        let mut before: Vec<u16> = vec![];
        let (mut served, mut outgrown) = (false, false);
        for budget in budgets {
            let terms = Terms { reading, budget };
            let run = slow::run(&t.bytes, t.edition, terms);
            let scratch_len = self.scratch_len(true);
            let answer = self.call(t, terms, &run, log_len, scratch_len);
            served |= answer.lines != 0;
            outgrown |= served && answer.refused == 9;
            let (log_len, scratch_len) = (self.full_len(t), self.scratch_len(true));
            self.call(t, terms, &run, log_len, scratch_len);
            if !self.lines.starts_with(&before) {
                let logs = format!("reading {reading} budget {budget}: {before:?} then {:?}", self.lines);
                self.mismatch("a log is no beginning of the next", &t.bytes, logs);
            }
            before.clone_from(&self.lines);
            let rule = self.rule(t);
            self.stands(t, 0, rule, &before);
        }
        self.coheres(t);
        self.outgrown += outgrown as u64;
    }

    /// All budgets from 0 to past the bound, in a log that just holds the lines of one of them, or lacks a word for that.
    fn sweep(&mut self, t: &Table) {
        let (bound, size) = slow::bound_and_size(&t.bytes, t.edition, PLAIN);
        let held = self.rng.within(size as usize, bound as usize) as u32;
        let lines = slow::run(&t.bytes, t.edition, plain(held)).lines.len();
        let log_len = self.rng.pick(&[lines, less_one(lines)]);
        self.rising(t, PLAIN, log_len, 0..=bound + 2);
    }

    /// A table in the well-founded reading, under budgets at which something changes and some between; or, if it is asked for, under all up to
    /// what the finish spends. The log just holds the lines of one of them, or lacks a word for that.
    fn searched(&mut self, t: &Table, all: bool) {
        let whole = slow::run(&t.bytes, t.edition, well_founded(u32::MAX));
        let spent = whole.answer.spent;
        let mut budgets = self.budgets_of_searches(t, &whole);
        if all {
            budgets.extend(0..=spent + 2);
        }
        budgets.sort();
        budgets.dedup();
        let held = self.rng.pick(&budgets).min(spent);
        let lines = slow::run(&t.bytes, t.edition, well_founded(held)).lines.len();
        let log_len = self.rng.pick(&[lines, lines, less_one(lines)]);
        self.rising(t, WELL_FOUNDED, log_len, budgets);
        self.founded(t);
    }

    /// Budgets that just pay for a search or just do not, of some searches; that end before one; and others.
    fn budgets_of_searches(&mut self, t: &Table, whole: &Run) -> Vec<u32> {
        let ((bound, size), spent) = (slow::bound_and_size(&t.bytes, t.edition, WELL_FOUNDED), whole.answer.spent);
        let mut budgets = vec![0, less_one(size as usize) as u32, size, spent.saturating_sub(1), spent, 5 * size, bound, u32::MAX];
        let n = whole.searches.len();
        let some = self.rng.below(n);
        for i in (0..n).filter(|&i| i < 2 || i + 3 > n || i == some) {
            let before = whole.searches[i].before;
            budgets.extend([before.saturating_sub(1), before, (before + size).saturating_sub(1), before + size]);
        }
        for _ in 0..3 {
            budgets.push(self.rng.within(size as usize, spent as usize) as u32);
        }
        budgets
    }

    /// What S-9 promises of every table. "Spent is at most 5A+F+N+3B+3P + (6A+2) × Size; that budget finishes here, while five times Size
    /// need not." "Every plain conclusion remains, and no literal has a tag and its opposite."
    fn founded(&mut self, t: &Table) {
        let (bound, size) = slow::bound_and_size(&t.bytes, t.edition, WELL_FOUNDED);
        self.enough(t, plain(u32::MAX));
        let of_plain = self.lines.clone();
        let five = self.enough(t, well_founded(5 * size));
        let answer = self.enough(t, well_founded(bound));
        let a = atoms(t);
        let broken = match () {
            _ if answer.finished != 1 => Some("the bound does not finish".to_string()),
            _ if answer.spent > bound => Some("more is spent than the bound".to_string()),
            _ => slow::lacking(a, &self.lines, &of_plain)
                .map(|l| format!("line {l} of the plain reading is missing"))
                .or_else(|| slow::with_opposites(a, &self.lines).map(|q| format!("literal {q} has a tag and its opposite"))),
        };
        if let Some(what) = broken {
            let logs = format!("bound {bound}\narchive {answer:?}\narchive log {:?}\nplain log {of_plain:?}", self.lines);
            self.mismatch(&format!("well-founded reading: {what}"), &t.bytes, logs);
        }
        self.founded += 1;
        self.concluded += (self.lines.len() > of_plain.len()) as u64;
        self.beyond += (five.finished == 0) as u64;
    }

    /// Every lent length around its limit, in all combinations.
    fn lengths(&mut self, t: &Table, terms: Terms) {
        let run = slow::run(&t.bytes, t.edition, terms);
        let (lines, worked, full) = (run.answer.lines as usize, run.answer.worked as usize, full_log(t));
        for log_len in [0, 1, worked, less_one(lines), lines, lines + 1, less_one(full), full, full + 1, full + 40, LOG_MOST] {
            for scratch_len in [0, 1, SCRATCH - 1, SCRATCH, SCRATCH + 1, SCRATCH + 40, SCRATCH_MOST] {
                self.call(t, terms, &run, log_len, scratch_len);
            }
        }
    }

    /// A large legal table under no budget, the budget that just fits, one less, and some between.
    fn great(&mut self, t: &Table, between: usize) {
        let all = slow::run(&t.bytes, t.edition, plain(u32::MAX));
        let (lines, spent) = (all.answer.lines as usize, all.answer.spent);
        for log_len in [self.full_len(t), lines, less_one(lines), self.log_len(t, &all.answer)] {
            let scratch_len = self.scratch_len(false);
            self.call(t, plain(u32::MAX), &all, log_len, scratch_len);
        }
        let (_, size) = slow::bound_and_size(&t.bytes, t.edition, PLAIN);
        let mut budgets = vec![spent, spent.saturating_sub(1), size, size.saturating_sub(1)];
        for _ in 0..between {
            budgets.push(self.rng.within(size as usize, spent as usize) as u32);
        }
        budgets.sort();
        let log_len = self.rng.within(lines / 2, lines);
        self.rising(t, PLAIN, log_len, budgets);
        self.some_stand(t, 0, 6);
        self.there_and_back(t);
        self.sheet(&t.bytes);
    }

    /// "Conclusions and price do not depend on origin": a table with origins, without them, and in the old layout, in either reading.
    fn alike(&mut self, d: &Draft) {
        let bare = d.without_origins();
        let tables = [self.legal(d, TWO), self.legal(&bare, TWO), self.legal(&bare, OLD)];
        let terms = if self.rng.chance(1, 2) { self.well_founded(&tables[0]) } else { self.plain(&tables[0]) };
        let run = slow::run(&tables[0].bytes, TWO, terms);
        let (log_len, scratch_len) = (self.log_len(&tables[0], &run.answer), self.scratch_len(false));
        let rule = self.rule(&tables[0]);
        let [with, without, in_old] = tables.each_ref().map(|t| {
            let run = slow::run(&t.bytes, t.edition, terms);
            let answer = self.call(t, terms, &run, log_len, scratch_len);
            let lines = self.lines.clone();
            (answer, self.stands(t, 0, rule, &lines), lines)
        });
        if with != without || with != in_old {
            let answers = format!("with {with:?}\nwithout {without:?}\nin the old layout {in_old:?}");
            self.mismatch("origins or the edition make a difference", &tables[0].bytes, answers);
        }
        if tables[0].bytes != tables[1].bytes {
            // "An old reader given the old layout, otherwise legal, with an origin in it says 4"
            self.gives(&old(tables[0].layout()), terms, log_len, scratch_len, &refusal(4));
            self.alike += 1;
        }
    }

    /// Random small tables that are legal.
    fn small_tables(&mut self, edition: u32) {
        for i in 0..25 {
            let d = tables::small(&mut self.rng);
            let t = self.legal(&d, edition);
            let terms = self.plain(&t);
            self.any(&t, terms);
            if i % 4 == 0 {
                self.sheet(&t.bytes);
            } else if i % 4 == 1 {
                self.all_stand(&t);
                self.some_stand(&t, 0, 2);
            } else {
                self.there_and_back(&t);
            }
            if i % 12 == 0 {
                self.alike(&d);
            }
            if i % 2 == 0 {
                self.parts_any(&t);
            }
            if i % 5 == 0 {
                let terms = self.well_founded(&t);
                self.any(&t, terms);
            }
        }
    }

    /// Random small tables that are damaged, and bytes that were never a table.
    fn bad_tables(&mut self, edition: u32) {
        for i in 0..45 {
            let d = tables::small(&mut self.rng);
            let t = tables::damaged(&mut self.rng, d, edition);
            let terms = self.plain(&t);
            let answer = self.any(&t, terms);
            if i % 5 == 0 {
                let terms = self.well_founded(&t);
                self.any(&t, terms);
            }
            if i % 15 == 0 {
                self.sheet(&t.bytes);
            } else if i % 2 == 0 {
                self.some_stand(&t, of_table(&answer), 1);
            }
            if i % 3 != 0 {
                self.there_and_back(&t);
            } else {
                self.parts_any(&t);
            }
        }
        for i in 0..8 {
            let t = tables::noise(&mut self.rng, edition);
            let terms = if i % 4 == 2 { self.well_founded(&t) } else { self.plain(&t) };
            let answer = self.any(&t, terms);
            if i % 4 == 0 {
                self.sheet(&t.bytes);
            } else {
                self.some_stand(&t, of_table(&answer), 1);
                self.there_and_back(&t);
            }
        }
    }

    /// A reading that there is not, or, more seldom, one that there is.
    fn perhaps_reading(&mut self) -> u32 {
        let (any, no_reading) = (self.rng.next() as u32, self.rng.pick(NO_READING));
        self.rng.pick(&[PLAIN, WELL_FOUNDED, no_reading, no_reading, no_reading, any])
    }

    /// A table in a reading that there is not.
    fn no_reading(&mut self, t: &Table) {
        let any = self.rng.next() as u32;
        let reading = if self.rng.chance(1, 4) { any.max(2) } else { self.rng.pick(NO_READING) };
        self.any(t, Terms { reading, budget: any });
    }

    /// A table of an edition that there is not.
    fn no_edition(&mut self, t: &Table) {
        let any = self.rng.next() as u32;
        let edition = if self.rng.chance(1, 4) { any } else { self.rng.pick(NO_EDITION) };
        let t = Table { edition, ..t.clone() };
        let answer = self.any(&t, plain(any));
        let terms = Terms { reading: self.perhaps_reading(), budget: any };
        self.any(&t, terms);
        self.some_stand(&t, of_table(&answer), 1);
        self.there_and_back(&t);
        self.join_any(&t, &t);
        self.parts_any(&t);
    }

    /// Small houses and tours, legal and damaged on either side, in both editions.
    fn couples(&mut self) {
        for i in 0..42 {
            let [house, tour] = tables::couple(&mut self.rng);
            let edition = self.rng.pick(&[OLD, TWO]);
            let (bad_house, bad_tour) = (i % 3 == 1, i % 3 == 2 || i % 9 == 1);
            let house = self.perhaps_damaged(house, edition, bad_house);
            let tour = self.perhaps_damaged(tour, edition, bad_tour);
            self.join_any(&house, &tour);
        }
    }

    /// A legal table; or one with faults, or, more seldom, its first bytes alone or bytes that were never a table.
    fn perhaps_damaged(&mut self, d: Draft, edition: u32, damaged: bool) -> Table {
        if !damaged {
            return self.legal(&d, edition);
        }
        match self.rng.below(12) {
            0 => tables::noise(&mut self.rng, edition),
            1 => Table { edition, bytes: d.table(edition).bytes[..self.rng.below(10)].to_vec() },
            _ => tables::damaged(&mut self.rng, d, edition),
        }
    }

    /// Larger houses and tours, and some whose joined sizes are around a limit.
    fn great_couples(&mut self) {
        for i in 0..4 {
            let shape = self.rng.below(tables::COUPLE_SHAPES);
            let couple = if i < 2 { tables::medium_couple(&mut self.rng) } else { tables::great_couple(&mut self.rng, shape) };
            let edition = self.rng.pick(&[OLD, TWO]);
            let [house, tour] = couple.map(|d| self.legal(&d, edition));
            self.join_any(&house, &tour);
        }
    }

    /// Tables of several parts, small ones, of which some are damaged, and a larger one, in both editions.
    fn scattered_tables(&mut self, most: usize) {
        for i in 0..24 {
            let (d, edition) = (tables::small_scattered(&mut self.rng), self.rng.pick(&[OLD, TWO]));
            let t = self.perhaps_damaged(d, edition, i % 3 == 2);
            self.parts_any(&t);
        }
        let (d, edition) = (tables::large_scattered(&mut self.rng, most), self.rng.pick(&[OLD, TWO]));
        let t = self.legal(&d, edition);
        self.parts_any(&t);
    }

    /// A draft with faults, under `count` budgets.
    fn damaged(&mut self, d: &Draft, edition: u32, count: usize) {
        for _ in 0..count {
            let t = tables::damaged(&mut self.rng, d.clone(), edition);
            let terms = self.plain(&t);
            let answer = self.any(&t, terms);
            self.some_stand(&t, of_table(&answer), 1);
            self.there_and_back(&t);
        }
    }

    /// Tables with loops in the well-founded reading; a damaged one, and one in no reading.
    fn searched_tables(&mut self, number: u64, edition: u32) {
        let d = tables::searched(&mut self.rng);
        let t = self.legal(&d, edition);
        self.searched(&t, number % 16 == 0);
        let bad = tables::damaged(&mut self.rng, d, edition);
        let terms = self.well_founded(&bad);
        self.any(&bad, terms);
        self.no_reading(&t);
        self.no_reading(&bad);
        for _ in 0..3 {
            let d = tables::searched(&mut self.rng);
            let t = self.legal(&d, edition);
            let terms = self.well_founded(&t);
            self.any(&t, terms);
        }
    }

    /// A random part of about 290 calls, 85 of them in the well-founded reading, 13 sheets, 140 standings, 60 conversions, 47 joins, 54 lists of
    /// parts and as many parts.
    fn round(&mut self, number: u64) {
        let edition = if number % 4 == 3 { TWO } else { OLD };
        self.place = format!("round {number}");
        let d = tables::small(&mut self.rng);
        let t = self.legal(&d, edition);
        self.sweep(&t);
        self.small_tables(edition);
        self.bad_tables(edition);
        self.no_edition(&t);
        let d = tables::medium(&mut self.rng);
        let t = self.legal(&d, edition);
        for _ in 0..3 {
            let terms = self.plain(&t);
            self.any(&t, terms);
            self.some_stand(&t, 0, 3);
        }
        self.there_and_back(&t);
        self.sheet(&t.bytes);
        self.damaged(&d, edition, 1);
        self.couples();
        self.great_couples();
        self.scattered_tables(if number % 17 == 0 { LIMITS[0] } else { 60 });
        if number % 17 == 0 {
            let d = tables::large(&mut self.rng);
            let t = self.legal(&d, edition);
            self.great(&t, 1);
            self.damaged(&d, edition, 3);
        }
        self.searched_tables(number, edition);
        if number % 34 == 0 {
            let d = tables::large_searched(&mut self.rng);
            let t = self.legal(&d, edition);
            self.searched(&t, false);
        }
    }

    /// Calls that do not depend on chance but for the lengths lent.
    fn fixed(&mut self) {
        self.bytes_of_case_1(&case_1());
        self.lengths_lent();
        self.long_logs();
        self.byte_counts(OLD);
        self.sizes(OLD);
        self.bytes_of_case_1(&with_origins(&case_1()));
        self.byte_counts(TWO);
        self.sizes(TWO);
        self.two_rules();
        self.big_tables();
        self.circles();
        self.bytes_of_a_couple();
        self.joined_sizes();
        self.bytes_of_a_table_of_parts();
        self.chains();
    }

    fn bytes_of_case_1(&mut self, case_1: &Table) {
        self.place = format!("every byte of case 1 in edition {} at every value", case_1.edition);
        for i in 0..case_1.bytes.len() {
            for value in 0..=255 {
                let mut t = case_1.clone();
                t.bytes[i] = value;
                let answer = self.any(&t, plain(30));
                self.some_stand(&t, of_table(&answer), 1);
                self.there_and_back(&t);
            }
        }
    }

    fn lengths_lent(&mut self) {
        self.place = "lengths lent".to_string();
        let case_1 = case_1();
        self.lengths(&case_1, plain(u32::MAX));
        self.lengths(&case_1, plain(16));
        self.lengths(&case_1, plain(13));
        self.lengths(&case_1, plain(0));
        self.lengths(&itself(), plain(u32::MAX));
        self.lengths(&old(&[0; 10]), plain(0));
        self.lengths(&old(&tables::sized(0, 512)), plain(u32::MAX));
        self.lengths(&old(&[0; 9]), plain(0));
        self.lengths(&old(&tables::sized(0, 513)), plain(0));
        self.lengths(&with_origins(&case_1), plain(13));
        self.lengths(&itself(), well_founded(u32::MAX));
        self.lengths(&itself(), well_founded(12));
        self.lengths(&with_origins(&document_004()), well_founded(58));
        for t in [case_1.clone(), itself(), old(&[0; 10]), old(&tables::sized(0, 512)), old(&[0; 9])] {
            in_editions(&t).iter().for_each(|t| self.output_lengths(t));
            in_editions(&t).iter().for_each(|t| self.parts_lengths(t));
        }
    }

    /// Logs of more words than 16 bits can count, the line that decides at their end.
    fn long_logs(&mut self) {
        for length in [4_095, 4_096, 4_097, 65_535, 65_536, 65_537, 200_000] {
            for last in [2, 3, 0] {
                self.place = format!("{length} words and line {last}");
                let mut log = vec![65_535; length];
                log.push(last);
                self.stands(&itself(), 0, 0, &log);
            }
        }
    }

    /// Bytes of one of eight kinds.
    fn bytes_of(&mut self, kind: usize, length: usize) -> Vec<u8> {
        let mut t: Vec<u8> = match kind {
            0 => vec![0; length],
            1 => vec![1; length],
            2 => vec![255; length],
            3 => (0..length).map(|_| self.rng.next() as u8).collect(),
            4 => (0..length).map(|i| if i % 2 == 0 { self.rng.below(3) as u8 } else { 0 }).collect(),
            5 => case_1().bytes.into_iter().chain([0; 10]).take(length).collect(),
            // sizes with the right length, if it is one
            6 => tables::sized(1, length.saturating_sub(10) / 4),
            _ => tables::sized(2, length.saturating_sub(10) / 4),
        };
        t.resize(length, 0);
        t
    }

    fn byte_counts(&mut self, edition: u32) {
        for length in 0..=40 {
            for kind in 0..8 {
                self.place = format!("{length} bytes of kind {kind} in edition {edition}");
                let t = Table::of(edition, &self.bytes_of(kind, length));
                self.any(&t, plain(20));
                let answer = self.enough(&t, plain(u32::MAX));
                self.some_stand(&t, answer.refused, 1);
                self.there_and_back(&t);
                self.sheet(&t.bytes);
            }
        }
    }

    /// Every size at and above its limit, with the length that it asks for and with others.
    fn sizes(&mut self, edition: u32) {
        for k in 0..5 {
            let limit = LIMITS[k];
            for value in [limit - 1, limit, limit + 1, limit + 2, limit + 256, 2 * limit, 32_768, 65_535] {
                self.place = format!("size {k} at {value} in edition {edition}");
                self.sized(edition, &tables::sized(k, value));
            }
        }
    }

    /// A table with other lengths than the sizes ask for.
    fn sized(&mut self, edition: u32, whole: &[u8]) {
        for length in [whole.len(), whole.len() - 1, whole.len() + 1, whole.len() + 4, 10, 9] {
            let mut layout = whole.to_vec();
            layout.resize(length, 0);
            let t = Table::of(edition, &layout);
            let answer = self.any(&t, plain(10_000));
            self.some_stand(&t, of_table(&answer), 1);
            self.there_and_back(&t);
            self.sheet(&t.bytes);
        }
    }

    fn two_rules(&mut self) {
        self.place = "all tables of one atom and two rules with at most one pair".to_string();
        for code in 0..4 * 24 * 24 * 3 {
            let t = self.legal(&two_rules(code), OLD);
            let terms = self.plain(&t);
            self.enough(&t, plain(u32::MAX));
            self.enough(&with_origins(&t), plain(u32::MAX));
            self.enough(&t, terms);
            self.all_stand(&t);
            self.there_and_back(&t);
            if code % 4 == 0 {
                self.founded(&t);
            }
        }
    }

    /// Every byte of case 1 at every value, as the house and as the tour of a join with case 1.
    fn bytes_of_a_couple(&mut self) {
        for whole in [case_1(), with_origins(&case_1())] {
            self.place = format!("every byte of a house and of a tour in edition {} at every value", whole.edition);
            for i in 0..whole.bytes.len() {
                for value in 0..=255 {
                    let mut t = whole.clone();
                    t.bytes[i] = value;
                    self.join_any(&t, &whole);
                    self.join_any(&whole, &t);
                }
            }
        }
    }

    /// Joined sizes around each limit, and all at their limits.
    fn joined_sizes(&mut self) {
        for shape in 0..tables::COUPLE_SHAPES {
            self.place = format!("joined sizes of shape {shape}");
            for edition in [OLD, TWO].repeat(8) {
                let [house, tour] = tables::great_couple(&mut self.rng, shape).map(|d| self.legal(&d, edition));
                self.joined_lengths(&house, &tour);
            }
        }
    }

    /// Every byte of a table of three parts at every value.
    fn bytes_of_a_table_of_parts(&mut self) {
        for whole in [three_parts(), with_origins(&three_parts())] {
            self.place = format!("every byte of a table of three parts in edition {} at every value", whole.edition);
            for i in 0..whole.bytes.len() {
                for value in 0..=255 {
                    let mut t = whole.clone();
                    t.bytes[i] = value;
                    self.parts_any(&t);
                }
            }
        }
    }

    /// Chains over all atoms, numbered upwards, downwards and otherwise, whole and with a rule missing.
    fn chains(&mut self) {
        for (name, order) in orders() {
            for missing in [None, Some(0), Some(255), Some(256), Some(510)] {
                self.place = format!("a chain over all atoms, {name}, without rule {missing:?}");
                in_editions(&chained(&order, missing)).iter().for_each(|t| self.parts_lengths(t));
            }
        }
    }

    /// The limits of every size, and past the end of the longest table.
    fn big_tables(&mut self) {
        for shape in 0..tables::BIG_SHAPES {
            for edition in [OLD, OLD, TWO] {
                self.place = format!("a big table of shape {shape} in edition {edition}");
                let d = tables::big(&mut self.rng, shape);
                let t = self.legal(&d, edition);
                // shape 2 is the longest table there is
                assert!(shape != 2 || t.layout().len() == 32_778 && t.layout()[..2] == 512u16.to_le_bytes());
                self.great(&t, 3);
                self.founded(&t);
                self.parts_lengths(&t);
                self.big_and_bad(&d, &t);
            }
        }
    }

    /// A big table of other lengths and with faults.
    fn big_and_bad(&mut self, d: &Draft, whole: &Table) {
        let n = whole.bytes.len();
        for length in [n - 1, n + 1, n + 2, 32_778, 32_779, 32_780, 40_000] {
            let mut t = whole.clone();
            t.bytes.resize(length, 0);
            let answer = self.any(&t, plain(60_000));
            self.some_stand(&t, of_table(&answer), 1);
            self.sheet(&t.bytes);
        }
        for _ in 0..10 {
            let t = tables::damaged(&mut self.rng, d.clone(), whole.edition);
            let terms = self.plain(&t);
            let answer = self.any(&t, terms);
            self.some_stand(&t, of_table(&answer), 1);
            self.there_and_back(&t);
            self.sheet(&t.bytes);
        }
        for which in 0..tables::FAULTS {
            let mut d = d.clone();
            tables::fault(&mut self.rng, &mut d, which);
            self.enough(&d.table(whole.edition), plain(60_000));
        }
    }

    /// A circle through all rules, a circle far down a tail, and the same without their last pair.
    fn circles(&mut self) {
        for last in [None, Some((1_023, 0)), Some((1_023, 1_022)), Some((1_023, 512)), Some((1_023, 1_023)), Some((0, 1_023))] {
            self.place = format!("a chain of pairs, and {last:?}");
            let mut d = Draft { a: 1, ..Draft::default() };
            for i in 0..1_024 {
                d.rule(1, i % 2, &[]);
            }
            (0..1_023).for_each(|i| d.pair(i, i + 1));
            last.into_iter().for_each(|(t, s)| d.pair(t, s));
            d.tidy();
            for t in [d.table(OLD), d.table(TWO)] {
                let answer = self.enough(&t, plain(u32::MAX));
                self.some_stand(&t, answer.refused, 2);
                self.there_and_back(&t);
                self.sheet(&t.bytes);
            }
        }
    }

    /// A call that must give this, against both engines. A mutant is left to the archive to catch.
    fn gives(&mut self, t: &Table, terms: Terms, log_len: usize, scratch_len: usize, wanted: &Wanted) {
        let run = slow::run(&t.bytes, t.edition, terms);
        let came = slow::call(&t.bytes, t.edition, terms, &run, log_len, scratch_len);
        let lines = &run.lines[..came.lines as usize];
        let difference =
            answers_differ(&came, &wanted.0).or_else(|| elements_differ("log word", lines, &wanted.1, 0)).filter(|_| mutant(0));
        if let Some(what) = difference {
            let call = format!("edition {} {terms:?} log_len {log_len} scratch_len {scratch_len}", t.edition);
            let answers = format!("slow   {came:?} {lines:?}\nwanted {wanted:?}");
            self.mismatch(&format!("slow engine: {what}"), &t.bytes, format!("{call}\n{answers}"));
        }
        self.call(t, terms, &run, log_len, scratch_len);
    }

    /// A standing that must be given, against both engines, likewise.
    fn gives_standing(&mut self, t: &Table, rule: u32, log: &[u16], wanted: &Standing) {
        let judged = slow::judge(&t.bytes, t.edition);
        let came = slow::stands(&t.bytes, t.edition, judged, rule, log);
        if let Some(what) = standings_differ(&came, wanted).filter(|_| mutant(0)) {
            let call = format!("edition {} rule {rule} log {log:?}", t.edition);
            let numbers = format!("slow   {came:?}\nwanted {wanted:?}");
            self.mismatch(&format!("slow engine: standing: {what}"), &t.bytes, format!("{call}\n{numbers}"));
        }
        self.stands(t, judged, rule, log);
    }

    /// A conversion that must be given, against both engines, likewise; 0 or the refusal, and the new file.
    fn gives_conversion(&mut self, t: &Table, out_len: usize, refused: u32, wanted: &[u8]) {
        let (came, file) = slow::convert(&t.bytes, t.edition, out_len);
        let difference = written_differs(&came, &Written { refused, bytes: wanted.len() as u32 })
            .or_else(|| elements_differ("byte", &file, wanted, 0))
            .filter(|_| mutant(0));
        if let Some(what) = difference {
            let call = format!("edition {} out_len {out_len}", t.edition);
            let files = format!("slow   {came:?} {}\nwanted {refused} {}", hex(&file), hex(wanted));
            self.mismatch(&format!("slow engine: conversion: {what}"), &t.bytes, format!("{call}\n{files}"));
        }
        self.convert(t, out_len);
    }

    /// A join that must be given, against both engines, likewise; 0 or the refusal, and the joined file.
    fn gives_join(&mut self, house: &Table, tour: &Table, out_len: usize, refused: u32, wanted: &[u8]) {
        let join = slow::join(&house.bytes, &tour.bytes, house.edition);
        let came = join.answer(out_len);
        let file: &[u8] = if came.refused == 0 { &join.file } else { &[] };
        let difference = written_differs(&came, &Written { refused, bytes: wanted.len() as u32 })
            .or_else(|| elements_differ("byte", file, wanted, 0))
            .filter(|_| mutant(0));
        if let Some(what) = difference {
            let call = format!("tour {}\nedition {} out_len {out_len}", hex(&tour.bytes), house.edition);
            let files = format!("slow   {came:?} {}\nwanted {refused} {}", hex(file), hex(wanted));
            self.mismatch(&format!("slow engine: join: {what}"), &house.bytes, format!("{call}\n{files}"));
        }
        self.join(house, tour, &join, out_len);
    }

    /// A list of parts that must be given, against both engines, likewise; 0 or the refusal, and the words.
    fn gives_list(&mut self, t: &Table, list_len: usize, refused: u32, wanted: &[usize]) {
        let listing = slow::listing(&t.bytes, t.edition);
        let came = listing.refused(list_len);
        let words: &[usize] = if came == 0 { &listing.words } else { &[] };
        let difference = numbers_differ(&["refused"], &[came], &[refused])
            .or_else(|| elements_differ("list word", words, wanted, 0))
            .filter(|_| mutant(0));
        if let Some(what) = difference {
            let call = format!("edition {} list_len {list_len}", t.edition);
            let lists = format!("slow   {came} {words:?}\nwanted {refused} {wanted:?}");
            self.mismatch(&format!("slow engine: list of parts: {what}"), &t.bytes, format!("{call}\n{lists}"));
        }
        self.list(t, &listing, list_len);
    }

    /// A part that must be given, against both engines, likewise; 0 or the refusal, and the part's file.
    fn gives_part(&mut self, t: &Table, atom: u32, out_len: usize, refused: u32, wanted: &[u8]) {
        let part = slow::part(&t.bytes, t.edition, atom);
        let came = part.answer(out_len);
        let file: &[u8] = if came.refused == 0 { &part.file } else { &[] };
        let difference = written_differs(&came, &Written { refused, bytes: wanted.len() as u32 })
            .or_else(|| elements_differ("byte", file, wanted, 0))
            .filter(|_| mutant(0));
        if let Some(what) = difference {
            let call = format!("edition {} atom {atom} out_len {out_len}", t.edition);
            let files = format!("slow   {came:?} {}\nwanted {refused} {}", hex(file), hex(wanted));
            self.mismatch(&format!("slow engine: part: {what}"), &t.bytes, format!("{call}\n{files}"));
        }
        self.part(t, atom, &part, out_len);
    }

    /// A refusal of the table, which every call must give, whatever is lent and whatever rule or atom is named.
    fn gives_refusal(&mut self, t: &Table, number: u32) {
        for reading in [PLAIN, WELL_FOUNDED] {
            self.gives(t, Terms { reading, budget: u32::MAX }, LOG_MOST, SCRATCH, &refusal(number));
            self.gives(t, Terms { reading, budget: 0 }, 0, 0, &refusal(number));
        }
        for rule in [0, 65_536] {
            self.gives_standing(t, rule, &[0, 2], &Standing { refused: number, standing: 0 });
        }
        for out_len in [0, new_len(t), OUT_MOST] {
            self.gives_conversion(t, out_len, number, &[]);
            self.gives_join(t, t, out_len, number, &[]);
            for atom in [0, 512, 65_536] {
                self.gives_part(t, atom, out_len, number, &[]);
            }
        }
        for list_len in [0, atoms(t).min(LOG_MOST), LOG_MOST] {
            self.gives_list(t, list_len, number, &[]);
        }
    }

    /// What the slow engine must print.
    fn slow_prints(&self, t: &[u8], wanted: &str) {
        let came = slow::sheet(t);
        if let Some(what) = lines_differ(&came, wanted).filter(|_| mutant(0)) {
            self.mismatch(&format!("slow engine: sheet: {what}"), t, format!("slow   {came:?}\nwanted {wanted:?}"));
        }
    }

    fn case(&mut self, of: &str, reading: u32, (name, t, budget, numbers, log): Case) {
        self.place = format!("{of}: {name}");
        for t in in_editions(&t) {
            let (log_len, scratch_len) = (self.full_len(&t), self.scratch_len(true));
            self.gives(&t, Terms { reading, budget }, log_len, scratch_len, &(answer(numbers), log.to_vec()));
        }
    }

    /// The cases of document 01, those of counted pairs, of short logs, of standings, of editions, of joins, of parts and of searches, against
    /// both engines.
    fn cases(&mut self) {
        cases().into_iter().for_each(|case| self.case("document 01", PLAIN, case));
        pair_counts().into_iter().for_each(|case| self.case("document 02, S-4", PLAIN, case));
        self.place = "document 01: 512 atoms".to_string();
        assert_eq!(self.enough(&old(&tables::sized(0, 512)), plain(u32::MAX)).refused, 0);
        short_logs().into_iter().for_each(|case| self.short_log("document 02, S-2", PLAIN, case));
        for (name, t, text) in sheets() {
            self.place = format!("document 01: {name}");
            self.slow_prints(&t.bytes, text);
            self.sheet(&t.bytes);
        }
        for (name, rules, wanted) in silent_and_split() {
            self.place = format!("document 02, S-6: {name}");
            let t = table(2, &[], rules, &[]).bytes;
            let came: Vec<_> = slow::sheet(&t).lines().skip(1).take(2).map(|l| l[2..].to_string()).collect();
            if came != wanted && mutant(0) {
                self.mismatch("slow engine: verdicts", &t, format!("slow   {came:?}\nwanted {wanted:?}"));
            }
            self.sheet(&t);
        }
        self.standing_cases();
        self.edition_cases();
        self.left_words();
        self.join_cases();
        self.join_orders();
        self.list_cases();
        self.part_cases();
        self.search_cases();
    }

    fn short_log(&mut self, of: &str, reading: u32, (name, t, budget, log_len, numbers, log): ShortLog) {
        self.place = format!("{of}: {name}");
        for t in in_editions(&t) {
            self.gives(&t, Terms { reading, budget }, log_len, SCRATCH, &(answer(numbers), log.to_vec()));
        }
    }

    fn search_cases(&mut self) {
        searches().into_iter().for_each(|case| self.case("document 02, S-9", WELL_FOUNDED, case));
        searches_in_short_logs().into_iter().for_each(|case| self.short_log("document 02, S-9", WELL_FOUNDED, case));
        for (number, t) in (1..).zip(refused()) {
            self.place = format!("document 02, S-9: a table refused by {number}");
            for t in in_editions(&t) {
                self.gives(&t, well_founded(u32::MAX), LOG_MOST, SCRATCH, &refusal(number));
                self.gives(&t, well_founded(0), 0, 0, &refusal(number));
            }
        }
        for &reading in NO_READING {
            self.place = format!("document 02, S-9: reading {reading}");
            for t in [case_1(), two(&case_1()), old(&[]), opposed(&[(0, 0)]), Table { edition: 3, ..case_1() }] {
                self.gives(&t, Terms { reading, budget: u32::MAX }, LOG_MOST, SCRATCH + 1, &refusal(1));
                self.gives(&t, Terms { reading, budget: 0 }, 0, 0, &refusal(1));
            }
        }
        for (_, t, _, _, _) in searches() {
            self.place = "document 02, S-9: what is promised of every table".to_string();
            in_editions(&t).iter().for_each(|t| self.founded(t));
            self.sheet(&t.bytes);
        }
    }

    fn standing_cases(&mut self) {
        for (name, t, rule, log, standing) in standings() {
            self.place = format!("document 02, S-3: {name}");
            for t in in_editions(&t) {
                self.gives_standing(&t, rule, log, &Standing { refused: 0, standing });
            }
        }
        for rule in [2, 3, 65_535, 65_536, 65_537, 1 << 31, u32::MAX] {
            self.place = format!("document 02, S-3: rule {rule} of case 1");
            self.gives_standing(&case_1(), rule, &[0, 2], &Standing { refused: 5, standing: 0 });
        }
        for (number, t) in (1..).zip(refused()) {
            for rule in [0, 1, 2, 3, 65_536, u32::MAX] {
                self.place = format!("document 02, S-3: rule {rule} of a table refused by {number}");
                self.gives_standing(&t, rule, &[0, 2], &Standing { refused: number, standing: 0 });
            }
        }
    }

    fn edition_cases(&mut self) {
        for (name, t, number) in refused_in_editions() {
            self.place = format!("document 02, S-5: {name}");
            self.gives_refusal(&t, number);
        }
        for (number, t) in (1..).zip(refused()) {
            self.place = format!("document 02, S-5: a table refused by {number}");
            in_editions(&t).iter().for_each(|t| self.gives_refusal(t, number));
        }
        for &edition in NO_EDITION {
            self.place = format!("document 02, S-5: edition {edition}");
            for t in [case_1(), two(&case_1()), old(&[]), opposed(&[(0, 0)])] {
                self.gives_refusal(&Table { edition, ..t }, 1);
            }
        }
        for (name, t, out_len, refused, file) in conversions() {
            self.place = format!("document 02, S-5: {name}");
            self.gives_conversion(&t, out_len, refused, &file);
        }
    }

    /// A rule without antecedents by its left word. Strict, defeasible and defeater have three logs.
    fn left_words(&mut self) {
        for left in (0..=18).chain([65_535]) {
            let t = table(1, &[], &[(left, 0, &[])], &[]);
            self.left_word(&t, left, left <= 2);
            self.left_word(&two(&t), left, [0, 1, 2, 4, 5, 6, 8, 9, 10, 12, 13, 14].contains(&left));
        }
    }

    fn left_word(&mut self, t: &Table, left: usize, legal: bool) {
        self.place = format!("document 02, S-5: left word {left} in edition {}", t.edition);
        if !legal {
            return self.gives_refusal(t, 4);
        }
        let log = [[0, 5, 2, 7], [1, 5, 7, 2], [1, 5, 3, 7]][left % 4];
        self.gives(t, plain(6), 4, SCRATCH, &(answer([0, 1, 4, 4, 6]), log.to_vec()));
        self.gives_standing(t, 0, &log, &Standing { refused: 0, standing: FIRING });
        match t.edition {
            OLD => self.gives_conversion(t, 15, 0, &two(t).bytes),
            _ if left <= 2 => self.gives_conversion(t, 14, 0, t.layout()),
            _ => self.gives_conversion(t, 14, 10, &[]),
        }
    }

    /// In the old layout, in edition two, and there with origins, which are kept; by outputs around the byte count of the file.
    fn join_cases(&mut self) {
        for (name, house, tour, joined) in joins() {
            self.place = format!("document 02, S-7: {name}");
            let kept = with_these(&joined, &[origins(&house), origins(&tour)].concat());
            let in_two = (two(&house), two(&tour), two(&joined));
            let owned = (with_origins(&house), with_origins(&tour), kept);
            for (house, tour, joined) in [(house, tour, joined), in_two, owned] {
                let n = joined.bytes.len();
                for out_len in [0, 1, n - 1] {
                    self.gives_join(&house, &tour, out_len, 12, &[]);
                }
                for out_len in [n, n + 1, n + 40, OUT_MOST] {
                    self.gives_join(&house, &tour, out_len, 0, &joined.bytes);
                }
            }
        }
    }

    /// "Order: 1 to 7 on the house, the same on the tour, 11, 2 on the joined sizes, 12."
    fn join_orders(&mut self) {
        for (number, bad) in (1..).zip(refused()) {
            for (other, worse) in (1..).zip(refused()) {
                self.place = format!("document 02, S-7: a house refused by {number}, a tour by {other}");
                self.refuses_join(&bad, &worse, number);
            }
            for good in [case_1(), old(&[0; 10])] {
                self.place = format!("document 02, S-7: a table refused by {number}, another accepted");
                self.refuses_join(&bad, &good, number);
                self.refuses_join(&good, &bad, number);
            }
        }
        for (name, house, tour, number) in refused_joins() {
            self.place = format!("document 02, S-7: {name}");
            self.refuses_join(&house, &tour, number);
        }
    }

    /// Two tables whose join is refused, in both editions and whatever the output.
    fn refuses_join(&mut self, house: &Table, tour: &Table, number: u32) {
        for (house, tour) in [(house.clone(), tour.clone()), (two(house), two(tour)), (with_origins(house), with_origins(tour))] {
            for out_len in [0, 34, OUT_MOST] {
                self.gives_join(&house, &tour, out_len, number, &[]);
            }
        }
    }

    /// In the old layout, in edition two, and there with origins; by lists around A words.
    fn list_cases(&mut self) {
        for (name, t, words) in lists() {
            self.place = format!("document 02, S-8: {name}");
            let a = words.len();
            for t in in_editions(&t) {
                for list_len in [0, 1, less_one(a)].into_iter().filter(|&n| n < a) {
                    self.gives_list(&t, list_len, 9, &[]);
                }
                for list_len in [a, a + 1, a + 40, LOG_MOST] {
                    self.gives_list(&t, list_len, 0, &words);
                }
            }
        }
    }

    /// Likewise, with origins, which are kept; by outputs around the byte count of the file. Then by what is no atom.
    fn part_cases(&mut self) {
        for (name, whole, atoms, kept, part) in parts() {
            self.place = format!("document 02, S-8: {name}");
            let origins: Vec<usize> = kept.iter().map(|&r| origins(&whole)[r]).collect();
            let owned = (with_origins(&whole), with_these(&part, &origins));
            for (whole, part) in [(whole.clone(), part.clone()), (two(&whole), two(&part)), owned] {
                let n = part.bytes.len();
                for &atom in atoms {
                    for out_len in [0, 1, n - 1] {
                        self.gives_part(&whole, atom, out_len, 12, &[]);
                    }
                    for out_len in [n, n + 1, n + 40, OUT_MOST] {
                        self.gives_part(&whole, atom, out_len, 0, &part.bytes);
                    }
                }
                self.strange_atoms(&whole);
            }
        }
        in_editions(&old(&[0; 10])).iter().for_each(|t| self.strange_atoms(t));
    }

    /// "5 if that atom isn't below A, then 12 for a short output"
    fn strange_atoms(&mut self, t: &Table) {
        let a = atoms(t) as u32;
        for atom in [a, a + 1, 512, 65_535, 65_536, 65_537, 1 << 31, u32::MAX] {
            for out_len in [0, 9, 10, OUT_MOST] {
                self.gives_part(t, atom, out_len, 5, &[]);
            }
        }
    }

    /// base.bin, against both engines.
    fn base_vectors(&mut self, dir: &str) {
        let mut r = Reader::open(dir, "base.bin");
        while let Some(t) = r.table() {
            self.place = r.place();
            let (budget, answer) = (r.long(), r.answer());
            let log = (0..answer.lines).map(|_| r.word()).collect();
            self.gives(&old(&t), plain(budget), LOG_MOST, SCRATCH, &(answer, log));
            r.record += 1;
        }
        r.end();
    }

    /// short-logs.bin, against both engines.
    fn short_log_vectors(&mut self, dir: &str) {
        let mut r = Reader::open(dir, "short-logs.bin");
        while r.at < r.bytes.len() {
            self.place = r.place();
            let t = r.field();
            let [budget, log_len, scratch_len] = [(); 3].map(|_| r.number());
            let wanted = (answer([(); 5].map(|_| r.number())), r.words());
            self.gives(&old(&t), plain(budget), log_len as usize, scratch_len as usize, &wanted);
            r.record += 1;
        }
        r.end();
    }

    /// well-founded.bin, against both engines, in logs that are long enough and in one that has a word for each line.
    fn search_vectors(&mut self, dir: &str) {
        let mut r = Reader::open(dir, "well-founded.bin");
        while r.at < r.bytes.len() {
            self.place = r.place();
            let t = old(&r.field());
            let terms = well_founded(r.number());
            let [finished, lines, worked, spent] = [(); 4].map(|_| r.number());
            let wanted = (answer([0, finished, lines, worked, spent]), r.words());
            for log_len in [LOG_MOST, lines as usize] {
                self.gives(&t, terms, log_len, SCRATCH, &wanted);
                self.gives(&with_origins(&t), terms, log_len, SCRATCH, &wanted);
            }
            r.record += 1;
        }
        r.end();
    }

    /// editions.bin, against both engines; "a table's refusal by 1 to 7 is that of every call".
    fn edition_vectors(&mut self, dir: &str) {
        let mut r = Reader::open(dir, "editions.bin");
        while r.at < r.bytes.len() {
            self.place = r.place();
            let bytes = r.field();
            let [edition, out_len, refused] = [(); 3].map(|_| r.number());
            let (t, file) = (Table { edition, bytes }, r.field());
            self.gives_conversion(&t, out_len as usize, refused, &file);
            if (1..=7).contains(&refused) {
                self.gives_refusal(&t, refused);
            } else {
                self.enough(&t, plain(u32::MAX));
            }
            r.record += 1;
        }
        r.end();
    }

    /// joins.bin, against both engines.
    fn join_vectors(&mut self, dir: &str) {
        let mut r = Reader::open(dir, "joins.bin");
        while r.at < r.bytes.len() {
            self.place = r.place();
            let [house, tour] = [(); 2].map(|_| r.field());
            let [edition, out_len, refused] = [(); 3].map(|_| r.number());
            let [house, tour] = [house, tour].map(|bytes| Table { edition, bytes });
            self.gives_join(&house, &tour, out_len as usize, refused, &r.field());
            r.record += 1;
        }
        r.end();
    }

    /// parts.bin, against both engines.
    fn list_vectors(&mut self, dir: &str) {
        let mut r = Reader::open(dir, "parts.bin");
        while r.at < r.bytes.len() {
            self.place = r.place();
            let bytes = r.field();
            let [edition, list_len, refused] = [(); 3].map(|_| r.number());
            let words: Vec<usize> = r.words().into_iter().map(usize::from).collect();
            self.gives_list(&Table { edition, bytes }, list_len as usize, refused, &words);
            r.record += 1;
        }
        r.end();
    }

    /// part-tables.bin, against both engines.
    fn part_vectors(&mut self, dir: &str) {
        let mut r = Reader::open(dir, "part-tables.bin");
        while r.at < r.bytes.len() {
            self.place = r.place();
            let bytes = r.field();
            let [edition, atom, out_len, refused] = [(); 4].map(|_| r.number());
            self.gives_part(&Table { edition, bytes }, atom, out_len as usize, refused, &r.field());
            r.record += 1;
        }
        r.end();
    }

    /// sheets-S6.bin, against both engines.
    fn sheet_vectors(&mut self, dir: &str) {
        let mut r = Reader::open(dir, "sheets-S6.bin");
        while r.at < r.bytes.len() {
            self.place = r.place();
            let (t, text) = (r.field(), r.field());
            self.slow_prints(&t, &String::from_utf8_lossy(&text));
            self.sheet(&t);
            r.record += 1;
        }
        r.end();
    }

    fn calls_in(&self, reading: u32) -> u64 {
        let runs = self.counts.iter().map(|c| &c.runs[reading as usize]);
        runs.map(|r| r.stopped + r.finished + r.refused.iter().sum::<u64>()).sum()
    }

    /// How often each answer came; ends the program.
    fn end(&self) -> ! {
        let [none, old, two] = &self.counts;
        let mut list = vec![
            counted("calls", self.calls, 200_000),
            counted("calls in the well-founded reading", self.calls_in(WELL_FOUNDED), 100_000),
            counted("tables that keep what S-9 promises", self.founded, 4_000),
            counted("tables that conclude more in the well-founded reading", self.concluded, 2_000),
            counted("tables that five times Size does not finish in it", self.beyond, 1_000),
            counted("sheets", self.sheets, 20_000),
            counted("standings", self.standings, 200_000),
            counted("conversions", self.conversions, 200_000),
            counted("short logs outgrown", self.outgrown, 1_000),
            counted("coherent logs", self.coherent, 10_000),
            counted("tables that ran alike with origins and without", self.alike, 5_000),
            counted("tables converted there and back", self.returned, 20_000),
            counted("joins", self.joins, 50_000),
            counted("house rules that S-7 is about", self.claimed, 20_000),
            counted("house rules that S-7 is about, a tour's rule against it firing", self.contested, 5_000),
            counted("calls for a list of parts", self.lists, 100_000),
            counted("calls for a part", self.parts, 100_000),
            counted("tables of parts accepted", self.accepted, 40_000),
            counted("parts that have the tags of the whole", self.tagged_alike, 10_000),
        ];
        list.extend(VERDICTS.iter().zip(self.verdicts).map(|(word, came)| counted(word, came, 2_000)));
        list.extend(old.list("old layout: ", 10_000));
        list.extend(two.list("edition two: ", 5_000));
        list.extend([
            counted("edition two: conversions refused 10:", two.not_converted[10], 1_000),
            counted("no edition: refused 1:", none.runs[PLAIN as usize].refused[1], 1_000),
            counted("no edition: well-founded, refused 1:", none.runs[WELL_FOUNDED as usize].refused[1], 100),
            counted("no edition: no reading, refused 1:", none.runs[2].refused[1], 1_000),
            counted("no edition: standings refused 1:", none.not_stood[1], 1_000),
            counted("no edition: conversions refused 1:", none.not_converted[1], 1_000),
            counted("no edition: joins refused 1:", none.joins.of_house[1], 1_000),
            counted("no edition: lists of parts refused 1:", none.parts.not_listed[1], 1_000),
            counted("no edition: parts refused 1:", none.parts.not_parted[1], 1_000),
        ]);
        list.iter().for_each(|(what, came, _)| println!("{what} {came}"));
        println!("mismatches 0");
        let seldom: Vec<_> = list.iter().filter(|(_, came, least)| self.last >= CALLS && came < least).collect();
        for (what, _, least) in &seldom {
            println!("FAILED: {what} came too seldom, at least {least} are wanted");
        }
        std::process::exit(!seldom.is_empty() as i32)
    }
}

fn answer([refused, finished, lines, worked, spent]: [u32; 5]) -> Answer {
    Answer { refused, finished, lines, worked, spent }
}

/// What a call must give: an answer, and the lines in the order of the log.
type Wanted = (Answer, Vec<u16>);

fn refusal(number: u32) -> Wanted {
    (answer([number, 0, 0, 0, 0]), vec![])
}

fn old(bytes: &[u8]) -> Table {
    Table::of(OLD, bytes)
}

/// The table in edition two.
fn two(t: &Table) -> Table {
    Table::of(TWO, &t.bytes)
}

/// The table in edition two, its rules with these origins.
fn with_these(t: &Table, origins: &[usize]) -> Table {
    let (mut two, first) = (two(t), 11 + 2 * size(t, 1));
    for (i, &origin) in origins.iter().enumerate() {
        if let Some(low) = two.bytes.get_mut(first + 2 * i) {
            *low += 4 * origin as u8;
        }
    }
    two
}

/// 1, 2, 3, 1 and so on, for each rule.
fn origins(t: &Table) -> Vec<usize> {
    (0..size(t, 2)).map(|i| i % 3 + 1).collect()
}

/// The table in edition two, its rules with those origins.
fn with_origins(t: &Table) -> Table {
    with_these(t, &origins(t))
}

/// The table as it is, in edition two, and there with origins.
fn in_editions(t: &Table) -> [Table; 3] {
    [t.clone(), two(t), with_origins(t)]
}

/// "Case 1: sizes 2,1,2,1,1; left 0,1,1,0,0; right 0,2,3,0,1 (30 bytes)."
fn case_1() -> Table {
    let words = [2u16, 1, 2, 1, 1, 0, 1, 1, 0, 0, 0, 2, 3, 0, 1];
    old(&words.map(|w| w.to_le_bytes()).concat())
}

/// A table with these facts, rules (kind, head, antecedents) and pairs.
fn table(a: usize, facts: &[usize], rules: &[(usize, usize, &[usize])], pairs: &[(usize, usize)]) -> Table {
    let mut d = Draft { a, ..Draft::default() };
    facts.iter().for_each(|&q| d.fact(q));
    for &(kind, head, body) in rules {
        d.rule(kind, head, body);
    }
    pairs.iter().for_each(|&(t, s)| d.pair(t, s));
    d.table(OLD)
}

fn itself() -> Table {
    table(1, &[], &[(1, 0, &[0])], &[])
}

fn both() -> Table {
    table(1, &[0, 1], &[], &[])
}

fn defeater() -> Table {
    table(1, &[], &[(1, 0, &[]), (2, 1, &[])], &[])
}

/// A rule for each literal of one atom.
fn opposed(pairs: &[(usize, usize)]) -> Table {
    table(1, &[], &[(1, 0, &[]), (1, 1, &[])], pairs)
}

/// Rule 0 for literal 0, rule 2 for literal 1, and rule 1 about another atom, which is weaker than rule 0 and stronger than rule 2.
fn no_closure() -> Table {
    table(2, &[], &[(1, 0, &[]), (1, 2, &[]), (1, 1, &[])], &[(0, 1), (1, 2)])
}

/// Two supporters of atom 0 that beat two attackers as a team.
fn platypus() -> Table {
    table(5, &[2, 4, 6, 8], &[(1, 0, &[2]), (1, 0, &[4]), (1, 1, &[6]), (1, 1, &[8])], &[(0, 2), (1, 3)])
}

/// What it is, the table, the budget, the five numbers and the log.
type Case = (&'static str, Table, u32, [u32; 5], &'static [u16]);

fn cases() -> Vec<Case> {
    let one: &[u16] = &[0, 5, 9, 13, 2, 7, 10, 15];
    vec![
        ("case 1", case_1(), 19, [0, 1, 8, 8, 17], one),
        ("case 1, budget 17", case_1(), 17, [0, 1, 8, 8, 17], one),
        ("case 1, budget 16", case_1(), 16, [0, 0, 8, 7, 16], one),
        ("case 1, budget 13", case_1(), 13, [0, 0, 6, 4, 11], &one[..6]),
        ("case 1, budget 6", case_1(), 6, [0, 0, 0, 0, 0], &[]),
        ("the empty table", old(&[0; 10]), 0, [0, 1, 0, 0, 0], &[]),
        ("a rule from a literal to itself", itself(), 9, [0, 1, 3, 3, 6], &[1, 5, 7]),
        ("facts 0 and 1", both(), 7, [0, 1, 4, 4, 7], &[0, 4, 2, 6]),
        ("a defeater", defeater(), 7, [0, 1, 4, 4, 7], &[1, 5, 3, 7]),
        ("priority is not transitive", no_closure(), 19, [0, 1, 8, 8, 15], &[1, 5, 9, 13, 3, 7, 15, 10]),
        ("pairs (0,1),(1,0)", opposed(&[(0, 1), (1, 0)]), 100, [7, 0, 0, 0, 0], &[]),
        ("pair (0,0)", opposed(&[(0, 0)]), 100, [7, 0, 0, 0, 0], &[]),
        ("nine bytes", old(&[1; 9]), 0, [1, 0, 0, 0, 0], &[]),
        ("513 atoms", old(&tables::sized(0, 513)), 9_999, [2, 0, 0, 0, 0], &[]),
        ("a strange fact and a rule of kind 3", table(1, &[2], &[(3, 0, &[])], &[]), 100, [4, 0, 0, 0, 0], &[]),
        ("a fact twice", table(1, &[0, 0], &[], &[]), 100, [6, 0, 0, 0, 0], &[]),
    ]
}

/// The last of n rules is settled by +∂ of the fact 0; the others have no antecedents. No two heads are complementary.
fn settled_last(n: usize, pairs: &[(usize, usize)]) -> Table {
    let mut rules: Vec<(usize, usize, &[usize])> = vec![(1, 0, &[]); n];
    rules[n - 1] = (1, 2, &[0]);
    table(2, &[0], &rules, pairs)
}

/// Rule 0, which a pair names, is visited by +∂ of the fact 0, and settled by +∂ of the fact 2.
fn visited_twice() -> Table {
    table(3, &[0, 2], &[(1, 4, &[0, 2]), (1, 0, &[])], &[(0, 1)])
}

/// Spent is Size, 1 for each line, 1 for each visit, and the pairs naming the one rule that is settled.
fn pair_counts() -> Vec<Case> {
    let log: &[u16] = &[0, 5, 9, 13, 2, 7, 15, 10];
    let four = |pairs: &[(usize, usize)]| settled_last(4, pairs);
    vec![
        ("one pair of four names the rule", four(&[(0, 1), (0, 2), (1, 2), (1, 3)]), 99, [0, 1, 8, 8, 22], log),
        ("three pairs of four name it, on both sides", four(&[(0, 3), (1, 2), (3, 1), (3, 2)]), 99, [0, 1, 8, 8, 24], log),
        ("a rule visited twice is charged once", visited_twice(), 99, [0, 1, 12, 12, 25], &[0, 5, 8, 13, 17, 21, 2, 7, 10, 15, 23, 18]),
        ("rule 1,023 is the weaker of a pair", settled_last(1_024, &[(0, 1_023)]), 9_999, [0, 1, 8, 8, 1_039], log),
        ("rule 1,023 is the stronger of a pair", settled_last(1_024, &[(1_023, 0)]), 9_999, [0, 1, 8, 8, 1_039], log),
    ]
}

/// What it is, the table, the budget, the words of log, the five numbers and the log.
type ShortLog = (&'static str, Table, u32, usize, [u32; 5], &'static [u16]);

fn short_logs() -> Vec<ShortLog> {
    let (one, own): (&[u16], &[u16]) = (&[0, 5, 9, 13, 2, 7], &[1, 5, 7]);
    let nine = [9, 0, 0, 0, 0];
    vec![
        ("case 1, 7 words for 8 lines", case_1(), 19, 7, nine, &[]),
        ("case 1, 7 words for 8 lines of which 7 are worked", case_1(), 16, 7, nine, &[]),
        ("case 1, 7 words for 6 lines", case_1(), 13, 7, [0, 0, 6, 4, 11], one),
        ("case 1, 6 words for 6 lines", case_1(), 13, 6, [0, 0, 6, 4, 11], one),
        ("case 1, 5 words for 6 lines", case_1(), 13, 5, nine, &[]),
        ("case 1, no words for no lines", case_1(), 6, 0, [0; 5], &[]),
        ("a rule from a literal to itself, 3 words for 3 lines", itself(), u32::MAX, 3, [0, 1, 3, 3, 6], own),
        ("a rule from a literal to itself, 2 words for 3 lines", itself(), u32::MAX, 2, nine, &[]),
        ("a rule from a literal to itself, 2 words for 2 lines", itself(), 3, 2, [0, 0, 2, 0, 3], &own[..2]),
        ("a rule from a literal to itself, 1 word for 2 lines", itself(), 3, 1, nine, &[]),
        ("a rule from a literal to itself, no words for no lines", itself(), 2, 0, [0; 5], &[]),
    ]
}

/// Document 004's example: b ⇒ a, ¬c ⇒ a, d ⇒ a, a ⇒ ¬c, ⇒ d and ⇒ ¬d, with a, b, c and d the atoms 0 to 3.
fn document_004() -> Table {
    table(4, &[], &[(1, 0, &[2]), (1, 0, &[5]), (1, 0, &[6]), (1, 5, &[0]), (1, 6, &[]), (1, 7, &[])], &[])
}

/// Literals 0 and 2, each resting on the other by a rule of this kind.
fn each_other(kind: usize) -> Table {
    table(2, &[], &[(kind, 0, &[2]), (kind, 2, &[0])], &[])
}

/// In each of two steps x ⇒ x, ⇒ y, x ⇒ ¬y over that, and ⇒ ¬y below it; x of the second step rests on ¬y of the first, too. So the second
/// step's loop is fed until a search has decided the first.
fn two_steps() -> Table {
    let (x, y, z, w) = (0, 2, 4, 6);
    let rules: &[(usize, usize, &[usize])] = &[
        (1, x, &[x]),
        (1, y, &[]),
        (1, y + 1, &[x]),
        (1, y + 1, &[]),
        (1, z, &[z]),
        (1, z, &[y + 1]),
        (1, w, &[]),
        (1, w + 1, &[z]),
        (1, w + 1, &[]),
    ];
    table(4, &[], rules, &[(1, 3), (2, 1), (6, 8), (7, 6)])
}

fn searches() -> Vec<Case> {
    let example: &[u16] = &[1, 5, 9, 13, 17, 21, 25, 29, 7, 11, 15, 19, 27, 31, 3, 23];
    let steps: &[u16] = &[1, 5, 9, 13, 17, 21, 25, 29, 7, 23, 3, 15, 10, 19, 31, 26];
    let rule = |kind: usize| table(1, &[], &[(kind, 0, &[0])], &[]);
    let stronger_itself = table(1, &[], &[(1, 0, &[]), (1, 1, &[]), (1, 0, &[0])], &[(2, 1)]);
    let strict_below = table(2, &[], &[(0, 0, &[0]), (1, 2, &[0])], &[]);
    let fed = table(2, &[0], &[(0, 0, &[2]), (0, 2, &[0])], &[]);
    let strict_and_free = table(1, &[], &[(0, 0, &[0]), (1, 0, &[])], &[]);
    let loop_and_defeater = table(1, &[], &[(1, 0, &[0]), (2, 0, &[])], &[]);
    vec![
        ("document 004's example", document_004(), 90, [0, 1, 16, 16, 90], example),
        ("document 004's example, the bound", document_004(), 402, [0, 1, 16, 16, 90], example),
        ("document 004's example, budget 89", document_004(), 89, [0, 0, 16, 16, 76], example),
        ("document 004's example, budget 75", document_004(), 75, [0, 0, 16, 16, 62], example),
        ("document 004's example, five times Size", document_004(), 70, [0, 0, 16, 16, 62], example),
        ("document 004's example, budget 61", document_004(), 61, [0, 0, 16, 15, 60], example),
        ("document 004's example, budget 58", document_004(), 58, [0, 0, 16, 14, 58], example),
        ("document 004's example, budget 57", document_004(), 57, [0, 0, 14, 14, 44], &example[..14]),
        ("document 004's example, budget 44", document_004(), 44, [0, 0, 14, 14, 44], &example[..14]),
        ("document 004's example, budget 43", document_004(), 43, [0, 0, 14, 14, 30], &example[..14]),
        ("document 004's example, budget 30", document_004(), 30, [0, 0, 14, 14, 30], &example[..14]),
        ("document 004's example, budget 29", document_004(), 29, [0, 0, 14, 13, 29], &example[..14]),
        ("document 004's example, budget 13", document_004(), 13, [0, 0, 0, 0, 0], &[]),
        ("the empty table", old(&[0; 10]), 0, [0, 1, 0, 0, 0], &[]),
        ("case 1", case_1(), 31, [0, 1, 8, 8, 31], &[0, 5, 9, 13, 2, 7, 10, 15]),
        ("case 1, budget 30", case_1(), 30, [0, 0, 8, 8, 24], &[0, 5, 9, 13, 2, 7, 10, 15]),
        ("facts 0 and 1", both(), 13, [0, 1, 4, 4, 13], &[0, 4, 2, 6]),
        ("a defeasible rule from a literal to itself", rule(1), 99, [0, 1, 4, 4, 20], &[1, 5, 7, 3]),
        ("a strict rule from a literal to itself", rule(0), 99, [0, 1, 4, 4, 24], &[5, 7, 1, 3]),
        ("a defeater from a literal to itself", rule(2), 99, [0, 1, 4, 4, 14], &[1, 5, 3, 7]),
        ("two that rest on each other", each_other(1), 99, [0, 1, 8, 8, 40], &[1, 5, 9, 13, 7, 15, 3, 11]),
        ("two that rest on each other strictly", each_other(0), 99, [0, 1, 8, 8, 48], &[5, 13, 7, 15, 1, 9, 3, 11]),
        ("two that rest on each other strictly, one of them a fact", fed, 99, [0, 1, 8, 8, 33], &[0, 5, 13, 2, 8, 7, 15, 10]),
        ("a strict loop, and a rule that rests on it", strict_below, 99, [0, 1, 8, 8, 47], &[5, 9, 13, 7, 15, 1, 3, 11]),
        ("a strict loop, and a defeasible rule without antecedents", strict_and_free, 99, [0, 1, 4, 4, 22], &[5, 7, 2, 1]),
        ("a loop, and a defeater without antecedents", loop_and_defeater, 99, [0, 1, 4, 4, 25], &[1, 5, 7, 3]),
        ("a stronger rule from a literal to itself", stronger_itself, 99, [0, 1, 3, 3, 21], &[1, 5, 7]),
        ("two steps", two_steps(), 999, [0, 1, 16, 16, 177], steps),
        ("two steps, before the last search", two_steps(), 176, [0, 0, 16, 16, 155], steps),
    ]
}

fn searches_in_short_logs() -> Vec<ShortLog> {
    let nine = [9, 0, 0, 0, 0];
    vec![
        ("a rule from a literal to itself, 4 words for 4 lines", itself(), u32::MAX, 4, [0, 1, 4, 4, 20], &[1, 5, 7, 3]),
        ("a rule from a literal to itself, 3 words for 4 lines", itself(), u32::MAX, 3, nine, &[]),
        ("a rule from a literal to itself, 3 words for 4 lines of which 3 are worked", itself(), 12, 3, nine, &[]),
        ("a rule from a literal to itself, 3 words for 3 lines", itself(), 11, 3, [0, 0, 3, 3, 9], &[1, 5, 7]),
        ("a rule from a literal to itself, 2 words for 3 lines", itself(), 11, 2, nine, &[]),
        ("a rule from a literal to itself, no words for no lines", itself(), 2, 0, [0; 5], &[]),
    ]
}

/// What it is, the table, the rule, the log and how the rule stands.
type Stands = (&'static str, Table, u32, &'static [u16], u32);

fn standings() -> Vec<Stands> {
    let one: &[u16] = &[0, 5, 9, 13, 2, 7, 10, 15];
    let two = table(2, &[], &[(2, 2, &[0, 3]), (0, 2, &[1])], &[]);
    vec![
        ("case 1, rule 0", case_1(), 0, one, FIRING),
        ("case 1, rule 1, which has no antecedents", case_1(), 1, one, FIRING),
        ("case 1, rule 0, no lines", case_1(), 0, &[], WAITING),
        ("case 1, rule 1, no lines", case_1(), 1, &[], FIRING),
        ("case 1, rule 0, the lines of the opening", case_1(), 0, &one[..4], WAITING),
        ("case 1, rule 0, the lines of budget 13", case_1(), 0, &one[..6], FIRING),
        ("a rule from a literal to itself", itself(), 0, &[1, 5, 7], WAITING),
        ("a rule from a literal to itself, −∂", itself(), 0, &[3], OUT),
        ("a rule from a literal to itself, −∂ and +∂", itself(), 0, &[3, 2], FIRING),
        ("a rule from a literal to itself, +∂ past the log's 4A words", itself(), 0, &[1, 1, 1, 1, 2], FIRING),
        ("a rule from a literal to itself, words past 8A", itself(), 0, &[8, 10, 4_098, 4_099, 65_535], WAITING),
        ("two antecedents, +∂ of the first, twice", two.clone(), 0, &[2, 2], WAITING),
        ("two antecedents, +∂ of the second", two.clone(), 0, &[14], WAITING),
        ("two antecedents, +∂ of both", two.clone(), 0, &[14, 2], FIRING),
        ("two antecedents, +∂ of the first and −∂ of the second", two.clone(), 0, &[2, 15], OUT),
        ("two antecedents, +∂ of both complements", two.clone(), 0, &[6, 10], WAITING),
        ("two antecedents, +∂ of both and −∂ of another rule's", two, 0, &[7, 2, 14], FIRING),
    ]
}

/// A table for each of the refusals 1 to 7.
fn refused() -> [Table; 7] {
    [
        old(&[1; 9]),
        old(&tables::sized(0, 513)),
        old(&case_1().bytes[..29]),
        table(1, &[2], &[(3, 0, &[])], &[]),
        table(1, &[2, 0], &[(1, 0, &[])], &[]),
        table(1, &[1, 0], &[(1, 0, &[])], &[(0, 0)]),
        opposed(&[(0, 1), (1, 0)]),
    ]
}

/// What it is, the table, and the number that every call refuses it by.
fn refused_in_editions() -> Vec<(&'static str, Table, u32)> {
    let file = |edition: u32, bytes: &[&[u8]]| Table { edition, bytes: bytes.concat() };
    let case_1 = case_1().bytes;
    let mut fact_of_4 = Draft { a: 1, ..Draft::default() };
    fact_of_4.sections[0].push((4, 0));
    vec![
        ("no bytes in the old layout", file(OLD, &[]), 1),
        ("no bytes in edition two", file(TWO, &[]), 1),
        ("the byte 2 alone", file(TWO, &[&[2]]), 1),
        ("the byte 2 and nine more", file(TWO, &[&[2], &[0; 9]]), 1),
        ("the byte 2 and ten more in the old layout", file(OLD, &[&[2], &[0; 10]]), 3),
        ("ten bytes 0 in edition two", file(TWO, &[&[0; 10]]), 1),
        ("ten bytes 0 after the byte 1", file(TWO, &[&[1], &[0; 10]]), 1),
        ("case 1 after the byte 3", file(TWO, &[&[3], &case_1]), 1),
        ("513 atoms after the byte 0", file(TWO, &[&[0], &tables::sized(0, 513)]), 1),
        ("case 1, whose first byte is 2, in edition two", file(TWO, &[&case_1]), 3),
        ("case 1 after the byte 2 in the old layout", file(OLD, &[&[2], &case_1]), 2),
        ("case 1 after the byte 2 twice", file(TWO, &[&[2, 2], &case_1]), 2),
        ("case 1 after the byte 2 but for a byte", file(TWO, &[&[2], &case_1[..29]]), 3),
        ("case 1 after the byte 2, and a byte more", file(TWO, &[&[2], &case_1, &[0]]), 3),
        ("a fact's left word 4 in the old layout", fact_of_4.table(OLD), 4),
        ("a fact's left word 4 in edition two", fact_of_4.table(TWO), 4),
    ]
}

/// What it is, the table, the bytes of output, 0 or the refusal, and the new file.
type Conversion = (&'static str, Table, usize, u32, Vec<u8>);

fn conversions() -> Vec<Conversion> {
    let (one, empty) = (case_1(), old(&[0; 10]));
    let last = table(1, &[], &[(1, 0, &[]), (14, 1, &[])], &[]);
    vec![
        ("case 1 there", one.clone(), 31, 0, two(&one).bytes),
        ("case 1 there, more output", one.clone(), 32, 0, two(&one).bytes),
        ("case 1 there, as much output as table", one.clone(), 30, 9, vec![]),
        ("case 1 there, no output", one.clone(), 0, 9, vec![]),
        ("case 1 back", two(&one), 30, 0, one.bytes.clone()),
        ("case 1 back, as much output as table", two(&one), 31, 0, one.bytes.clone()),
        ("case 1 back, a byte less", two(&one), 29, 9, vec![]),
        ("case 1 with origins back", with_origins(&one), 30, 10, vec![]),
        ("case 1 with origins back, more output", with_origins(&one), OUT_MOST, 10, vec![]),
        ("case 1 with origins back, a byte less", with_origins(&one), 29, 9, vec![]),
        ("case 1 with origins back, no output", with_origins(&one), 0, 9, vec![]),
        ("the empty table there", empty.clone(), 11, 0, two(&empty).bytes),
        ("the empty table there, a byte less", empty.clone(), 10, 9, vec![]),
        ("the empty table back", two(&empty), 10, 0, vec![0; 10]),
        ("the empty table back, a byte less", two(&empty), 9, 9, vec![]),
        ("an origin of the last rule alone", two(&last), 18, 10, vec![]),
    ]
}

/// What it is, the house, the tour and the joined table, in the old layout.
type Joined = (&'static str, Table, Table, Table);

fn joins() -> Vec<Joined> {
    let (one, empty, atoms) = (case_1(), old(&[0; 10]), table(2, &[], &[], &[]));
    let twice = table(2, &[0], &[(1, 2, &[0]), (1, 3, &[]), (1, 2, &[0]), (1, 3, &[])], &[(0, 1), (0, 3), (1, 2), (2, 3)]);
    let facts = |facts: &[usize]| table(3, facts, &[], &[]);
    let rules = |rules: &[(usize, usize)], pairs: &[(usize, usize)]| {
        let rules: Vec<(usize, usize, &[usize])> = rules.iter().map(|&(kind, head)| (kind, head, &[][..])).collect();
        table(1, &[], &rules, pairs)
    };
    vec![
        ("two empty tables", empty.clone(), empty.clone(), empty),
        ("case 1 and nothing", one.clone(), atoms.clone(), one.clone()),
        ("nothing and case 1", atoms, one.clone(), one.clone()),
        ("case 1 and case 1", one.clone(), one, twice),
        ("facts of one, of the other and of both", facts(&[0, 3, 5]), facts(&[1, 3, 4]), facts(&[0, 1, 3, 4, 5])),
        ("a rule for and a rule for", rules(&[(1, 0)], &[]), rules(&[(1, 0)], &[]), rules(&[(1, 0), (1, 0)], &[])),
        ("a rule for and a rule against", rules(&[(1, 0)], &[]), rules(&[(1, 1)], &[]), rules(&[(1, 0), (1, 1)], &[(0, 1)])),
        ("a rule against and a rule for", rules(&[(1, 1)], &[]), rules(&[(1, 0)], &[]), rules(&[(1, 1), (1, 0)], &[(0, 1)])),
        ("a strict rule of the tour", rules(&[(1, 1)], &[]), rules(&[(0, 0)], &[]), rules(&[(1, 1), (0, 0)], &[(0, 1)])),
        ("a defeater of the house", rules(&[(2, 1)], &[]), rules(&[(1, 0)], &[]), rules(&[(2, 1), (1, 0)], &[(0, 1)])),
        ("a defeater of the tour", rules(&[(1, 0)], &[]), rules(&[(2, 1)], &[]), rules(&[(1, 0), (2, 1)], &[(0, 1)])),
        ("two defeaters", rules(&[(2, 0)], &[]), rules(&[(2, 1)], &[]), rules(&[(2, 0), (2, 1)], &[(0, 1)])),
        (
            "entries and pairs of both, with added pairs among them",
            table(2, &[2], &[(1, 0, &[2, 3]), (0, 1, &[2]), (2, 2, &[])], &[(0, 2), (1, 0)]),
            table(2, &[2], &[(1, 3, &[0]), (1, 1, &[]), (0, 0, &[1, 2])], &[(1, 0), (2, 1)]),
            table(
                2,
                &[2],
                &[(1, 0, &[2, 3]), (0, 1, &[2]), (2, 2, &[]), (1, 3, &[0]), (1, 1, &[]), (0, 0, &[1, 2])],
                &[(0, 2), (0, 4), (1, 0), (1, 5), (2, 3), (4, 3), (5, 4)],
            ),
        ),
        ("32 rules and 64 against them", crowd(1, 32, 0), crowd(1, 64, 1), crowds(32, 64)),
        ("64 rules and 32 against them", crowd(1, 64, 0), crowd(1, 32, 1), crowds(64, 32)),
        ("1,024 rules", crowd(1, 512, 0), crowd(1, 512, 0), crowd(1, 1_024, 0)),
    ]
}

/// Rules for a literal, over `a` atoms.
fn crowd(a: usize, n: usize, head: usize) -> Table {
    table(a, &[], &vec![(1, head, &[][..]); n], &[])
}

/// The join of n rules for a literal with m against it.
fn crowds(n: usize, m: usize) -> Table {
    let rules: Vec<(usize, usize, &[usize])> = (0..n + m).map(|r| (1, (r >= n) as usize, &[][..])).collect();
    let pairs: Vec<(usize, usize)> = (0..n).flat_map(|h| (n..n + m).map(move |t| (h, t))).collect();
    table(1, &[], &rules, &pairs)
}

/// Rules for literal 0, each resting on `body`, over 512 atoms.
fn resting(n: usize, body: &[usize]) -> Table {
    table(512, &[], &vec![(1, 0, body); n], &[])
}

/// n rules for a literal, and so many pairs of them.
fn ranked(n: usize, count: usize) -> Table {
    let pairs: Vec<(usize, usize)> = (0..n).flat_map(|t| (t + 1..n).map(move |s| (t, s))).take(count).collect();
    table(1, &[], &vec![(1, 0, &[][..]); n], &pairs)
}

/// What it is, the house and the tour, and the number.
fn refused_joins() -> Vec<(&'static str, Table, Table, u32)> {
    let all: Vec<usize> = (0..1_024).collect();
    vec![
        ("one atom and two", crowd(1, 1, 0), crowd(2, 1, 0), 11),
        ("two atoms and one", crowd(2, 1, 0), crowd(1, 1, 0), 11),
        ("no atom and one", old(&[0; 10]), crowd(1, 0, 0), 11),
        ("512 atoms and 511", old(&tables::sized(0, 512)), old(&tables::sized(0, 511)), 11),
        ("other atoms, and 1,025 rules", crowd(1, 1_024, 0), crowd(2, 1, 0), 11),
        ("other atoms, and 2,079 added pairs", crowd(1, 33, 0), crowd(2, 63, 1), 11),
        ("1,025 rules", crowd(1, 512, 0), crowd(1, 513, 0), 2),
        ("2,048 rules", crowd(1, 1_024, 0), crowd(1, 1_024, 0), 2),
        ("4,097 entries", resting(1, &all[..1]), resting(4, &all), 2),
        ("8,192 entries", resting(4, &all), resting(4, &all), 2),
        ("4,098 entries, 2,048 of them the house's", resting(2, &all), resting(50, &all[..41]), 2),
        ("2,049 pairs, none of them added", ranked(65, 2_048), ranked(2, 1), 2),
        ("4,096 pairs, none of them added", ranked(65, 2_048), ranked(65, 2_048), 2),
        ("2,079 added pairs", crowd(1, 33, 0), crowd(1, 63, 1), 2),
        ("2,048 added pairs, and one of the house's", ranked(32, 1), crowd(1, 64, 1), 2),
        ("65,536 added pairs", crowd(1, 256, 0), crowd(1, 256, 1), 2),
        ("262,144 added pairs", crowd(1, 512, 0), crowd(1, 512, 1), 2),
    ]
}

/// Parts of the atoms 0 and 1, of 2 and 3, and of 4 alone; pairs within the first two and across.
fn three_parts() -> Table {
    let rules: &[(usize, usize, &[usize])] = &[(1, 2, &[0]), (0, 7, &[4]), (2, 3, &[]), (1, 6, &[])];
    table(5, &[0, 3, 5, 6, 8], rules, &[(0, 1), (0, 2), (1, 3), (3, 2)])
}

/// A chain over all atoms in this order, each resting on the one before it; perhaps without one of the rules.
fn chained(order: &[usize], missing: Option<usize>) -> Table {
    let mut d = Draft { a: order.len(), ..Draft::default() };
    for (i, w) in order.windows(2).enumerate().filter(|&(i, _)| missing != Some(i)) {
        d.rule(1, 2 * w[1] + i % 2, &[2 * w[0] + i / 2 % 2]);
    }
    d.table(OLD)
}

/// Orders of all atoms.
fn orders() -> Vec<(&'static str, Vec<usize>)> {
    let evens = (0..LIMITS[0]).step_by(2);
    vec![
        ("upwards", (0..LIMITS[0]).collect()),
        ("downwards", (0..LIMITS[0]).rev().collect()),
        ("the even ones downwards and the odd ones upwards", evens.clone().rev().chain(evens.clone().map(|a| a + 1)).collect()),
        ("from both ends", evens.map(|a| a / 2).flat_map(|a| [a, LIMITS[0] - 1 - a]).collect()),
        ("by steps of 211", (0..LIMITS[0]).map(|i| 211 * i % LIMITS[0]).collect()),
    ]
}

/// Words of a chain whose first part ends before the atom `end`.
fn two_chains(end: usize) -> Vec<usize> {
    (0..LIMITS[0]).map(|a| if a < end { 0 } else { end }).collect()
}

/// What it is, the table in the old layout, and the list of its parts.
type Listed = (&'static str, Table, Vec<usize>);

fn lists() -> Vec<Listed> {
    let rules = |a: usize, rules: &[(usize, usize, &[usize])]| table(a, &[], rules, &[]);
    let orders = orders();
    let (up, down) = (&orders[0].1, &orders[1].1);
    let mut lists = vec![
        ("no atoms", old(&[0; 10]), vec![]),
        ("three atoms and no rules", rules(3, &[]), vec![0, 1, 2]),
        ("512 atoms and no rules", old(&tables::sized(0, 512)), (0..512).collect()),
        ("case 1", case_1(), vec![0, 0]),
        ("a rule from a literal to itself", itself(), vec![0]),
        ("the platypus", platypus(), vec![0; 5]),
        ("three parts", three_parts(), vec![0, 0, 2, 2, 4]),
        ("a rule without antecedents", rules(3, &[(1, 2, &[])]), vec![0, 1, 2]),
        ("a fact of each atom", table(3, &[0, 2, 4], &[], &[]), vec![0, 1, 2]),
        ("a pair of rules about two atoms", table(2, &[], &[(1, 0, &[]), (1, 2, &[])], &[(0, 1)]), vec![0, 1]),
        ("a defeater", rules(3, &[(2, 4, &[2])]), vec![0, 1, 1]),
        ("complements", rules(3, &[(1, 5, &[3])]), vec![0, 1, 1]),
        ("the last of three antecedents", rules(6, &[(1, 2, &[6, 8, 11])]), vec![0, 1, 2, 1, 1, 1]),
        ("antecedents alone below the head", rules(4, &[(1, 6, &[2, 4])]), vec![0, 1, 1, 1]),
        ("two rules with one head", rules(4, &[(1, 6, &[2]), (1, 7, &[4])]), vec![0, 1, 1, 1]),
        ("two rules with one antecedent", rules(4, &[(1, 4, &[3]), (1, 6, &[2])]), vec![0, 1, 1, 1]),
        ("three rules, the one between last", rules(5, &[(1, 2, &[0]), (1, 6, &[4]), (1, 5, &[3])]), vec![0, 0, 0, 0, 4]),
        ("a star of antecedents", rules(7, &[(0, 8, &[4, 6, 10, 12])]), vec![0, 1, 2, 2, 2, 2, 2]),
        ("a star of heads", rules(6, &[(1, 6, &[10]), (1, 4, &[10]), (2, 9, &[10]), (0, 2, &[11])]), vec![0, 1, 1, 1, 1, 1]),
        ("a circle of rules", rules(4, &[(1, 4, &[2]), (1, 6, &[4]), (1, 2, &[6])]), vec![0, 1, 1, 1]),
        ("a chain upwards, parted before the last atom", chained(up, Some(510)), two_chains(511)),
        ("a chain upwards, parted in the middle", chained(up, Some(255)), two_chains(256)),
        ("a chain downwards, parted in the middle", chained(down, Some(255)), two_chains(256)),
        ("a chain downwards, parted after the first atom", chained(down, Some(0)), two_chains(511)),
    ];
    lists.extend(orders.iter().map(|(name, order)| (*name, chained(order, None), vec![0; 512])));
    lists
}

/// What it is, the table in the old layout, the atoms of a part, the rules that it has, and its table.
type Parted = (&'static str, Table, &'static [u32], Vec<usize>, Table);

fn parts() -> Vec<Parted> {
    let (whole, one, alone) = (three_parts(), case_1(), old(&tables::sized(0, 512)));
    let first = table(5, &[0, 3], &[(1, 2, &[0]), (2, 3, &[])], &[(0, 1)]);
    let second = table(5, &[5, 6], &[(0, 7, &[4]), (1, 6, &[])], &[(0, 1)]);
    let (up, down) = (chained(&orders()[0].1, None), chained(&orders()[1].1, None));
    let apart = table(2, &[], &[(1, 0, &[]), (1, 2, &[]), (1, 1, &[]), (1, 3, &[])], &[(0, 2), (0, 3), (1, 2), (1, 3), (3, 2)]);
    let pair = |head: usize| table(2, &[], &[(1, head, &[]), (1, head + 1, &[])], &[(0, 1)]);
    vec![
        ("case 1 is one part", one.clone(), &[0, 1], vec![0, 1], one),
        ("the first of three parts", whole.clone(), &[0, 1], vec![0, 2], first),
        ("the second of three parts", whole.clone(), &[2, 3], vec![1, 3], second),
        ("an atom that no rule names", whole, &[4], vec![], table(5, &[8], &[], &[])),
        ("pairs across parts, atom 0", apart.clone(), &[0], vec![0, 2], pair(0)),
        ("pairs across parts, atom 1", apart, &[1], vec![1, 3], pair(2)),
        ("512 atoms and no rules", alone.clone(), &[0, 1, 511], vec![], alone),
        ("a chain upwards", up.clone(), &[0, 1, 255, 511], (0..511).collect(), up),
        ("a chain downwards", down.clone(), &[0, 1, 255, 511], (0..511).collect(), down),
    ]
}

/// What it is, the table and its sheet.
fn sheets() -> Vec<(&'static str, Table, &'static str)> {
    vec![
        ("case 1", case_1(), "atoms 2\n0 go\n1 go\nspent 17 of 19\n"),
        ("a rule from a literal to itself", itself(), "atoms 1\n0 open\nspent 6 of 9\n"),
        ("facts 0 and 1", both(), "atoms 1\n0 clash\nspent 7 of 7\n"),
        ("a defeater", defeater(), "atoms 1\n0 split\nspent 7 of 7\n"),
        ("pairs (0,1),(1,0)", opposed(&[(0, 1), (1, 0)]), "refused 7\n"),
        ("the platypus", platypus(), "atoms 5\n0 go\n1 go\n2 go\n3 go\n4 go\nspent 47 of 51\n"),
    ]
}

/// What it is, the rules over two atoms, and their verdicts (document 02, S-6).
type Silent = (&'static str, &'static [(usize, usize, &'static [usize])], [&'static str; 2]);

fn silent_and_split() -> Vec<Silent> {
    vec![
        ("no rules", &[], ["idle", "idle"]),
        ("an only supporter that is out", &[(1, 0, &[2])], ["idle", "idle"]),
        ("an only supporter of the complement, out", &[(1, 1, &[2])], ["idle", "idle"]),
        ("a supporter of each that is out", &[(1, 0, &[2]), (1, 1, &[3])], ["idle", "idle"]),
        ("one that is out by one of two antecedents", &[(1, 0, &[2, 3]), (1, 2, &[])], ["idle", "go"]),
        ("a defeater alone", &[(2, 0, &[])], ["idle", "idle"]),
        ("a defeater against a rule that is out", &[(1, 0, &[2]), (2, 1, &[])], ["idle", "idle"]),
        ("a rule against a defeater", &[(1, 0, &[]), (2, 1, &[])], ["split", "idle"]),
        ("the other way round", &[(1, 1, &[]), (2, 0, &[])], ["split", "idle"]),
        ("a rule against a rule", &[(1, 0, &[]), (1, 1, &[])], ["split", "idle"]),
        ("and a third that is out", &[(1, 0, &[]), (1, 1, &[]), (1, 1, &[2])], ["split", "idle"]),
        ("a supporter that fires by +∂ alone", &[(1, 2, &[]), (1, 0, &[2]), (2, 1, &[])], ["split", "go"]),
        ("a supporter that waits", &[(1, 2, &[2]), (1, 0, &[2]), (2, 1, &[])], ["split", "open"]),
    ]
}

/// One of the 4·24·24·3 tables of one atom and two rules with at most one pair.
fn two_rules(code: usize) -> Draft {
    let mut d = Draft { a: 1, ..Draft::default() };
    let mut x = code;
    let mut digit = |n: usize| {
        let y = x % n;
        x /= n;
        y
    };
    let pick = |y: usize| -> Vec<usize> { (0..2).filter(|i| y >> i & 1 == 1).collect() };
    pick(digit(4)).into_iter().for_each(|q| d.fact(q));
    for _ in 0..2 {
        let (kind, head, body) = (digit(3), digit(2), pick(digit(4)));
        d.rule(kind, head, &body);
    }
    match digit(3) {
        1 => d.pair(0, 1),
        2 => d.pair(1, 0),
        _ => (),
    }
    d
}

/// A file of records. In base.bin each begins with the length of its table, and a length of 0xFFFF ends the file; in a request's file
/// each is fields, and the file ends after the last record.
struct Reader {
    name: &'static str,
    bytes: Vec<u8>,
    at: usize,
    record: usize,
}

impl Reader {
    fn open(dir: &str, name: &'static str) -> Reader {
        let bytes = std::fs::read(format!("{dir}/{name}")).unwrap_or_else(|e| give_up(&format!("{dir}/{name}: {e}")));
        Reader { name, bytes, at: 0, record: 0 }
    }

    fn place(&self) -> String {
        format!("{} record {}", self.name, self.record)
    }

    fn bytes(&mut self, n: usize) -> Vec<u8> {
        let from = self.at;
        self.at += n;
        match self.bytes.get(from..self.at) {
            Some(bytes) => bytes.to_vec(),
            None => give_up(&format!("{}: the file ends within it", self.place())),
        }
    }

    fn word(&mut self) -> u16 {
        let bytes = self.bytes(2);
        u16::from_le_bytes([bytes[0], bytes[1]])
    }

    fn long(&mut self) -> u32 {
        let low = self.word() as u32;
        low + 65_536 * self.word() as u32
    }

    fn table(&mut self) -> Option<Vec<u8>> {
        let length = self.word();
        (length != 0xFFFF).then(|| self.bytes(length as usize))
    }

    /// A count of four bytes, and as many bytes as it says.
    fn field(&mut self) -> Vec<u8> {
        let count = self.long();
        self.bytes(count as usize)
    }

    /// A field of four bytes.
    fn number(&mut self) -> u32 {
        match self.field().try_into() {
            Ok(bytes) => u32::from_le_bytes(bytes),
            Err(_) => give_up(&format!("{}: a number of other than four bytes", self.place())),
        }
    }

    /// A field of words.
    fn words(&mut self) -> Vec<u16> {
        self.field().chunks(2).map(|w| u16::from_le_bytes([w[0], w[1]])).collect()
    }

    /// An answer of base.bin: 0 for finished, 255 for stopped, else the refusal's number; then lines, worked and spent.
    fn answer(&mut self) -> Answer {
        let number = self.word() as u32;
        let refused = if number == 255 { 0 } else { number };
        let (lines, worked) = (self.word() as u32, self.word() as u32);
        Answer { refused, finished: (number == 0) as u32, lines, worked, spent: self.long() }
    }

    fn end(&self) {
        if self.at != self.bytes.len() || self.record == 0 {
            give_up(&format!("{}: the end of the file, but there are bytes past it or no records before it", self.place()));
        }
        println!("{} {} same {}", self.name, self.record, self.record);
    }
}

fn give_up(why: &str) -> ! {
    eprintln!("compare: {why}");
    std::process::exit(2)
}

fn usage() -> ! {
    give_up("usage: compare [SEED [CALLS]] [--vectors DIR] [--mutant K], or compare --mutants")
}

fn list_mutants() {
    for (i, fault) in MUTANTS.iter().enumerate() {
        println!("{} {fault}", i + 1);
    }
}

fn switch_on(mutant: Option<String>) {
    let k = mutant.and_then(|k| k.parse().ok()).filter(|&k| 1 <= k && k <= MUTANTS.len() as u32);
    slow::MUTANT.store(k.unwrap_or_else(|| usage()), Relaxed);
}

fn main() {
    let (mut numbers, mut dir) = (vec![], None);
    let mut args = std::env::args().skip(1);
    while let Some(arg) = args.next() {
        match arg.as_str() {
            "--mutants" => return list_mutants(),
            "--mutant" => switch_on(args.next()),
            "--vectors" => dir = Some(args.next().unwrap_or_else(|| usage())),
            _ => numbers.push(arg.parse::<u64>().unwrap_or_else(|_| usage())),
        }
    }
    let seed = numbers.first().copied().unwrap_or(SEED);
    let calls = numbers.get(1).copied().unwrap_or(if mutant(0) { CALLS } else { MUTANT_CALLS });
    println!("seed {seed}");
    let mut bench = Bench::new(seed);
    if let Some(dir) = dir {
        bench.base_vectors(&dir);
        bench.sheet_vectors(&dir);
        bench.short_log_vectors(&dir);
        bench.edition_vectors(&dir);
        bench.join_vectors(&dir);
        bench.list_vectors(&dir);
        bench.part_vectors(&dir);
        bench.search_vectors(&dir);
    }
    bench.last = bench.calls + calls;
    bench.cases();
    bench.fixed();
    (0..).for_each(|number| bench.round(number));
}
