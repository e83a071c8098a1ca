//! An input's turn alone, by the library for tests and by the second program: output, count of looks and every lent word are compared, where there is
//! no turn too. KIVDRAG_SEED and KIVDRAG_TURNS set another seed and another count.

mod turn_calls;

use compare::{any_given, setting, Random};
use second::turns::{all_free, in_turn_from, is_free, looks};
use second::{Pass, Words};
use std::collections::BTreeMap;
use turn_calls::{NoTurn, TurnCall, TurnResult};

/// Each kind of turn is to be met so often in each pass.
const FEWEST: u64 = 300;

/// What a turn can be. It gave an output, where nothing else is said.
#[derive(Clone, Copy, Debug, PartialEq, Eq, PartialOrd, Ord)]
enum Kind {
    /// there was no turn, for this reason alone
    NoTurn(NoTurn),
    /// the switch had so many ports
    Ports(u64),
    /// no output was free
    NoneFree,
    /// some were free, and none was chosen
    NoneChosen,
    /// none was chosen, and a word past N stayed
    PastNStays,
    /// the last given output was below N, and one not past it was chosen
    Wrapped,
    /// the last given output was chosen again
    LastGivenAgain,
    /// the last given output was N; 0; a word past N
    LastIsN,
    LastIsZero,
    LastIsPastN,
    /// before the chosen output stood a taken one that was permitted
    TakenPassedOver,
    /// before it stood a free one without a packet; a free one with a packet and without a credit
    WithoutPacketPassedOver,
    WithoutCreditPassedOver,
    /// the free word had a bit past N; the turn may have given none
    FreePastN,
    /// all outputs were free; the turn may have given none
    AllFree,
    /// the pair had one packet; one credit
    OnlyPacket,
    OnlyCredit,
    /// it had 4,294,967,295 packets; as many credits
    MostPackets,
    MostCredits,
    /// this count differs from the right one; the turn may have given none
    Differs(OtherCount),
}

/// Counts by other rules. In each pass the test meets FEWEST turns or more in which each of them differs from the right count, so a library that
/// counted so would fail.
#[derive(Clone, Copy, Debug, PartialEq, Eq, PartialOrd, Ord)]
enum OtherCount {
    /// taken outputs are counted too
    TakenToo,
    /// the chosen output is not counted
    WithoutChosen,
    /// the free outputs from 1 up to the chosen one are counted
    FromOutput1,
    /// the search is counted as if it began at output 1
    SearchFromOutput1,
    /// all outputs are counted where none is chosen
    AllWhereNone,
    /// all bits of the free word are counted where none is chosen
    AllBitsWhereNone,
    /// nothing is counted where none is chosen
    NothingWhereNone,
}

const OTHER_COUNTS: [OtherCount; 7] = [
    OtherCount::TakenToo,
    OtherCount::WithoutChosen,
    OtherCount::FromOutput1,
    OtherCount::SearchFromOutput1,
    OtherCount::AllWhereNone,
    OtherCount::AllBitsWhereNone,
    OtherCount::NothingWhereNone,
];

/// How often each kind was met in each pass; true for pass one.
#[derive(Debug, Default)]
struct Tally(BTreeMap<(bool, Kind), u64>);

impl Tally {
    fn add(&mut self, turn: &TurnCall, kinds: impl IntoIterator<Item = (bool, Kind)>) {
        for (_, kind) in kinds.into_iter().filter(|&(is, _)| is) {
            *self.0.entry((turn.pass == Pass::One, kind)).or_default() += 1;
        }
    }

    /// A turn as it was asked for, and what it gave.
    fn note(&mut self, turn: &TurnCall, gave: TurnResult) {
        let reasons = turn.no_turn();
        if !reasons.is_empty() {
            return self.add(turn, [(reasons.len() == 1, Kind::NoTurn(reasons[0]))]);
        }
        let last = turn.words.given[turn.input as usize - 1] as u64;
        let all = all_free(turn.ports);
        let free = turn.free & all;
        self.add(turn, [(free != turn.free, Kind::FreePastN), (free == 0, Kind::NoneFree), (free == all, Kind::AllFree)]);
        self.add(turn, OTHER_COUNTS.map(|other| (counted(other, turn, gave) != gave.looks, Kind::Differs(other))));
        match gave.output {
            0 => self.add(turn, [(free != 0, Kind::NoneChosen), (last > turn.ports, Kind::PastNStays)]),
            output => {
                self.note_search(turn, last, output);
                self.note_payment(turn, output);
            }
        }
    }

    /// A turn that gave an output: where its search began, and what it passed over.
    fn note_search(&mut self, turn: &TurnCall, last: u64, output: u64) {
        let (s, n, i) = (turn.switch(), turn.ports, turn.input);
        let before: Vec<u64> = searched(turn, output).into_iter().filter(|&j| j != output).collect();
        let passed_over = |is: &dyn Fn(u64) -> bool| before.iter().any(|&j| is(j));
        let (free, packet) = (|j| is_free(turn.free, j), |j| s.words.queues[s.at(i, j)] > 0);
        let kinds = [
            (true, Kind::Ports(n)),
            (output <= last && last < n, Kind::Wrapped),
            (output == last, Kind::LastGivenAgain),
            (last == n, Kind::LastIsN),
            (last == 0, Kind::LastIsZero),
            (last > n, Kind::LastIsPastN),
            (passed_over(&|j| !free(j) && s.permits(i, j, turn.pass)), Kind::TakenPassedOver),
            (passed_over(&|j| free(j) && !packet(j)), Kind::WithoutPacketPassedOver),
            (passed_over(&|j| free(j) && packet(j)), Kind::WithoutCreditPassedOver),
        ];
        self.add(turn, kinds);
    }

    /// A turn that gave an output: what it paid with.
    fn note_payment(&mut self, turn: &TurnCall, output: u64) {
        let (s, first) = (turn.switch(), turn.pass == Pass::One);
        let at = s.at(turn.input, output);
        let kinds = [
            (s.words.queues[at] == 1, Kind::OnlyPacket),
            (s.words.queues[at] == u32::MAX, Kind::MostPackets),
            (first && s.words.credits[at] == 1, Kind::OnlyCredit),
            (first && s.words.credits[at] == u32::MAX, Kind::MostCredits),
        ];
        self.add(turn, kinds);
    }

    fn at_least(&self, fewest: u64, first: bool, kind: Kind) {
        let count = self.0.get(&(first, kind)).copied().unwrap_or(0);
        assert!(count >= fewest, "pass {}: {kind:?} {count} times", if first { "one" } else { "two" });
    }
}

/// The outputs in the search's order, free or taken, up to and with the one that it gave; all where it gave none.
fn searched(turn: &TurnCall, output: u64) -> Vec<u64> {
    let (n, last) = (turn.ports, turn.words.given[turn.input as usize - 1] as u64);
    let start = if last < n { last + 1 } else { 1 };
    let upto = in_turn_from(n, start).position(|j| j == output).map_or(n as usize, |at| at + 1);
    in_turn_from(n, start).take(upto).collect()
}

/// What another count has of a turn.
fn counted(other: OtherCount, turn: &TurnCall, gave: TurnResult) -> u32 {
    let (n, s) = (turn.ports, turn.switch());
    let free = |&j: &u64| is_free(turn.free, j);
    let where_none = |count| if gave.output == 0 { count } else { gave.looks };
    match other {
        OtherCount::TakenToo => searched(turn, gave.output).len() as u32,
        OtherCount::WithoutChosen => gave.looks - (gave.output > 0) as u32,
        OtherCount::FromOutput1 => (1..=if gave.output > 0 { gave.output } else { n }).filter(free).count() as u32,
        OtherCount::SearchFromOutput1 => looks(n, 0, turn.free, |j| s.permits(turn.input, j, turn.pass)).1,
        OtherCount::AllWhereNone => where_none(n as u32),
        OtherCount::AllBitsWhereNone => where_none(turn.free.count_ones()),
        OtherCount::NothingWhereNone => where_none(0),
    }
}

/// Words of credits or queues: all, most, half, few or none of them 0.
fn any_counts(r: &mut Random, length: usize) -> Vec<u32> {
    let above_zero = r.of(&[0, 1, 4, 4, 7, 7, 8]);
    let word = |r: &mut Random| if r.within(1, 8) > above_zero { 0 } else { r.of(&[1, 1, 2, 1_000_000, u32::MAX]) };
    (0..length).map(|_| word(r)).collect()
}

/// Free outputs: none, few, many and all; half of the words have bits past N where they can.
fn any_free(r: &mut Random, n: u64) -> u32 {
    let [a, b, c] = [r.next() as u32, r.next() as u32, r.next() as u32];
    let ports = all_free(n.min(32));
    let word = r.of(&[0, a & !ports, a & b & c, a & b, a, a, a | b, a | b | c, u32::MAX]);
    if r.one_in(2) { word } else { word & ports }
}

/// As long as a run has to be, or longer; seldom one word too short, or more.
fn any_length(r: &mut Random, words: u64) -> usize {
    let longer = words + r.of(&[0, 0, 1, 5]);
    let shorter = r.of(&[words.saturating_sub(1), words.saturating_sub(1), words / 2, 0]);
    if r.one_in(30) { shorter as usize } else { longer as usize }
}

/// A turn of any input on any words. Ports and inputs out of range are seldom; some of them are in range in their lower 32 bits.
fn any_turn(r: &mut Random) -> TurnCall {
    let n = r.within(1, 32);
    let ports = if r.one_in(20) { r.of(&[0, 33, 34, 40, 1 << 32, (1 << 32) + n, u64::MAX]) } else { n };
    let far = r.of(&[0, ports.saturating_add(1), ports.saturating_add(1), 1 << 32, (1 << 32) + n, u64::MAX]);
    let input = if r.one_in(20) { far } else { r.within(1, n) };
    let lent = ports.min(40);
    let [credits, queues, given] = [lent * lent, lent * lent, lent].map(|words| any_length(r, words));
    let words = Words { credits: any_counts(r, credits), queues: any_counts(r, queues), given: any_given(r, lent, given), ..Words::default() };
    TurnCall { pass: r.of(&[Pass::One, Pass::Two]), free: any_free(r, ports), ports, input, words }
}

#[test]
fn turns_with_their_looks() {
    let mut r = Random::new(setting("KIVDRAG_SEED", 1) ^ 0x100C);
    let turns = setting("KIVDRAG_TURNS", 400_000);
    let mut tally = Tally::default();
    for _ in 0..turns {
        let asked = any_turn(&mut r);
        let [mut by_library, mut by_second] = [asked.clone(), asked.clone()];
        let gave = by_library.by_library();
        assert_eq!(gave, by_second.by_second(), "{asked:?}");
        assert_eq!(by_library, by_second, "{asked:?}");
        tally.note(&asked, gave);
    }
    println!("{turns} turns; how often each kind was met in pass one (true) and two: {tally:?}");
    if turns >= 300_000 {
        enough_is_met(&tally);
    }
}

/// Every kind of turn was met in each pass that has it, and turns of every number of ports.
fn enough_is_met(tally: &Tally) {
    let reasons = [NoTurn::PortsAboveMost, NoTurn::InputZero, NoTurn::InputAbovePorts, NoTurn::QueuesTooShort, NoTurn::GivenTooShort];
    let last = [Kind::LastGivenAgain, Kind::LastIsN, Kind::LastIsZero, Kind::LastIsPastN];
    let passed = [Kind::Wrapped, Kind::TakenPassedOver, Kind::WithoutPacketPassedOver];
    let others = [Kind::NoneFree, Kind::NoneChosen, Kind::PastNStays, Kind::FreePastN, Kind::AllFree, Kind::OnlyPacket, Kind::MostPackets];
    let kinds = reasons.into_iter().map(Kind::NoTurn).chain((1..=32).map(Kind::Ports)).chain(OTHER_COUNTS.map(Kind::Differs));
    for kind in kinds.chain(last).chain(passed).chain(others) {
        [true, false].into_iter().for_each(|first| tally.at_least(FEWEST, first, kind));
    }
    for kind in [Kind::NoTurn(NoTurn::CreditsTooShort), Kind::WithoutCreditPassedOver, Kind::OnlyCredit, Kind::MostCredits] {
        tally.at_least(FEWEST, true, kind);
    }
}
