use super::phase_one::{phase_one, Test, TAU};
use super::*;
use crate::generate::symmetric::Symmetric;
use crate::generate::KINDS;
use crate::record::{checked, replied, Input, LONGEST};
use crate::second::{judged, Judged};
use crate::{answer, Answer, COMPLETE, GMW81, NOT_FINITE, SE90, SE99};
use std::collections::{BTreeMap, BTreeSet};
use std::sync::LazyLock;

mod residue;

static CASES: LazyLock<Vec<(Entry, Reply)>> = LazyLock::new(|| {
    let answered = list().into_iter().map(|entry| (entry.reply(), entry));
    answered.map(|(reply, entry)| (entry, reply)).collect()
});

fn ending(method: u8, matrix: &Symmetric) -> Option<(usize, Test)> {
    phase_one(method, matrix).end
}

fn replies(kind: &str) -> Vec<Reply> {
    let own = CASES.iter().filter(|(entry, _)| entry.kind == kind);
    own.map(|(_, reply)| reply.clone()).collect()
}

/// Refusal numbers with their places.
fn refusals(kind: &str) -> Vec<(u8, u8, u8)> {
    let place = |reply: Reply| {
        reply
            .outcome
            .map_err(|r| (r.number, r.place[0], r.place[1]))
    };
    let refusals = replies(kind).into_iter().map(place);
    refusals.map(|outcome| outcome.unwrap_err()).collect()
}

#[test]
fn the_list_is_the_same_again_and_of_its_size() {
    let again = list();
    assert_eq!(CASES.len(), again.len());
    for ((entry, _), other) in CASES.iter().zip(&again) {
        assert_eq!((&entry.kind, &entry.record), (&other.kind, &other.record));
    }
    assert!((1700..=2000).contains(&again.len()), "{}", again.len());
    let framed = |(entry, reply): &(Entry, Reply)| framed(&entry.record, &reply.record()).len();
    let bytes: usize = CASES.iter().map(framed).sum();
    assert!(bytes < 1_750_000, "{bytes}");
}

#[test]
fn kinds_named_by_a_refusal_have_it() {
    let mut seen = BTreeSet::new();
    for (entry, reply) in CASES.iter() {
        let name = entry.kind.split(": ").next();
        if let Some(number) = name.and_then(|name| name.parse().ok()) {
            assert_eq!(reply.refusal(), number, "{}", entry.kind);
            seen.insert(number);
        }
    }
    assert!(seen.into_iter().eq([1, 2, 3, 4, 7, 8, 9, 10, 11, 12, 13]));
}

#[test]
fn checks_come_in_order() {
    let wanted = [(10, 2, 0), (11, 2, 0)]
        .into_iter()
        .chain([1, 1, 2, 2, 3, 3, 4].map(|number| (number, 0, 0)));
    assert!(refusals(shape::ORDER).into_iter().eq(wanted));
}

/// The records of a kind.
fn records(kind: &str) -> Vec<&[u8]> {
    let own = CASES.iter().filter(|(entry, _)| entry.kind == kind);
    own.map(|(entry, _)| &entry.record[..]).collect()
}

#[test]
fn records_are_cut_at_every_byte() {
    let field = |end: usize| u8::from(end >= 4) + u8::from(end >= 8);
    let ends = || (0..19).chain(4..43);
    assert!(records(fields::CUT).iter().map(|r| r.len()).eq(ends()));
    let wanted = ends().map(|end| (10, field(end), 0));
    assert!(refusals(fields::CUT).into_iter().eq(wanted));
}

#[test]
fn every_tag_stands_at_every_field() {
    let pairs = records(fields::TAGS)
        .into_iter()
        .zip(refusals(fields::TAGS));
    let seen: BTreeSet<(u8, u8)> = pairs
        .map(|(record, (_, field, _))| (field, record[4 * usize::from(field)]))
        .collect();
    let all = (0..3).flat_map(|field| (0..=255).map(move |tag| (field, tag)));
    let due = [(0, 1), (1, 2), (2, 3), (2, 4)];
    assert!(seen
        .into_iter()
        .eq(all.filter(|at: &(u8, u8)| !due.contains(at))));
}

/// How often a kind has each field as its place.
fn by_field(kind: &str) -> [usize; 3] {
    let count = |field| refusals(kind).iter().filter(|r| r.1 == field).count();
    [0, 1, 2].map(count)
}

#[test]
fn the_first_offending_field_is_the_place() {
    assert_eq!(by_field(fields::CUT_WITH_TAG), [3, 3, 10]);
    assert_eq!(by_field(fields::PAST_END), [5, 6, 6]);
    assert_eq!(by_field(fields::CUT_AFTER_LENGTH), [0, 8, 44]);
    assert_eq!(by_field(fields::ORDERS), [5, 3, 1]);
    assert_eq!(by_field(fields::LATER_FAULT), [20, 14, 1]);
    assert_eq!(by_field(fields::TAG_AND_LENGTH), [2, 4, 4]);
}

#[test]
fn no_broken_record_stands_there_twice() {
    let broken = CASES
        .iter()
        .filter(|(_, reply)| [1, 10, 11].contains(&reply.refusal()));
    let mut seen = BTreeSet::new();
    for (entry, _) in broken {
        assert!(seen.insert(&entry.record), "{}", entry.kind);
    }
}

#[test]
fn records_go_up_to_one_byte_too_many() {
    let longest = CASES.iter().map(|(e, _)| e.record.len()).max();
    assert_eq!(longest, Some(LONGEST + 1));
    assert_eq!(refusals("1: one byte too long"), [(1, 0, 0); 3]);
}

#[test]
fn places_of_entries_that_are_not_finite() {
    let (at, last) = (|i, j| (7, i, j), 47);
    let wanted = [
        at(0, 0),
        at(0, 0),
        at(2, 2),
        at(4, 4),
        at(1, 3),
        at(1, 3),
        at(4, 0),
        at(0, 4),
        at(2, 4),
        at(3, 3),
        at(last, last),
    ];
    assert_eq!(refusals("7: places"), wanted);
    let wanted = [at(3, 3), at(0, 0), at(1, 2)];
    assert_eq!(refusals("7: unsymmetric too"), wanted);
    assert_eq!(refusals("7: bit patterns"), [at(1, 1); 10]);
}

#[test]
fn places_of_unsymmetric_pairs() {
    let at = |i, j| (8, i, j);
    let wanted = [
        at(0, 1),
        at(0, 1),
        at(0, 1),
        at(0, 1),
        at(3, 4),
        at(3, 4),
        at(0, 4),
        at(0, 4),
        at(1, 2),
        at(2, 3),
        at(46, 47),
    ];
    assert_eq!(refusals("8: places"), wanted);
    let wanted = [at(0, 2), at(1, 2), at(0, 1), at(0, 1)];
    assert_eq!(refusals("8: signs and high bits"), wanted);
}

#[test]
fn runs_are_refused_at_their_steps() {
    let wanted = |aims: Vec<steps::Aim>| -> Vec<(u8, u8, u8)> {
        let refusal = |(_, _, step)| (NOT_FINITE, step as u8, 0);
        aims.into_iter().map(refusal).collect()
    };
    assert_eq!(refusals(steps::AT_STEP), wanted(steps::aims()));
    assert_eq!(refusals(steps::HALF_WAY), wanted(steps::half_ways()));
}

#[test]
fn every_method_is_refused_first_last_and_half_way() {
    for method in GMW81..=SE99 {
        let last = if method == GMW81 { 47 } else { 46 };
        assert!(steps::aims().contains(&(method, 5, 0)));
        assert!(steps::aims().contains(&(method, 5, 2)));
        assert!(steps::aims().contains(&(method, 48, last)));
        assert!(steps::half_ways().contains(&(method, 48, 24)));
    }
}

#[test]
fn a_refused_run_keeps_its_tie_and_its_phase() {
    for (method, reply) in (GMW81..).zip(replies("9: after a tie")) {
        let phase_two = (method != GMW81).then_some(2);
        assert_eq!((reply.tied, reply.phase_two), (Some(0), phase_two));
        assert_eq!(reply.outcome.unwrap_err().place, [2, 0]);
    }
}

/// How many roots of a complete run are inexact, and of how many.
fn inexact(reply: &Reply) -> Option<(usize, usize)> {
    let answer = reply.outcome.as_ref().ok()?;
    Some((answer.inexact, answer.p.len()))
}

#[test]
fn exact_and_inexact_roots_occur_in_each_method() {
    for method in GMW81..=SE99 {
        let replies = replies(roots::KIND);
        let own = replies
            .iter()
            .filter(|reply| reply.header.unwrap().0 == method);
        let seen: BTreeSet<(usize, usize)> = own.filter_map(inexact).collect();
        let exact = if method == GMW81 { (0, 4) } else { (0, 3) };
        let wanted = [(0, 1), (1, 1), (1, 2), (2, 2), (2, 4), exact];
        assert!(
            wanted.iter().all(|counts| seen.contains(counts)),
            "{seen:?}"
        );
    }
    let most = CASES.iter().filter_map(|(_, reply)| inexact(reply)).max();
    assert_eq!(most, Some((48, 48)));
}

#[test]
fn a_pivot_at_or_below_zero_is_met_at_every_step() {
    let met = |kind: &str| -> Vec<(u8, Judged)> {
        let all = judged_of(kind).into_iter();
        let se90 = all.filter(|(input, _)| input.method == SE90);
        se90.map(|(input, found)| (input.n, found)).collect()
    };
    let steps = |found: &[(u8, Judged)]| -> BTreeSet<(u8, usize)> {
        let each = found.iter();
        each.map(|(n, found)| (*n, found.not_positive.unwrap()))
            .collect()
    };
    let all = |least: u8| (least..=4).flat_map(|n| (0..n.into()).map(move |step| (n, step)));
    let (plain, numbered) = (met(pivots::KIND), met(pivots::NUMBERED));
    assert!(steps(&plain).into_iter().eq(all(1)));
    assert!(steps(&numbered).into_iter().eq(all(2)));
    assert!(numbered.iter().any(|(_, found)| found.ties.moved > 0));
    for found in [plain, numbered] {
        let tied = |found: &Judged| found.answer.tied == found.not_positive;
        let complete = |found: &Judged| found.answer.refusal == COMPLETE;
        let sorts = found.iter().map(|(_, f)| (tied(f), complete(f)));
        assert_eq!(sorts.collect::<BTreeSet<_>>().len(), 4);
    }
}

#[test]
fn numbers_are_checked_in_order() {
    let wanted = [2, 3, 3, 4].map(|number| (number, 0, 0));
    let later = [(12, 0, 0), (13, 1, 0), (7, 0, 0), (8, 0, 1)];
    assert_eq!(refusals(numbered::ORDER), [wanted, later].concat());
    let places = numbered::repeats().into_iter().map(|(_, at)| (13, at, 0));
    assert!(refusals(numbered::REPEATED).into_iter().eq(places));
}

#[test]
fn a_numbered_record_is_cut_and_tagged_at_every_byte() {
    let fields: BTreeSet<(u8, u8)> = refusals(numbered::CUT)
        .into_iter()
        .map(|(number, field, _)| (number, field))
        .collect();
    assert_eq!(fields, BTreeSet::from([(10, 2), (10, 3)]));
    assert_eq!(records(numbered::CUT).len(), 17 + 10 + 45);
    assert_eq!(refusals(numbered::TAGS), [(11, 3, 0); 255]);
    let orders = refusals(numbered::ORDERS).into_iter().map(|r| r.1);
    assert!(orders.eq([0, 1, 3, 1, 0, 2, 2, 3]));
}

/// What the second implementation found of the records of a kind.
fn judged_of(kind: &str) -> Vec<(Input, Judged)> {
    let judged = |input: Input| {
        let numbers = input.numbers.as_deref();
        let found = judged(input.method, input.n.into(), &input.matrix, numbers);
        (input, found)
    };
    inputs(kind).into_iter().map(judged).collect()
}

#[test]
fn ties_are_settled_by_number() {
    let all = judged_of(numbered::TIES);
    let settled = |method: u8, count: fn(&Judged) -> usize| {
        let own = all.iter().filter(|(input, _)| input.method == method);
        own.filter(|(_, found)| count(found) > 0).count()
    };
    assert!((GMW81..=SE99).all(|m| settled(m, |found| found.ties.moved) > 4));
    assert!([SE90, SE99]
        .iter()
        .all(|&m| settled(m, |found| found.ties.moved_unreported) > 2));
    let smallest = judged_of(numbered::SMALLEST);
    assert_eq!(smallest.len(), 18);
    assert!(smallest
        .iter()
        .all(|(_, found)| found.answer.tied == Some(1)));
}

/// Where no tie is settled otherwise than by position, the answer without numbers is the same.
#[test]
fn numbers_change_nothing_else() {
    let mut same = 0;
    let generated = "numbered: generated";
    for kind in [
        numbered::SMALLEST,
        numbered::TIES,
        generated,
        pivots::NUMBERED,
    ] {
        for (input, found) in judged_of(kind) {
            if found.ties.moved + found.ties.moved_unreported == 0 {
                let without = answer(input.method, input.n.into(), &input.matrix, None);
                let header = (input.method, input.n);
                let [x, y] = [found.answer, without].map(|answer| replied(header, answer).record());
                assert_eq!(x, y);
                same += 1;
            }
        }
    }
    assert!(same > 15, "{same}");
}

#[test]
fn two_loadings_of_numbered_gmw81_are_alike() {
    let answers: Vec<Answer> = replies(numbered::LOADINGS)
        .into_iter()
        .map(|reply| reply.outcome.unwrap())
        .collect();
    for pair in answers.chunks(2) {
        assert_eq!((&pair[0].l, pair[0].tied), (&pair[1].l, pair[1].tied));
    }
    assert_eq!(answers.len(), 16);
}

fn inputs(kind: &str) -> Vec<Input> {
    let own = CASES.iter().filter(|(entry, _)| entry.kind == kind);
    own.map(|(entry, _)| checked(&entry.record).unwrap())
        .collect()
}

#[test]
fn ties_come_at_their_step_in_each_method() {
    let given = ties::GIVEN
        .iter()
        .flat_map(|&aim| [(GMW81, aim), (SE90, aim), (SE99, aim)]);
    for (input, (method, (n, step))) in inputs(ties::KIND).iter().zip(given) {
        assert_eq!((input.method, usize::from(input.n)), (method, n));
        let answer = answer(method, n, &input.matrix, None);
        assert_eq!(answer.tied, Some(step));
        assert!(answer.phase_two.is_none_or(|phase_two| phase_two > step));
        only_rounding_ties(n, &input.matrix, step, &answer);
    }
    assert_eq!(inputs(ties::KIND).len(), 3 * ties::GIVEN.len());
    assert!(ties::GIVEN.contains(&(48, 29)));
}

/// Nothing is added before the tied step, so that what is left there is the matrix's Schur
/// complement. No two of its diagonal entries are equal, or equal in magnitude.
fn only_rounding_ties(n: usize, matrix: &[f64], step: usize, answer: &Answer) {
    let entries: BTreeSet<u64> = matrix.iter().map(|x| x.abs().to_bits()).collect();
    assert_eq!(entries.len(), n * (n + 1) / 2, "no two entries are equal");
    let pivots = &answer.p[..step];
    assert!(pivots.iter().all(|&row| answer.e[row] == 0.0));
    let left = residue::diagonal_after(n, matrix, pivots);
    let either_sign: BTreeSet<u64> = left
        .iter()
        .flat_map(|&x| [x, residue::negative(x)])
        .collect();
    assert_eq!(either_sign.len(), 2 * (n - step));
}

#[test]
fn pairs_differ_in_one_last_bit_and_in_the_phase_two_step() {
    let mut large = BTreeMap::new();
    for pair in sides::pairs() {
        let [first, second] = &pair.matrices;
        let n = first.rows();
        differ_in_one_last_bit(first, second);
        let answers = [first, second].map(|m| answer(pair.method, n, m.entries(), None));
        let [early, late] = answers.each_ref().map(|answer| answer.phase_two);
        assert_eq!(
            ending(pair.method, first),
            early.map(|step| (step, pair.test))
        );
        assert!(early.is_some() && late.is_none_or(|late| Some(late) > early));
        // It isn't another pivot that makes the difference.
        let pivots = answers.each_ref().map(|answer| &answer.p[..early.unwrap()]);
        assert_eq!(pivots[0], pivots[1]);
        let name = format!("{} {:?}", pair.method, pair.test);
        let largest = large.entry(name).or_insert(0);
        *largest = n.max(*largest);
    }
    let sizes: Vec<_> = large.iter().map(|(name, n)| (name.as_str(), *n)).collect();
    let wanted = [
        ("2 Pivot", 2),
        ("2 Tmp", 48),
        ("3 AiiMax", 17),
        ("3 AiiMin", 48),
        ("3 Tmp", 48),
    ];
    assert_eq!(sizes, wanted);
}

fn differ_in_one_last_bit(first: &Symmetric, second: &Symmetric) {
    let n = first.rows();
    let lower = (0..n).flat_map(|i| (0..=i).map(move |j| (i, j)));
    let others: Vec<_> = lower
        .map(|(i, j)| (first.get(i, j), second.get(i, j)))
        .filter(|(x, y)| x.to_bits() != y.to_bits())
        .collect();
    assert_eq!(others.len(), 1);
    let (x, y) = others[0];
    assert!(x.next_up() == y || x.next_down() == y, "{x} {y}");
}

#[test]
fn some_pairs_meet_the_bound_itself() {
    let single = |entry: f64| Symmetric::from_entries(1, &[entry]);
    for zero in [0.0, -0.0] {
        assert_eq!(ending(SE90, &single(zero)), Some((0, Test::Pivot)));
    }
    assert_eq!(ending(SE90, &single(f64::from_bits(1))), None);
    let diagonal = |last: f64| Symmetric::from_entries(2, &[1.0, 0.0, 0.0, last]);
    assert_eq!(ending(SE90, &diagonal(TAU)), None);
    assert_eq!(
        ending(SE90, &diagonal(TAU.next_down())),
        Some((0, Test::Tmp))
    );
    assert_eq!(ending(SE99, &diagonal(TAU)), None);
    assert_eq!(
        ending(SE99, &diagonal(TAU.next_down())),
        Some((1, Test::AiiMax))
    );
    assert_eq!(ending(SE99, &diagonal(-0.1)), Some((1, Test::AiiMax)));
    assert_eq!(
        ending(SE99, &diagonal((-0.1f64).next_down())),
        Some((0, Test::AiiMin))
    );
}

#[test]
fn phase_one_ends_where_the_oracle_says() {
    let accepted = CASES.iter().filter_map(|(e, _)| checked(&e.record).ok());
    for input in accepted.filter(|input| input.method != GMW81) {
        let n = input.n.into();
        let answer = answer(input.method, n, &input.matrix, None);
        if answer.refusal != NOT_FINITE {
            let ending = ending(input.method, &Symmetric::from_entries(n, &input.matrix));
            assert_eq!(ending.map(|(step, _)| step), answer.phase_two);
        }
    }
}

#[test]
fn every_kind_and_method_and_both_large_sizes_occur() {
    let headers = |kind: &str| -> BTreeSet<(u8, u8)> {
        let replies = replies(kind);
        replies.iter().filter_map(|reply| reply.header).collect()
    };
    let mut large = BTreeSet::new();
    for kind in KINDS {
        let headers = headers(&format!("generated: {kind:?}"));
        let methods: BTreeSet<u8> = headers.iter().map(|(method, _)| *method).collect();
        assert!(methods.into_iter().eq(GMW81..=SE99), "{kind:?}");
        large.extend(headers.into_iter().filter(|(_, n)| *n > 46));
    }
    for method in GMW81..=SE99 {
        assert!(large.contains(&(method, 47)) && large.contains(&(method, 48)));
    }
}
