//! Pages of pairs (paper 02, Q-4): those of a plan's tags, against the search; those whose tags and records are chosen; and those that are
//! drawn, over any bytes as the tag file.
use crate::answers::{refusal, Answer, Record};
use crate::compare::{positions_past, Comparison};
use crate::field;
use crate::forms::Form;
use crate::oracle::tag_bytes;
use crate::random::Random;
use crate::refusals;

/// Up to so many windows a page has every two of them, and of more windows it has pairs that are drawn.
const EVERY_PAIR: usize = 32;

const DRAWN_PAIRS: usize = 10_000;

fn within(n: usize, random: &mut Random) -> usize {
    random.below(n.max(1) as u64) as usize
}

/// Two positions, of which at least one is past n tags.
fn past(n: usize, random: &mut Random) -> (usize, usize) {
    let within = within(n, random);
    let [first, second] = [(); 2].map(|_| {
        let past = positions_past(n, random);
        random.pick(&past)
    });
    random.pick(&[(first, within), (within, second), (first, second)])
}

/// Bad records before, between and behind the others.
fn strewn(pairs: Vec<(usize, usize)>, n: usize, random: &mut Random) -> Vec<(usize, usize)> {
    let mut asked = Vec::new();
    for pair in pairs {
        if random.below(8) == 0 {
            asked.push(past(n, random));
        }
        asked.push(pair);
    }
    asked.push(past(n, random));
    asked
}

impl Comparison {
    /// A page over a plan's tag file, with positions that it does not have here and there.
    pub fn page_of_plan(&mut self, tags: &[u8], distances: &[Vec<Option<u16>>]) {
        let n = distances.len();
        let random = &mut self.random;
        let pairs = match n {
            0..=EVERY_PAIR => (0..n).flat_map(|u| (0..n).map(move |v| (u, v))).collect(),
            _ => (0..DRAWN_PAIRS).map(|_| (within(n, random), within(n, random))).collect(),
        };
        let asked = strewn(pairs, n, random);
        let answer = |first: usize, second: usize| match (first < n, second < n) {
            (false, _) => Answer::Refused(refusal(7, 0, 0)),
            (true, false) => Answer::Refused(refusal(7, 1, 0)),
            (true, true) => distances[first][second].map_or(Answer::NoChain, Answer::Handovers),
        };
        let record = |&(first, second): &(usize, usize)| Record { first, second, answer: answer(first, second) };
        let records = asked.iter().map(record).collect();
        let what = format_args!("page of {} records, {n} windows", asked.len());
        self.page(tags, &asked).are(what, Answer::Filled, &records);
    }
}

/// A page says this of each two positions.
pub fn says(comparison: &mut Comparison, tags: &[u8], due: &[(usize, usize, Answer)]) {
    let asked: Vec<(usize, usize)> = due.iter().map(|&(first, second, _)| (first, second)).collect();
    let records = due.iter().map(|&(first, second, answer)| Record { first, second, answer }).collect();
    comparison.page(tags, &asked).are(format_args!("page of {asked:?}"), Answer::Filled, &records);
}

/// Windows 4, 5 and 6 of plan 12. Behind them, beside the first: with a field that is too great, of another plan, at another depth.
const TAGS: [[u16; 5]; 6] =
    [[12, 0, 2, 2, 1], [12, 0, 3, 1, 1], [12, 1, 0, 0, 0], [12, 0, 2, 2, 2048], [13, 0, 2, 2, 1], [12, 0, 1, 2, 1]];

/// Every refusal that a record can hold, with question 7 of both positions before 10 of either tag, and so on in the paper's order.
fn bad_records() -> Vec<(usize, usize, Answer)> {
    let bad = |first, second, number, input| (first, second, Answer::Refused(refusal(number, input, 0)));
    vec![
        bad(6, 0, 7, 0),
        bad(0, 6, 7, 1),
        bad(6, 6, 7, 0),
        bad(usize::MAX, 7, 7, 0),
        bad(3, 6, 7, 1),
        bad(6, 3, 7, 0),
        bad(3, 0, 10, 0),
        bad(0, 3, 10, 1),
        bad(3, 3, 10, 0),
        bad(3, 4, 10, 0),
        bad(4, 3, 10, 1),
        bad(4, 0, 11, 1),
        bad(0, 4, 11, 1),
        bad(4, 5, 11, 1),
        bad(5, 0, 12, 1),
        bad(0, 5, 12, 1),
    ]
}

/// Each bad record alone, and each one and each two before, between and behind good ones, which they do not spoil.
pub fn bad_among_good(comparison: &mut Comparison) {
    let tags: Vec<u8> = TAGS.iter().flat_map(|tag| tag_bytes(tag)).collect();
    let [one, two, none] = [(0, 1, Answer::Handovers(1)), (2, 2, Answer::Handovers(0)), (1, 2, Answer::NoChain)];
    says(comparison, &tags, &[one, two, none]);
    for bad in bad_records() {
        says(comparison, &tags, &[bad]);
        for page in [[bad, one, none], [one, bad, none], [none, two, bad]] {
            says(comparison, &tags, &page);
        }
        for other in bad_records() {
            says(comparison, &tags, &[one, bad, other, none, bad, two, other, one]);
        }
    }
}

/// A tag file of all tags that are ten bytes long, and a page of each two of them: 10 of the first tag, 10 of the second, and then 11, 12
/// or what the oracle finds, each of which some record has.
pub fn faulty_tags(comparison: &mut Comparison) {
    let tags: Vec<(u16, Vec<u8>)> = refusals::tags(Form::Long).into_iter().filter(|(_, tag)| tag.len() == 10).collect();
    let file: Vec<u8> = tags.iter().flat_map(|(_, tag)| tag.clone()).collect();
    let asked: Vec<(usize, usize)> = (0..tags.len()).flat_map(|u| (0..tags.len()).map(move |v| (u, v))).collect();
    let both = comparison.page(&file, &asked);
    both.agree(format_args!("page of faulty tags"));
    for record in &both.written {
        let due = match (tags[record.first].0, tags[record.second].0) {
            (0, 0) => continue,
            (0, number) => refusal(number, 1, 0),
            (number, _) => refusal(number, 0, 0),
        };
        assert_eq!(record.answer, Answer::Refused(due), "the oracle's page of faulty tags");
    }
    let refused = [(10, 0), (10, 1), (11, 1), (12, 1)].map(|(number, input)| Answer::Refused(refusal(number, input, 0)));
    for answer in refused.into_iter().chain([Answer::NoChain, Answer::Handovers(0), Answer::Handovers(1)]) {
        assert!(both.written.iter().any(|record| record.answer == answer), "no record has {answer:?}");
    }
}

/// So many bytes of tags that differ from one to the next.
fn tag_file(bytes: usize) -> Vec<u8> {
    let tag = |i: usize| tag_bytes(&[12, (i % 2) as u16, (i % 5) as u16, (i % 2048) as u16, (i / 7 % 2048) as u16]);
    (0..=bytes / 10).flat_map(tag).take(bytes).collect()
}

/// Tag files of every length, the last with more tags than 16 bits can count. A wrong one refuses every page, an empty one too, and
/// fills nothing.
pub fn tag_files(comparison: &mut Comparison) {
    let edges = [7, 2048, 2049, 65_535, 65_536, 65_537].into_iter().flat_map(|n| [10 * n - 1, 10 * n, 10 * n + 1]);
    for length in (0..=41).chain(edges) {
        let tags = tag_file(length);
        let n = length / 10;
        let ends = [n.saturating_sub(2), n.saturating_sub(1), n, n + 1, 65_534, 65_535, 65_536];
        let positions: Vec<usize> = refusals::positions(n.min(4)).into_iter().chain(ends).collect();
        let asked: Vec<(usize, usize)> = positions.iter().flat_map(|&u| positions.iter().map(move |&v| (u, v))).collect();
        for page in [&asked[..], &asked[..1], &[]] {
            let what = format_args!("page of {} records in {length} bytes", page.len());
            let both = comparison.page(&tags, page);
            match length % 10 {
                0 => both.are(what, Answer::Filled, &both.written),
                _ => both.are(what, Answer::Refused(refusal(9, 0, 0)), &vec![]),
            }
        }
    }
}

/// More records than 16 bits can count, on a tag file of as many tags.
pub fn many_records(comparison: &mut Comparison) {
    let (n, random) = (65_535, &mut comparison.random);
    let asked = strewn((0..70_000).map(|_| (within(n, random), within(n, random))).collect(), n, random);
    let tags = tag_file(10 * n);
    comparison.page(&tags, &asked).agree(format_args!("page of {} records, {n} tags", asked.len()));
    comparison.page(&tags[1..], &asked).are(format_args!("page, a byte too few"), Answer::Refused(refusal(9, 0, 0)), &vec![]);
}

/// Most of the times a tag of the plan with small fields, so that two of them have any answer.
fn any_tag(plan: u16, random: &mut Random) -> Vec<u8> {
    let number = if random.below(12) == 0 { plan ^ 1 << random.below(16) } else { plan };
    let fields = [2, 6, 4, 4].map(|limit| if random.below(16) == 0 { field(random) } else { random.below(limit) as u16 });
    tag_bytes(&[&[number], &fields[..]].concat())
}

/// A page of some records over tags that no plan has; now and then the tag file is cut, or longer.
pub fn any_page(comparison: &mut Comparison) {
    let random = &mut comparison.random;
    let plan = random.next() as u16;
    let n = random.below(24) as usize;
    let mut tags: Vec<u8> = (0..n).flat_map(|_| any_tag(plan, random)).collect();
    if random.below(8) == 0 {
        let length = random.below(30 + 10 * n as u64) as usize;
        tags.resize(length, 0);
    }
    let n = tags.len() / 10;
    let pairs = (0..random.below(40)).map(|_| (within(n, random), within(n, random))).collect();
    let asked = strewn(pairs, n, random);
    comparison.page(&tags, &asked).agree(format_args!("page of {asked:?} in {tags:?}"));
}
