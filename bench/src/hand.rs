//! The same algorithms by hand in Rust, as one would write them for release: slices, iterators where they spare a bounds
//! check, fixed scratch on the stack, the same questions and the same answers.
use crate::interface::Query;
use std::cmp::{max, min};

#[derive(Clone, Copy, PartialEq, Eq, Debug)]
pub struct Refusal {
    pub number: u8,
    pub input: u8,
    pub position: u16,
}

impl Refusal {
    /// As the library answers it.
    pub fn packed(self) -> u64 {
        (self.number as u64) << 16 | (self.input as u64) << 32 | (self.position as u64) << 48
    }
}

fn no<T>(number: u8, input: u8, position: usize) -> Result<T, Refusal> {
    Err(Refusal { number, input, position: position as u16 })
}

const MOST: usize = 2048;
const LATEST: u64 = 4_294_967_295;

fn two(bytes: &[u8], at: usize) -> u16 {
    u16::from_le_bytes([bytes[at], bytes[at + 1]])
}

fn four(bytes: &[u8], at: usize) -> u32 {
    u32::from_le_bytes(bytes[at..at + 4].try_into().unwrap())
}

/// Offset and length.
fn window(pair: &[u8]) -> (u32, u32) {
    (four(pair, 0), four(pair, 4))
}

/// A file that meets no refusal.
struct Plan<'a> {
    number: u16,
    minimum: u32,
    pairs: &'a [u8],
}

fn validate(file: &[u8]) -> Result<Plan<'_>, Refusal> {
    if file.len() < 8 {
        return no(1, 0, 0);
    }
    let windows = two(file, 2) as usize;
    if windows > MOST {
        return no(2, 0, 0);
    }
    let (head, pairs) = file.split_at(8);
    let minimum = four(head, 4);
    if !(1..=86_400).contains(&minimum) {
        return no(14, 0, 0);
    }
    if pairs.len() != 8 * windows {
        return no(3, 0, 0);
    }
    let mut before = 0;
    for (position, pair) in pairs.chunks_exact(8).enumerate() {
        let (offset, length) = window(pair);
        if length < minimum {
            return no(4, 0, position);
        }
        if offset as u64 + length as u64 > LATEST {
            return no(5, 0, position);
        }
        if offset < before {
            return no(6, 0, position);
        }
        before = offset;
    }
    Ok(Plan { number: two(head, 0), minimum, pairs })
}

struct Spans {
    offsets: [u32; MOST],
    ends: [u32; MOST],
}

fn spans(pairs: &[u8]) -> Spans {
    let mut spans = Spans { offsets: [0; MOST], ends: [0; MOST] };
    let places = spans.offsets.iter_mut().zip(&mut spans.ends);
    for (pair, (offset, end)) in pairs.chunks_exact(8).zip(places) {
        let (start, length) = window(pair);
        *offset = start;
        *end = start + length;
    }
    spans
}

fn find_parents(minimum: u32, offsets: &[u32], ends: &[u32], parents: &mut [u16]) {
    let mut parent = 0;
    for (v, (&offset, entry)) in offsets.iter().zip(parents).enumerate() {
        let needed = offset + minimum;
        while parent < v && ends[parent] < needed {
            parent += 1;
        }
        *entry = parent as u16;
    }
}

/// Answers with the number of components.
fn number_levels(parents: &[u16], components: &mut [u16], depths: &mut [u16]) -> u16 {
    let mut roots = 0;
    for (v, (&parent, component)) in parents.iter().zip(components).enumerate() {
        let parent = parent as usize;
        if parent == v {
            roots += 1;
            depths[v] = 0;
        } else {
            depths[v] = depths[parent] + 1;
        }
        *component = roots - 1;
    }
    roots
}

fn find_ranks(parents: &[u16], ranks: &mut [u16]) {
    let (mut sizes, mut next) = ([1u16; MOST], [0u16; MOST]);
    for (v, &parent) in parents.iter().enumerate().rev() {
        if (parent as usize) < v {
            sizes[parent as usize] += sizes[v];
        }
    }
    for (v, (&parent, rank)) in parents.iter().zip(ranks).enumerate() {
        let parent = parent as usize;
        let mut start = 0;
        if parent != v {
            start = next[parent];
            next[parent] += sizes[v];
        }
        next[v] = start;
        *rank = start + sizes[v] - 1;
    }
}

fn rank_lasts(minimum: u32, offsets: &[u32], ends: &[u32], ranks: &[u16], last_ranks: &mut [u16]) {
    for (v, (&end, entry)) in ends.iter().zip(last_ranks).enumerate() {
        // With `<=` each step of the search takes an instruction more.
        let bound = end - minimum + 1;
        let later = offsets[v..].partition_point(|&offset| offset < bound);
        *entry = ranks[v + later - 1];
    }
}

fn write_tags(plan: u16, tables: [&[u16]; 4], tags: &mut [u8]) {
    let [components, depths, ranks, last_ranks] = tables;
    let numbers = components.iter().zip(depths).zip(ranks).zip(last_ranks);
    for (tag, (((component, depth), rank), last)) in tags.chunks_exact_mut(10).zip(numbers) {
        for (two, number) in tag.chunks_exact_mut(2).zip([plan, *component, *depth, *rank, *last]) {
            two.copy_from_slice(&number.to_le_bytes());
        }
    }
}

/// Plan number, windows, components.
#[no_mangle]
#[inline(never)]
pub fn hand_build(file: &[u8], tables: [&mut [u16]; 5], tags: &mut [u8]) -> Result<(u16, u16, u16), Refusal> {
    let Plan { number, minimum, pairs } = validate(file)?;
    let n = pairs.len() / 8;
    if tables.iter().any(|table| table.len() < n) || tags.len() < 10 * n {
        return no(8, 0, 0);
    }
    let [parents, components, depths, ranks, last_ranks] = tables.map(|table| &mut table[..n]);
    let spans = spans(pairs);
    let (offsets, ends) = (&spans.offsets[..n], &spans.ends[..n]);
    find_parents(minimum, offsets, ends, parents);
    let count = number_levels(parents, components, depths);
    find_ranks(parents, ranks);
    rank_lasts(minimum, offsets, ends, ranks, last_ranks);
    write_tags(number, [components, depths, ranks, last_ranks], tags);
    Ok((number, n as u16, count))
}

/// The plan file of these windows, which come in parts, and its tag file, by the build above with all that it asks.
fn write_changed(
    plan: u16,
    minimum: u32,
    parts: [&[u8]; 3],
    changed: &mut [u8],
    tags: &mut [u8],
) -> Result<(u16, u16, u16), Refusal> {
    let n = parts.iter().map(|part| part.len()).sum::<usize>() / 8;
    if changed.len() < 8 + 8 * n || tags.len() < 10 * n {
        return no(8, 0, 0);
    }
    let changed = &mut changed[..8 + 8 * n];
    let (head, mut places) = changed.split_at_mut(8);
    head[..2].copy_from_slice(&plan.to_le_bytes());
    head[2..4].copy_from_slice(&(n as u16).to_le_bytes());
    head[4..].copy_from_slice(&minimum.to_le_bytes());
    for part in parts {
        let (place, behind) = places.split_at_mut(part.len());
        place.copy_from_slice(part);
        places = behind;
    }
    let mut tables = [[0; MOST]; 5];
    hand_build(changed, tables.each_mut().map(|table| &mut table[..]), tags)
}

/// Plan number, windows and components of the changed plan.
#[no_mangle]
#[inline(never)]
pub fn hand_add(
    file: &[u8],
    plan: u16,
    (offset, length): (u32, u32),
    changed: &mut [u8],
    tags: &mut [u8],
) -> Result<(u16, u16, u16), Refusal> {
    let Plan { number, minimum, pairs } = validate(file)?;
    let (windows, _) = pairs.as_chunks::<8>();
    if windows.len() == MOST {
        return no(15, 0, 0);
    }
    if plan == number {
        return no(16, 0, 0);
    }
    if length < minimum {
        return no(4, 0, 0);
    }
    if offset as u64 + length as u64 > LATEST {
        return no(5, 0, 0);
    }
    let (before, behind) = pairs.split_at(8 * windows.partition_point(|pair| window(pair).0 <= offset));
    let added = (offset as u64 | (length as u64) << 32).to_le_bytes();
    write_changed(plan, minimum, [before, &added, behind], changed, tags)
}

/// Plan number, windows and components of the changed plan.
#[no_mangle]
#[inline(never)]
pub fn hand_withdraw(file: &[u8], plan: u16, at: usize, changed: &mut [u8], tags: &mut [u8]) -> Result<(u16, u16, u16), Refusal> {
    let Plan { number, minimum, pairs } = validate(file)?;
    if plan == number {
        return no(16, 0, 0);
    }
    if at >= pairs.len() / 8 {
        return no(7, 0, 0);
    }
    write_changed(plan, minimum, [&pairs[..8 * at], &[], &pairs[8 * at + 8..]], changed, tags)
}

/// The first window that ends before the one ahead of it.
fn first_fall(ends: &[u32]) -> Option<usize> {
    let ahead = ends.windows(2).position(|two| two[1] < two[0])?;
    Some(ahead + 1)
}

fn write_short_tags(plan: u16, tables: [&[u16]; 3], tags: &mut [u8]) {
    let [components, depths, ranks] = tables;
    let numbers = components.iter().zip(depths).zip(ranks);
    for (tag, ((component, depth), rank)) in tags.chunks_exact_mut(8).zip(numbers) {
        for (two, number) in tag.chunks_exact_mut(2).zip([plan, *component, *depth, *rank]) {
            two.copy_from_slice(&number.to_le_bytes());
        }
    }
}

/// Plan number, windows, components.
#[no_mangle]
#[inline(never)]
pub fn hand_short_tags(file: &[u8], tags: &mut [u8]) -> Result<(u16, u16, u16), Refusal> {
    let Plan { number, minimum, pairs } = validate(file)?;
    let n = pairs.len() / 8;
    let spans = spans(pairs);
    let (offsets, ends) = (&spans.offsets[..n], &spans.ends[..n]);
    if let Some(position) = first_fall(ends) {
        return no(13, 0, position);
    }
    if tags.len() < 8 * n {
        return no(8, 0, 0);
    }
    let mut tables = [[0; MOST]; 4];
    let [parents, components, depths, ranks] = tables.each_mut().map(|table| &mut table[..n]);
    find_parents(minimum, offsets, ends, parents);
    let count = number_levels(parents, components, depths);
    find_ranks(parents, ranks);
    write_short_tags(number, [components, depths, ranks], tags);
    Ok((number, n as u16, count))
}

#[derive(Clone, Copy, PartialEq)]
struct Tag {
    plan: u16,
    component: u16,
    depth: u16,
    rank: u16,
    last: u16,
}

fn read_tag(bytes: &[u8], input: u8) -> Result<Tag, Refusal> {
    if bytes.len() != 10 {
        return no(9, input, 0);
    }
    let field = |i: usize| two(bytes, 2 * i);
    let tag = Tag { plan: field(0), component: field(1), depth: field(2), rank: field(3), last: field(4) };
    if max(max(tag.component, tag.depth), max(tag.rank, tag.last)) > 2047 {
        return no(10, input, 0);
    }
    Ok(tag)
}

/// Of two tags of one component and different ranks. Which of two random tags is u, and how they lie, no processor can foresee, so there
/// is a minimum, a maximum and a sum of comparisons in the place of branches.
fn handovers(a: Tag, b: Tag) -> u16 {
    let order = |tag: Tag| (tag.depth as u64) << 32 | (tag.rank as u64) << 16 | tag.last as u64;
    let (u, v) = (min(order(a), order(b)), max(order(a), order(b)));
    let (rank_u, rank_v, last_u) = ((u >> 16) as u16, (v >> 16) as u16, u as u16);
    let (rising, reached, around) = ((rank_u < rank_v) as u16, (rank_v <= last_u) as u16, (last_u < rank_u) as u16);
    ((v >> 32) - (u >> 32)) as u16 + 1 + rising - (rising + reached + around) / 2
}

/// The number of handovers, or none where no chain joins the windows.
fn compared(a: Tag, b: Tag) -> Result<Option<u16>, Refusal> {
    if a.plan != b.plan {
        return no(11, 1, 0);
    }
    if a.component != b.component {
        return Ok(None);
    }
    // Asked of every pair, whether two tags are equal takes as long as all else on sparse plans.
    if a.rank == b.rank {
        return if a == b { Ok(Some(0)) } else { no(12, 1, 0) };
    }
    Ok(Some(handovers(a, b)))
}

#[no_mangle]
#[inline(never)]
pub fn hand_pair(first: &[u8], second: &[u8]) -> Result<Option<u16>, Refusal> {
    let a = read_tag(first, 0)?;
    let b = read_tag(second, 1)?;
    compared(a, b)
}

fn pair_in(tags: &[[u8; 10]], first: usize, second: usize) -> Result<Option<u16>, Refusal> {
    let Some(first) = tags.get(first) else { return no(7, 0, 0) };
    let Some(second) = tags.get(second) else { return no(7, 1, 0) };
    compared(read_tag(first, 0)?, read_tag(second, 1)?)
}

/// An answer as a record holds it.
fn packed(answer: Result<Option<u16>, Refusal>) -> u64 {
    match answer {
        Ok(Some(count)) => 9 | (count as u64) << 16,
        Ok(None) => 5,
        Err(refusal) => refusal.packed(),
    }
}

/// Every record is filled; what is refused is said in its own.
#[no_mangle]
#[inline(never)]
pub fn hand_page(tags: &[u8], queries: &mut [Query]) -> Result<(), Refusal> {
    let (tags, rest) = tags.as_chunks::<10>();
    if !rest.is_empty() {
        return no(9, 0, 0);
    }
    for query in queries {
        query.answer = packed(pair_in(tags, query.first, query.second));
    }
    Ok(())
}

#[derive(Clone, Copy, PartialEq)]
struct ShortTag {
    plan: u16,
    component: u16,
    depth: u16,
    rank: u16,
}

fn read_short_tag(bytes: &[u8], input: u8) -> Result<ShortTag, Refusal> {
    if bytes.len() != 8 {
        return no(9, input, 0);
    }
    let field = |i: usize| two(bytes, 2 * i);
    let tag = ShortTag { plan: field(0), component: field(1), depth: field(2), rank: field(3) };
    if max(max(tag.component, tag.depth), tag.rank) > 2047 {
        return no(10, input, 0);
    }
    Ok(tag)
}

/// The number of handovers, or none where no chain joins the windows.
#[no_mangle]
#[inline(never)]
pub fn hand_short_pair(first: &[u8], second: &[u8]) -> Result<Option<u16>, Refusal> {
    let a = read_short_tag(first, 0)?;
    let b = read_short_tag(second, 1)?;
    if a.plan != b.plan {
        return no(11, 1, 0);
    }
    if a == b {
        return Ok(Some(0));
    }
    if a.component != b.component {
        return Ok(None);
    }
    if a.rank == b.rank {
        return no(12, 1, 0);
    }
    let (u, v) = if (a.depth, a.rank) < (b.depth, b.rank) { (a, b) } else { (b, a) };
    let levels = v.depth - u.depth;
    Ok(Some(if u.rank < v.rank { levels + 1 } else { levels }))
}

/// How many entries were written, or none where there is no chain.
#[no_mangle]
#[inline(never)]
pub fn hand_chain(file: &[u8], first: usize, second: usize, out: &mut [u16]) -> Result<Option<u16>, Refusal> {
    let Plan { minimum, pairs, .. } = validate(file)?;
    let n = pairs.len() / 8;
    if first >= n {
        return no(7, 0, 0);
    }
    if second >= n {
        return no(7, 1, 0);
    }
    let spans = spans(pairs);
    let mut parents = [0; MOST];
    find_parents(minimum, &spans.offsets[..n], &spans.ends[..n], &mut parents[..n]);
    let (earlier, later) = (min(first, second), max(first, second));
    let Some(steps) = steps_before(minimum, &spans, &parents, earlier, later) else { return Ok(None) };
    if out.len() <= steps {
        return no(8, 0, 0);
    }
    let mut at = later;
    for entry in &mut out[..steps] {
        *entry = at as u16;
        at = parents[at] as usize;
    }
    out[steps] = earlier as u16;
    Ok(Some(steps as u16 + 1))
}

/// How many windows stand before the earlier one on the chain.
fn steps_before(minimum: u32, spans: &Spans, parents: &[u16; MOST], earlier: usize, later: usize) -> Option<usize> {
    if earlier == later {
        return Some(0);
    }
    let latest = spans.ends[earlier] - minimum;
    let (mut at, mut steps) = (later, 1);
    while at > earlier && spans.offsets[at] > latest {
        let parent = parents[at] as usize;
        if parent == at {
            return None;
        }
        at = parent;
        steps += 1;
    }
    Some(steps)
}

/// How many positions were written.
#[no_mangle]
#[inline(never)]
pub fn hand_neighbours(file: &[u8], at: usize, out: &mut [u16]) -> Result<u16, Refusal> {
    let Plan { minimum, pairs, .. } = validate(file)?;
    if at >= pairs.len() / 8 {
        return no(7, 0, 0);
    }
    let (windows, _) = pairs.as_chunks::<8>();
    let (own_offset, own_length) = window(&windows[at]);
    let (latest, needed) = (own_offset + own_length - minimum, own_offset + minimum);
    // Offsets do not fall, so the windows behind it that overlap stand next to it.
    let behind = windows[at + 1..].partition_point(|pair| window(pair).0 <= latest);
    let found = || {
        let late = move |pair: &[u8; 8]| {
            let (offset, length) = window(pair);
            needed <= offset + length
        };
        let before = windows[..at].iter().enumerate().filter(move |&(_, pair)| late(pair)).map(|(v, _)| v);
        before.chain(at + 1..=at + behind).map(|v| v as u16)
    };
    let count = found().count();
    if out.len() < count {
        return no(8, 0, 0);
    }
    for (entry, v) in out.iter_mut().zip(found()) {
        *entry = v;
    }
    Ok(count as u16)
}

/// The window below the root on the way up to it; of a root, the root.
fn top_of(parents: &[u16], from: usize) -> usize {
    let mut at = from;
    loop {
        let parent = parents[at];
        if parents[parent as usize] == parent {
            return at;
        }
        at = parent as usize;
    }
}

struct Levels {
    /// How many levels lie behind the first.
    steps: u16,
    /// The first window of the last level.
    first: usize,
    /// The last window of the component.
    last: usize,
}

/// The levels from a window on: the next begins at the first window whose parent does not stand before this one.
fn levels_from(parents: &[u16], from: usize) -> Levels {
    let mut levels = Levels { steps: 0, first: from, last: from };
    for (v, &parent) in parents.iter().enumerate().skip(from + 1) {
        let parent = parent as usize;
        if parent == v {
            break;
        }
        if levels.first <= parent {
            levels.first = v;
            levels.steps += 1;
        }
        levels.last = v;
    }
    levels
}

fn end_of(pair: &[u8; 8]) -> u32 {
    let (offset, length) = window(pair);
    offset + length
}

/// Over the bytes of the file, since spans take longer to fill than they save here. An end is formed when the parent moves on to it.
fn find_parents_of(minimum: u32, windows: &[[u8; 8]], parents: &mut [u16]) {
    let Some(first) = windows.first() else { return };
    let (mut parent, mut end) = (0, end_of(first));
    for (v, (pair, entry)) in windows.iter().zip(parents).enumerate() {
        let needed = window(pair).0 + minimum;
        while parent < v && end < needed {
            parent += 1;
            end = end_of(&windows[parent]);
        }
        *entry = parent as u16;
    }
}

/// Handovers, the smaller position and the larger.
#[no_mangle]
#[inline(never)]
pub fn hand_reach(file: &[u8], at: usize) -> Result<(u16, u16, u16), Refusal> {
    let Plan { minimum, pairs, .. } = validate(file)?;
    let (windows, _) = pairs.as_chunks::<8>();
    if at >= windows.len() {
        return no(7, 0, 0);
    }
    let mut parents = [0; MOST];
    let parents = &mut parents[..windows.len()];
    find_parents_of(minimum, windows, parents);
    let root = parents[top_of(parents, at)] as usize;
    let Levels { steps, first, last } = levels_from(parents, root);
    let top = top_of(parents, last);
    let needed = window(&windows[top]).0 + minimum;
    let Some(before) = windows[root..top].iter().position(|pair| end_of(pair) < needed) else {
        return Ok((steps, root as u16, first as u16));
    };
    // A window that does not overlap the top is a step farther from the last than the root is.
    let smaller = root + before;
    let latest = end_of(&windows[smaller]) - minimum;
    let apart = smaller + windows[smaller..].partition_point(|pair| window(pair).0 <= latest);
    Ok((steps + 1, smaller as u16, levels_from(parents, apart).first as u16))
}

/// Minutes shared, or below 0 those between the two.
#[no_mangle]
#[inline(never)]
pub fn hand_margin(file: &[u8], first: usize, second: usize) -> Result<i64, Refusal> {
    let Plan { pairs, .. } = validate(file)?;
    let (windows, _) = pairs.as_chunks::<8>();
    let Some(first) = windows.get(first) else { return no(7, 0, 0) };
    let Some(second) = windows.get(second) else { return no(7, 1, 0) };
    let end = min(end_of(first), end_of(second));
    let offset = max(window(first).0, window(second).0);
    Ok(end as i64 - offset as i64)
}
