//! What each call owes on every input: the questions that fit the call, in the paper's order, and then what the oracle finds.
//! With an answer goes what is to stand at the front of each lent table; a refusal writes nothing.
use crate::answers::{refusal, Answer, Record, Refusal};
use crate::forms::Form;
use crate::oracle::{self, Change, Changed, Columns, Margins, Tree};

pub type Owed<W> = Result<(Answer, W), Refusal>;

/// Questions 1, 2, 14 and 3 to 6.
fn tree_of(file: &[u8], input: u16) -> Result<Tree, Refusal> {
    Ok(Tree::of(&oracle::read_plan(file, input)?))
}

/// Question 7.
fn is_position(at: usize, n: usize, input: u16) -> Result<(), Refusal> {
    if at < n { Ok(()) } else { Err(refusal(7, input, 0)) }
}

/// Question 8.
fn has_room(room: usize, wanted: usize) -> Result<(), Refusal> {
    if room >= wanted { Ok(()) } else { Err(refusal(8, 0, 0)) }
}

/// Question 9 of a tag file; the number of its tags.
fn tag_count(form: Form, tags: &[u8]) -> Result<usize, Refusal> {
    if tags.len() % form.bytes() == 0 { Ok(tags.len() / form.bytes()) } else { Err(refusal(9, 0, 0)) }
}

/// Question 10 of numbers that are to be written.
fn are_fields(fields: &[u16]) -> Result<(), Refusal> {
    if fields.iter().all(|&field| field <= 2047) { Ok(()) } else { Err(refusal(10, 0, 0)) }
}

pub fn validate(file: &[u8]) -> Owed<()> {
    let plan = oracle::read_plan(file, 0)?;
    Ok((Answer::Accepted { plan: plan.number, windows: plan.windows.len() as u16 }, ()))
}

pub fn build(file: &[u8], rooms: [usize; 5], tag_room: usize) -> Owed<Columns> {
    let tree = tree_of(file, 0)?;
    for room in rooms {
        has_room(room, tree.n)?;
    }
    has_room(tag_room, 10 * tree.n)?;
    Ok((tree.built(), tree.columns()))
}

pub fn tags(form: Form, file: &[u8], room: usize) -> Owed<Vec<u8>> {
    let plan = oracle::read_plan(file, 0)?;
    if form == Form::Short {
        oracle::is_even(&plan)?;
    }
    let tree = Tree::of(&plan);
    has_room(room, form.bytes() * tree.n)?;
    Ok((tree.built(), tree.tag_file(form)))
}

/// The rooms are those for the changed plan and for its tag file, and both are asked for as many windows as it has.
pub fn change(file: &[u8], change: &Change, rooms: [usize; 2]) -> Owed<Changed> {
    let plan = oracle::read_plan(file, 0)?;
    oracle::may_change(&plan, change)?;
    let plan = oracle::changed(&plan, change);
    let file = plan.file();
    has_room(rooms[0], file.len())?;
    has_room(rooms[1], 10 * plan.windows.len())?;
    let tree = Tree::of(&plan);
    Ok((tree.built(), Changed { file, tags: tree.tag_file(Form::Long) }))
}

pub fn reach(file: &[u8], at: usize) -> Owed<()> {
    let tree = tree_of(file, 0)?;
    is_position(at, tree.n, 0)?;
    Ok((oracle::reach(at, &tree.all_distances()), ()))
}

pub fn chain(file: &[u8], first: usize, second: usize, room: usize) -> Owed<Vec<u16>> {
    let tree = tree_of(file, 0)?;
    is_position(first, tree.n, 0)?;
    is_position(second, tree.n, 1)?;
    let (earlier, later) = (first.min(second), first.max(second));
    let Some(list) = tree.earliest(&tree.distances(later), &tree.distances(earlier), earlier) else {
        return Ok((Answer::NoChain, Vec::new()));
    };
    has_room(room, list.len())?;
    Ok((Answer::Chain(list.len() as u16), list))
}

pub fn neighbours(file: &[u8], at: usize, room: usize) -> Owed<Vec<u16>> {
    let tree = tree_of(file, 0)?;
    is_position(at, tree.n, 0)?;
    let members = tree.neighbours(at);
    has_room(room, members.len())?;
    Ok((Answer::Neighbours(members.len() as u16), members))
}

/// What is written is the one number.
pub fn margin(file: &[u8], first: usize, second: usize) -> Owed<Vec<i64>> {
    let plan = oracle::read_plan(file, 0)?;
    let n = plan.windows.len();
    is_position(first, n, 0)?;
    is_position(second, n, 1)?;
    Ok((Answer::Margin, vec![Margins::of(&plan).between(first, second)]))
}

pub fn same(first: &[u8], second: &[u8]) -> Owed<()> {
    let (a, b) = (tree_of(first, 0)?, tree_of(second, 1)?);
    Ok((if a.same_as(&b) { Answer::Same } else { Answer::Different }, ()))
}

pub fn pair(form: Form, first: &[u8], second: &[u8]) -> Owed<()> {
    Ok((oracle::pair(form, first, second)?, ()))
}

pub fn pair_at(form: Form, tags: &[u8], first: usize, second: usize) -> Owed<()> {
    let n = tag_count(form, tags)?;
    is_position(first, n, 0)?;
    is_position(second, n, 1)?;
    let length = form.bytes();
    pair(form, &tags[length * first..][..length], &tags[length * second..][..length])
}

/// In each record "the refusal by 7 of its first and then its second position, or else [...] what the pair call says of the two tags
/// found there, refusals included"; the positions stay, and the page has no refusal but 9.
pub fn page(tags: &[u8], asked: &[(usize, usize)]) -> Owed<Vec<Record>> {
    tag_count(Form::Long, tags)?;
    let tags: Vec<&[u8]> = tags.chunks(Form::Long.bytes()).collect();
    let found = |at: usize, input: u16| tags.get(at).copied().ok_or(refusal(7, input, 0));
    let says = |first: usize, second: usize| {
        let two = [found(first, 0)?, found(second, 1)?];
        oracle::pair(Form::Long, two[0], two[1])
    };
    let filled = |&(first, second): &(usize, usize)| {
        let answer = says(first, second).unwrap_or_else(Answer::Refused);
        Record { first, second, answer }
    };
    Ok((Answer::Filled, asked.iter().map(filled).collect()))
}

/// What is written is where the tag begins.
pub fn lookup(tags: &[u8], at: usize) -> Owed<Option<usize>> {
    is_position(at, tag_count(Form::Long, tags)?, 0)?;
    Ok((Answer::Found, Some(10 * at)))
}

pub fn write(tag: &[u16], room: usize) -> Owed<Vec<u8>> {
    has_room(room, 2 * tag.len())?;
    are_fields(&tag[1..])?;
    Ok((Answer::Written, oracle::tag_bytes(tag)))
}
