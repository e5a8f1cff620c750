//! The writer of schema files without unused types beside plain Rust of the same, which reads the file and asks its questions likewise.
use crate::engine;
use crate::expressions;
use crate::longest::{in_any_order, longest, longest_spread, one_of_each_tag};
use crate::measure::{Asked, agree, heading, in_turn, row};
use crate::random::Random;
use crate::schemas::{Type, competing_roots, layered, leaf, schema, schema_file, small, wide};
use plain::codes::{DONE, END, OPEN_BRACKET, ROOT, TYPE, USE};
use plain::questions::{COMPETITION, NO_ROOM, Number};
use plain::{Schema, write_reduced};
use std::hint::black_box;

type Write = fn(&[u8], &mut [u8]) -> Result<usize, Number>;

const WRITERS: [Write; 2] = [engine::write_reduced, write_reduced];

/// The highest ratio that is asked of a file whose own bytes lead.
const RATIO: f64 = 1.3;

/// Room for each written file here.
const ROOM: usize = 32 * 1024;

/// What is timed: a file, and the bytes that are written of it, or its number.
struct Case {
    name: &'static str,
    file: Vec<u8>,
    room: usize,
    answer: Result<usize, Number>,
    asked: Asked,
}

/// Whether both answer this and leave the same bytes, those past the written file unchanged.
fn same(file: &[u8], room: usize) -> bool {
    const BLANK: u8 = 0xA5;
    let [proved, plain] = WRITERS.map(|write| {
        let mut out = vec![BLANK; room];
        let answer = write(file, &mut out);
        (answer, out)
    });
    let past = &proved.1[proved.0.unwrap_or(0)..];
    proved == plain && past.iter().all(|&byte| byte == BLANK)
}

/// A row for a file. Whether the answers agree.
fn report(case: &Case) -> bool {
    let [mut ours, mut theirs] = [vec![0; case.room], vec![0; case.room]];
    let once = |write: Write, out: &mut [u8]| {
        let answer = black_box(write(black_box(&case.file), out));
        assert_eq!(answer, case.answer, "{}", case.name);
    };
    let times = in_turn(&mut [&mut || once(WRITERS[0], &mut ours), &mut || {
        once(WRITERS[1], &mut theirs)
    }]);
    let what = match case.answer {
        Ok(length) => format!("{}: {length}", case.name),
        Err(number) => format!("{}: gets {number}", case.name),
    };
    row(&what, &case.file.len().to_string(), &times, case.asked);
    agree(same(&case.file, case.room))
}

/// A type of 4 states with 16 steps by types in turn, from the given one on; all its states are accepting, or none.
fn sixteen_steps(tag: u8, first: u8, accepting: bool) -> Type {
    let step = |n: u8| [n / 4, (first + n) % 64, (first + n) % 4];
    Type {
        tag,
        states: 4,
        accepting: if accepting { 0b1111 } else { 0 },
        steps: (0..16).map(step).collect(),
    }
}

/// 64 types of 16 steps, of which every second bears no tree: half of the types go, and half of the steps of those that stay.
fn every_second() -> Schema {
    let block = |a: u8| sixteen_steps(a / 2, a.wrapping_mul(11), a % 2 == 1);
    schema(32, 1, &(0..64).map(block).collect::<Vec<Type>>())
}

/// The longest file of 64 types of 16 steps, with the last 32 types on their own: the first 32 hold one another.
fn second_half() -> Schema {
    let mut s = longest_spread();
    for (i, by) in s.by.iter_mut().enumerate() {
        *by = *by % 32 + 32 * (i / 512) as u8;
    }
    s
}

/// 63 types that hold one another, and a leaf, which is the root.
fn all_but_a_leaf() -> Schema {
    let mut types: Vec<Type> = (0..63)
        .map(|a: u8| sixteen_steps(a % 32, a.wrapping_mul(11), true))
        .collect();
    types.push(leaf(31));
    schema(32, 63, &types)
}

/// The file with a first type that is not used, so that all others get new numbers.
fn behind_another(file: &[u8]) -> Vec<u8> {
    let mut shifted = vec![file[0], file[1], TYPE, 0, 0, END];
    let mut place = 2;
    while place < file.len() {
        let length = match file[place] {
            TYPE => 3,
            USE | ROOT => 2,
            OPEN_BRACKET..=END | DONE => 1,
            other => panic!("{other:02X} is no command of a file by expressions"),
        };
        let mut command = file[place..place + length].to_vec();
        if matches!(command[0], USE | ROOT) {
            command[1] += 1;
        }
        shifted.extend(command);
        place += length;
    }
    shifted
}

/// A file that is answered so, with room enough.
fn case(name: &'static str, file: Vec<u8>, answer: Result<usize, Number>) -> Case {
    Case {
        name,
        file,
        room: ROOM,
        answer,
        asked: Asked::ratio(RATIO),
    }
}

/// A file that comes back byte for byte.
fn whole(name: &'static str, file: Vec<u8>) -> Case {
    let length = file.len();
    case(name, file, Ok(length))
}

/// A file of which types are left out.
fn reduced(name: &'static str, file: Vec<u8>) -> Case {
    let answer = write_reduced(&file, &mut [0; ROOM]);
    assert!(answer.is_ok_and(|length| length != file.len()), "{name}");
    case(name, file, answer)
}

/// The timed files with nothing to leave out.
fn whole_files() -> Vec<Case> {
    let in_order = longest(64, one_of_each_tag(), 0);
    let shuffled = longest(64, in_any_order(one_of_each_tag()), 0);
    let schemas = [
        ("R, nothing to leave out", small()),
        ("64 types of 16 steps, nothing", layered(64)),
        ("a longest file: 16 steps each", longest_spread()),
        ("a longest file: all steps the root's", in_order),
        ("the same, shuffled", shuffled),
        ("32 types of 32 states: the largest search", wide(0)),
    ];
    let schemas = schemas.map(|(name, schema)| whole(name, schema_file(&schema)));
    let mut all = Vec::from(schemas);
    // A short file, and one where the search leads.
    all[0].asked = Asked::NOTHING;
    all[5].asked = Asked::NOTHING;
    all.push(whole("64: 5 uses, nothing", expressions::five_uses()));
    all
}

/// Those with types to leave out: by states, by expressions that are copied, and by expressions that are written by states.
fn reduced_files() -> [Case; 8] {
    let shifted = behind_another(&expressions::five_uses_of_63());
    [
        (
            "64 types of 16 steps, every second goes",
            schema_file(&every_second()),
        ),
        (
            "a longest file: the last 32 types go",
            schema_file(&second_half()),
        ),
        (
            "64 types, 1,008 steps: all but a leaf go",
            schema_file(&all_but_a_leaf()),
        ),
        ("63: 5 uses, behind a type that goes", shifted),
        (
            "64: 5 uses, by states",
            expressions::five_uses_some_treeless(),
        ),
        (
            "64: a rack's, by states",
            expressions::racks_some_treeless(),
        ),
        (
            "one: 31 uses, 992 steps, by states",
            expressions::any_order_last_treeless(),
        ),
        (
            "one: 31 uses in 16 brackets, by states",
            expressions::in_brackets_last_treeless(),
        ),
    ]
    .map(|(name, file)| reduced(name, file))
}

/// Those of which nothing is written.
fn refused_files() -> [Case; 2] {
    let file = schema_file(&longest_spread());
    let short = Case {
        room: file.len() - 1,
        ..case(
            "a longest file, the output a byte short",
            file,
            Err(NO_ROOM),
        )
    };
    let competing = schema_file(&competing_roots());
    [
        short,
        case("8 roots, two of them compete", competing, Err(COMPETITION)),
    ]
}

/// All that is timed.
fn cases() -> Vec<Case> {
    let mut all = whole_files();
    all.extend(reduced_files());
    all.extend(refused_files());
    all
}

/// Files with bytes changed or an end cut off, into outputs that are long enough or not, by both writers. How many were written, how many of these
/// anew, and how many got a number.
fn spoiled() -> Option<[u32; 3]> {
    let mut random = Random(0x9E37_79B9_7F4A_7C15);
    let files: Vec<Vec<u8>> = cases().into_iter().map(|case| case.file).collect();
    let mut counts = [0; 3];
    for n in 0..20_000 {
        let mut file = files[n % files.len()].clone();
        for _ in 0..random.below(3) {
            let at = random.below(file.len() as u64) as usize;
            file[at] = random.byte(0x41);
        }
        if random.below(16) == 0 {
            file.truncate(random.below(file.len() as u64) as usize);
        }
        let length = write_reduced(&file, &mut [0; ROOM]);
        let room = match random.below(4) {
            0 => length.unwrap_or(0).saturating_sub(1),
            1 => length.unwrap_or(0),
            _ => ROOM,
        };
        if !same(&file, room) {
            return None;
        }
        counts[match length {
            Ok(length) if length == file.len() => 0,
            Ok(_) => 1,
            Err(_) => 2,
        }] += 1;
    }
    Some(counts)
}

/// The part; whether all answers agree.
pub fn run() -> bool {
    heading("Files written without unused types", "bytes", &["plain"]);
    let mut same = true;
    for case in &cases() {
        same &= report(case);
    }
    match spoiled() {
        Some([whole, anew, refused]) => println!(
            "{} spoiled files: the same answers and bytes. Written with nothing left out {whole}, with types left out {anew}, refused {refused}",
            whole + anew + refused
        ),
        None => return agree(false),
    }
    same
}
