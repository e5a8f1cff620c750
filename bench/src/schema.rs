//! Limits, trimming and the search for competition on schemas as values, beside plain Rust of the same algorithm, on the small schema R and on
//! worst cases. A search asks the limits and trims first. Each proved call takes its schema by value, and the time has that copy in it.
use crate::engine::{self, Trimmed};
use crate::measure::{Asked, agree, heading, in_turn, row};
use crate::random::Random;
use crate::schemas::{
    chain, chain_back, dense, eight_lists, eight_roots, layered, nillable, small, wide,
};
use crate::witness::is_left_right;
use plain::limits::{NO_PARENT, WITNESS};
use plain::questions::{COMPETITION, NONE, OUTSIDE_LIMITS};
use plain::{Rows, Schema, Trimming, competition};
use std::cell::RefCell;
use std::hint::black_box;

fn plain_trim(schema: &Schema) -> Option<Trimming> {
    schema.within_limits().then(|| Trimming::of(schema))
}

/// Whether both are inside the limits with the same tables, or both outside.
fn same_tables(proved: &Trimmed, rows: &Rows, plain: &Option<Trimming>) -> bool {
    let tables = plain.as_ref().unwrap_or(&Trimming::NONE);
    proved.inside == plain.is_some()
        && proved.live == tables.live
        && proved.ways == tables.opened
        && proved.reached == tables.reached
        && sorted(*rows) == sorted(tables.rows)
}

/// The rows with the entries of each in rising order, so that their order is free.
fn sorted(mut rows: Rows) -> Rows {
    for row in rows.begins.windows(2) {
        // After the last row the beginnings fall to 0, and there is no such range.
        let own = usize::from(row[0])..usize::from(row[1]);
        if let Some(entries) = rows.entries.get_mut(own) {
            entries.sort_unstable();
        }
    }
    rows
}

/// The number and the witness buffer of a search.
type Found = (u8, [u8; WITNESS]);

fn plain_competition(schema: &Schema) -> Found {
    let mut witness = [0; WITNESS];
    if !schema.within_limits() {
        return (OUTSIDE_LIMITS, witness);
    }
    match competition::find(schema, &Trimming::of(schema)) {
        None => (NONE, witness),
        Some(found) => {
            found.witness().store(&mut witness);
            (COMPETITION, witness)
        }
    }
}

/// Whether the numbers agree, and each buffer has a witness if there is competition.
fn same_search(schema: &Schema, proved: &Found, plain: &Found) -> bool {
    let right = |(number, buffer): &Found| {
        is_left_right(*number, buffer, 0, |witness| {
            competition::confirm(schema, &Trimming::of(schema), witness)
        })
    };
    proved.0 == plain.0 && right(proved) && right(plain)
}

/// A row for the two calls. Whether their answers agree.
fn report<P, Q>(
    name: &str,
    schema: &Schema,
    asked: Asked,
    proved: impl Fn(&Schema) -> P,
    plain: impl Fn(&Schema) -> Q,
    same: impl Fn(&P, &Q) -> bool,
) -> bool {
    let times = in_turn(&mut [
        &mut || _ = black_box(proved(black_box(schema))),
        &mut || _ = black_box(plain(black_box(schema))),
    ]);
    let steps: u32 = schema.steps.iter().map(|&n| u32::from(n)).sum();
    row(name, &steps.to_string(), &times, asked);
    agree(same(&proved(schema), &plain(schema)))
}

/// How many random schemas are compared.
const SCHEMAS: usize = 4_000;

/// Limits, tables and numbers of random schemas, which both find alike, and the witnesses. In how many two types compete, in how many two roots, and
/// how many are outside the limits.
fn compare() -> Option<[usize; 3]> {
    let mut random = Random(0x2545_F491_4F6C_DD1D);
    let mut counts = [0; 3];
    let mut rows = Rows::NONE;
    for _ in 0..SCHEMAS {
        let schema = random.schema();
        let found = engine::competition(&schema);
        let same = engine::within(schema) == schema.within_limits()
            && same_tables(
                &engine::trim(&schema, &mut rows),
                &rows,
                &plain_trim(&schema),
            )
            && same_search(&schema, &found, &plain_competition(&schema));
        if !same {
            return None;
        }
        let counted = match found {
            (COMPETITION, [NO_PARENT, ..]) => Some(1),
            (COMPETITION, _) => Some(0),
            (OUTSIDE_LIMITS, _) => Some(2),
            _ => None,
        };
        counted.into_iter().for_each(|n: usize| counts[n] += 1);
    }
    Some(counts)
}

/// The part; whether all answers agree.
pub fn run() -> bool {
    let cases = [
        ("R", 5.0, small()),
        ("64 types in a chain", 20e3, chain()),
        ("the chain backwards", 20e3, chain_back()),
        ("1 type of 32 states, 63 leaves", 20e3, dense()),
        ("32 types of 32 states", 20e3, wide(0)),
        ("the same, 32 leaves", 20e3, wide(32)),
        ("8 roots, 64 types of 16 steps", 20e3, eight_roots()),
        ("8 roots, each of a kind of list", 20e3, eight_lists()),
        (
            "64 types of 16 steps, nillable",
            20e3,
            nillable(layered(64)),
        ),
    ];
    heading("Schemas as values", "steps", &["plain"]);
    let mut same = true;
    let rows = RefCell::new(Rows::NONE);
    for (name, most, schema) in &cases {
        let what = |call| format!("{name}: {call}");
        same &= report(
            &what("limits"),
            schema,
            Asked::NOTHING,
            |schema| engine::within(*schema),
            Schema::within_limits,
            |proved, plain| proved == plain,
        );
        same &= report(
            &what("trimming"),
            schema,
            Asked::NOTHING,
            |schema| engine::trim(schema, &mut rows.borrow_mut()),
            plain_trim,
            |proved, plain| same_tables(proved, &rows.borrow(), plain),
        );
        same &= report(
            &what("search"),
            schema,
            Asked::microseconds(*most),
            engine::competition,
            plain_competition,
            |proved, plain| same_search(schema, proved, plain),
        );
    }
    match compare() {
        Some([types, roots, outside]) => println!(
            "{SCHEMAS} random schemas: the same limits, tables and numbers, and witnesses that are. In {types} two types compete, in {roots} two roots, \
             {outside} are outside the limits"
        ),
        None => return agree(false),
    }
    same
}
