//! The same documents by the proved engine and by the RELAX NG validators that are installed, `xmllint --relaxng` and `jing`: what each costs, and
//! whether they agree on valid and damaged documents. A validator reads XML text and says whether a document is valid; it gives no types out. The
//! engine reads an event file, answers with the place of the first refusal, and gives the type of each element.
mod grammar;
mod trees;
mod validator;

use crate::engine::events;
use crate::measure::{figure, in_turn, median, percentile};
use crate::random::Random;
use crate::schemas::{Type, eight_lists, layered, leaf, optional, schema, small};
use grammar::grammar;
use plain::Schema;
use plain::questions::NONE;
use std::fs::{create_dir_all, write};
use std::hint::black_box;
use std::path::{Path, PathBuf};
use trees::{Tree, valid};
use validator::Validator;

/// A document in both forms.
struct Document {
    events: Vec<u8>,
    xml: PathBuf,
    bytes: usize,
}

fn document(tree: &Tree, xml: PathBuf) -> Document {
    let mut text = String::new();
    tree.xml(&mut text);
    write(&xml, &text).expect("the XML text is written");
    Document {
        events: tree.event_file(),
        xml,
        bytes: text.len(),
    }
}

/// R as the racks of a wall: type 0 holds racks, a rack hire boots, the sale mark, boots for sale.
fn wall() -> Schema {
    let rack = Type {
        tag: 1,
        states: 2,
        accepting: 0b10,
        steps: vec![[0, 2, 0], [0, 3, 1], [1, 4, 1]],
    };
    let wall = Type {
        tag: 0,
        states: 1,
        accepting: 1,
        steps: vec![[0, 1, 0]],
    };
    schema(4, 0, &[wall, rack, leaf(2), leaf(3), leaf(2)])
}

/// How many documents a validator's process is given.
const DOCUMENTS: usize = 40;
/// An event file of 32 KB has so many elements.
const ELEMENTS: i64 = 8_180;
/// Documents that are compared, by schema; two of three are damaged.
const COMPARED: usize = 300;

struct Subject {
    name: &'static str,
    schema: Schema,
    directory: PathBuf,
    rng: PathBuf,
}

impl Subject {
    fn new(name: &'static str, schema: Schema, directory: PathBuf) -> Subject {
        create_dir_all(&directory).expect("the directory is made");
        let directory = directory.canonicalize().expect("it is there");
        let rng = directory.join("grammar.rng");
        write(&rng, grammar(&schema)).expect("the grammar is written");
        Subject {
            name,
            schema,
            directory,
            rng,
        }
    }

    fn tree(&self, mut elements: i64, random: &mut Random) -> Tree {
        let roots = self.schema.root_types();
        let root = roots[random.below(roots.len() as u64) as usize];
        valid(&self.schema, root, &mut elements, 1, random)
    }

    fn taken(&self, file: &[u8]) -> bool {
        events(&self.schema, file, &mut vec![0; file.len()]).number == NONE
    }

    /// The engine's row: microseconds a document.
    fn report_engine(&self, document: &Document) -> f64 {
        assert!(self.taken(&document.events));
        let mut out = vec![0; document.events.len()];
        let times = in_turn(&mut [&mut || {
            _ = black_box(events(black_box(&self.schema), &document.events, &mut out));
        }]);
        let [low, middle, high] = [10, 50, 90].map(|n| percentile(&times[0], n));
        let spread = format!("{} to {}", figure(low), figure(high));
        println!(
            "{:<42} {:<9} {:>7} {:>9} {spread:>15}",
            self.name,
            "proved",
            document.events.len(),
            figure(middle)
        );
        median(&times[0])
    }

    fn report_validator(&self, validator: Validator, document: &Document, tiny: &Path, ours: f64) {
        let files = vec![document.xml.as_path(); DOCUMENTS];
        let start = validator.time(&self.rng, &[tiny]);
        let all = validator.time(&self.rng, &files);
        let each = (all - start) * 1e3 / DOCUMENTS as f64;
        println!(
            "{:<42} {:<9} {:>7} {:>9} {:>15} {:>9} {:>7.1}",
            "",
            validator.name(),
            document.bytes,
            figure(each),
            "",
            figure(start),
            each / ours
        );
    }

    /// The rows of a large document.
    fn report(&self, validators: &[Validator], random: &mut Random) {
        let [large, tiny] = [(ELEMENTS, "large.xml"), (1, "tiny.xml")].map(|(elements, name)| {
            document(&self.tree(elements, random), self.directory.join(name))
        });
        let ours = self.report_engine(&large);
        for &validator in validators {
            self.report_validator(validator, &large, &tiny.xml, ours);
        }
    }

    /// Whether the validators agree with the engine.
    fn compare(&self, validators: &[Validator], random: &mut Random) -> bool {
        let documents: Vec<Document> = (0..COMPARED)
            .map(|n| {
                let mut tree = self.tree(1 + random.below(30) as i64, random);
                for _ in 0..n % 3 {
                    tree.damage(self.schema.tags, random);
                }
                document(&tree, self.directory.join(format!("{n}.xml")))
            })
            .collect();
        let taken = documents.iter().filter(|d| self.taken(&d.events)).count();
        print!(
            "{:<42} {COMPARED} documents, {taken} valid; agree:",
            self.name
        );
        let mut all = true;
        for validator in validators {
            let files: Vec<&Path> = documents.iter().map(|d| d.xml.as_path()).collect();
            let refused = validator.refused(&self.rng, &files);
            let same = |d: &&Document| self.taken(&d.events) != refused.contains(&d.xml);
            let count = documents.iter().filter(same).count();
            print!(" {} on {count}", validator.name());
            all &= count == COMPARED;
        }
        println!("{}", if all { "" } else { "  THEY DIFFER" });
        all
    }
}

/// Where the documents are written.
const DIRECTORY: &str = concat!(env!("CARGO_MANIFEST_DIR"), "/../target/bench/documents");

fn subjects() -> Vec<Subject> {
    let schemas = [
        ("R", small()),
        ("R as the racks of a wall", wall()),
        ("003's a1? b1 (b1 or c1)* a2 c1", optional()),
        ("16 types of 16 steps", layered(16)),
        ("eight roots, each of a kind of list", eight_lists()),
    ];
    let subject = |(n, (name, schema)): (usize, _)| {
        let directory = Path::new(DIRECTORY).join(n.to_string());
        Subject::new(name, schema, directory)
    };
    schemas.into_iter().enumerate().map(subject).collect()
}

fn heading() {
    println!(
        "\n{:<42} {:<9} {:>7} {:>9} {:>15} {:>9} {:>7}",
        "RELAX NG validators, a document", "", "bytes", "time", "10 to 90 %", "start, ms", "times"
    );
}

fn legend() {
    println!(
        "time: microseconds a document. A validator's is by the clock, a process with {DOCUMENTS} documents, the best of three, less its start on a tiny one;\n\
         jing's has the warming up of its Java machine in it. times: beside the proved engine's time.\n\
         proved: an event file in; the place of the first refusal and the type of each element out.\n\
         xmllint, jing: XML text in, which they parse; valid or not out, no types."
    );
}

/// The part; whether the validators agree with the engine.
pub fn run() -> bool {
    let mut random = Random(0x5851_F42D_4C95_7F2D);
    let (here, missing): (Vec<_>, Vec<_>) = [Validator::Xmllint, Validator::Jing]
        .into_iter()
        .partition(|validator| validator.installed());
    let subjects = subjects();
    heading();
    for subject in &subjects {
        subject.report(&here, &mut random);
    }
    for validator in missing {
        println!("{}: not installed", validator.name());
    }
    legend();
    let mut agree = true;
    for subject in subjects.iter().filter(|_| !here.is_empty()) {
        agree &= subject.compare(&here, &mut random);
    }
    agree
}
