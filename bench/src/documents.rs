//! Valid documents as event files.
use crate::random::Random;
use plain::codes::{CLOSE, FINISH, OPEN, OPEN_NIL};
use plain::{Answer, Reading, Schema};

/// A document of at most so many bytes, its depth between the two once it is reached: an opening or a closing that is taken, at random; in the
/// end all closings and the finish. Those are taken where every open element may be closed; a caller sees that the file is. Where the schema has
/// nillable types, about half of the openings tried below the root are as nil.
pub fn document(schema: &Schema, bytes: usize, depths: [u8; 2], seed: u64) -> Vec<u8> {
    let mut random = Random(0x2545_F491_4F6C_DD1D ^ seed << 20);
    let mut reading = Reading::FRESH;
    let mut file = Vec::new();
    let [low, high] = depths;
    let nillable = schema.nillable.contains(&true);
    let mut reached = false;
    while file.len() + 2 * usize::from(reading.depth) + 5 <= bytes {
        reached |= low < reading.depth;
        let down = reading.depth < high
            && !in_nil(&reading)
            && (!reached || reading.depth <= low || random.below(2) == 0);
        let (code, tag) = if down {
            let nil = nillable && reading.depth > 0 && random.below(2) == 0;
            let code = if nil { OPEN_NIL } else { OPEN };
            (code, random.byte(schema.tags))
        } else {
            let inner = reading.depth as usize - 1;
            (CLOSE, schema.tag[reading.types[inner] as usize])
        };
        let answered = match code {
            OPEN => reading.open(schema, tag),
            OPEN_NIL => reading.open_nil(schema, tag),
            _ => reading.close(schema, tag),
        };
        if !matches!(answered.answer, Answer::Refused(_)) {
            file.extend([code, tag]);
            reading = answered.reading;
        }
    }
    for n in (0..reading.depth as usize).rev() {
        file.extend([CLOSE, schema.tag[reading.types[n] as usize]]);
    }
    file.push(FINISH);
    file
}

/// Whether the innermost element is nil.
fn in_nil(reading: &Reading) -> bool {
    let open = usize::from(reading.depth);
    reading.sets[..open]
        .last()
        .is_some_and(|set| set.is_empty())
}
