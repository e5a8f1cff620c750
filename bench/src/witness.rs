//! What a search leaves in a witness buffer. J, K and w, one of the shortest, are free, so two searches are not held to the same bytes: each is
//! held to a witness.
use plain::Witness;
use plain::questions::COMPETITION;

/// Whether the buffer, whose bytes were all `blank`, is as an answer of this number leaves it: on 9 it begins with a witness that is one by
/// `competes`; the rest is unchanged.
pub fn is_left_right(
    number: u8,
    buffer: &[u8],
    blank: u8,
    competes: impl Fn(&Witness) -> bool,
) -> bool {
    let unchanged = |bytes: &[u8]| bytes.iter().all(|&byte| byte == blank);
    if number != COMPETITION {
        return unchanged(buffer);
    }
    Witness::from_bytes(buffer)
        .is_some_and(|witness| competes(&witness) && unchanged(&buffer[witness.length()..]))
}
