//! What stands in the header of an outgoing message.

/// How many lines are P-Asserted-Identity.
pub fn identity_lines(out: &[u8]) -> usize {
    often(out, b"\r\nP-Asserted-Identity: ")
}

const ANONYMOUS: &[u8] = b"\r\nFrom: \"Anonymous\" <sip:anonymous@anonymous.invalid>;tag=";

/// Whether From is anonymous but for its tag.
pub fn is_masked(out: &[u8]) -> bool {
    often(out, ANONYMOUS) > 0
}

/// Whether it has this tag besides.
pub fn is_masked_with(out: &[u8], tag: &[u8]) -> bool {
    often(out, &[ANONYMOUS, tag, b"\r\n"].concat()) > 0
}

/// How often this stands in the header.
fn often(out: &[u8], text: &[u8]) -> usize {
    let end = out.windows(4).position(|part| part == b"\r\n\r\n").map_or(out.len(), |place| place + 2);
    out[..end].windows(text.len()).filter(|part| *part == text).count()
}
