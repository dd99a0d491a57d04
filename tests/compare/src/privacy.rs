//! What the Privacy of a message holds, for the counts. It is read here, so that they do not lean on the rule that is compared.

use second::lines::{self, Field};
use second::profile;

/// The ways to hide.
const WAYS: [&[u8]; 3] = [b"header", b"user", b"id"];

/// The first Privacy field of a message.
pub struct Asked {
    /// Its tokens, in small letters.
    tokens: Vec<Vec<u8>>,
    pub length: usize,
    pub folded: bool,
}

impl Asked {
    pub fn of(message: &[u8]) -> Option<Asked> {
        let fields = lines::read(message).ok()?.fields;
        let field = fields.into_iter().find(|field| profile::number_of_name(&field.name) == 16)?;
        let Field { value_start, value_end, value, .. } = field;
        let tokens = value.bytes.split(|&byte| byte == b';').map(|token| token.trim_ascii().to_ascii_lowercase()).collect();
        Some(Asked { tokens, length: value_end - value_start, folded: message[value_start..value_end].contains(&b'\n') })
    }

    pub fn holds(&self, token: &[u8]) -> bool {
        self.tokens.iter().any(|one| one == token)
    }

    /// Which of `header`, `user` and `id` it holds.
    pub fn ways(&self) -> [bool; 3] {
        WAYS.map(|way| self.holds(way))
    }

    pub fn asks(&self) -> bool {
        self.ways().contains(&true)
    }

    /// Whether a token holds one of the three and more, as `username` does, or lacks some of it, as `head` does.
    pub fn has_longer_or_shorter(&self) -> bool {
        let is_part = |part: &[u8], whole: &[u8]| part.len() < whole.len() && whole.windows(part.len().max(1)).any(|window| window == part);
        self.tokens.iter().any(|token| WAYS.iter().any(|way| is_part(way, token) || is_part(token, way)))
    }

    /// Whether one of the three stands in it, although it may be malformed.
    pub fn mentions(&self) -> bool {
        self.tokens.iter().any(|token| WAYS.iter().any(|way| token.windows(way.len()).any(|window| window == *way)))
    }

    /// Whether one byte of a token is another than in one of the three.
    pub fn has_one_byte_other(&self) -> bool {
        let others = |token: &[u8], way: &[u8]| token.iter().zip(way).filter(|(a, b)| a != b).count();
        self.tokens.iter().any(|token| WAYS.iter().any(|way| token.len() == way.len() && others(token, way) == 1))
    }
}
