//! Area, kind, day and zero byte of a trade as one number.

/// What area, kind and day tell, at their [`code_place`]; 0 at the places of none.
pub struct Codes {
    pub codes: [u32; 32],
    /// The place of the sum among those of the sellers or of the buyers.
    pub sums: [u32; 32],
    /// All bits where standing has to equal notified.
    pub whole: [u32; 32],
}

pub static CODES: Codes = codes();

/// Two bits of the area, two of the kind, one of the day: distinct for those that there
/// are, and 0 only for 0 among them.
#[inline(always)]
pub const fn code_place(code: u32) -> usize {
    (code.wrapping_mul(1 << 27 | 1 << 21 | 1 << 15) >> 27) as usize
}

const fn codes() -> Codes {
    let mut table = Codes {
        codes: [0; 32],
        sums: [0; 32],
        whole: [0; 32],
    };
    let mut place = 0;
    while place < 18 {
        let (area, kind, day) = (place % 3, place / 3 % 3, place / 9);
        let code = area | kind << 8 | day << 16;
        let at = code_place(code);
        table.codes[at] = code;
        table.sums[at] = 4 * day | area;
        table.whole[at] = if kind | day == 0 { 0 } else { u32::MAX };
        place += 1;
    }
    table
}
