//! Names as numbers, and the declared ones by hashing.

/// A name's bytes, the first in the lowest byte, with zeros behind them. No byte of a name is 0, so two names are the same if their keys are.
pub type Key = u128;

pub const LONGEST: usize = 12;

/// At most so many names are declared: facts, steps and jobs.
const MOST: usize = 192;

/// Twice as many places and more, so that most names stand at their own.
const PLACES: usize = 512;
const PLACE_BITS: u32 = PLACES.trailing_zeros();

/// An entry has the name's code in front of its twelve bytes.
const CODE_AT: u32 = 8 * LONGEST as u32;

pub struct Names {
    entries: Vec<u128>,
    /// One more than the number of an entry, 0 where there is none.
    places: [u8; PLACES],
}

impl Names {
    pub fn new() -> Names {
        Names { entries: Vec::with_capacity(MOST), places: [0; PLACES] }
    }

    /// False where the name is declared already. The caller declares no more than there may be.
    pub fn insert(&mut self, key: Key, code: u8) -> bool {
        match self.find(key) {
            Ok(_) => false,
            Err(place) => {
                self.entries.push(key | u128::from(code) << CODE_AT);
                self.places[place] = self.entries.len() as u8;
                true
            }
        }
    }

    /// The name's code.
    pub fn get(&self, key: Key) -> Option<u8> {
        self.find(key).ok()
    }

    /// The name's code, or the place where it would be put.
    #[inline(always)]
    fn find(&self, key: Key) -> Result<u8, usize> {
        let mut place = hash(key);
        loop {
            let Some(number) = usize::from(self.places[place]).checked_sub(1) else { return Err(place) };
            let difference = self.entries[number] ^ key;
            if difference << (128 - CODE_AT) == 0 {
                return Ok((difference >> CODE_AT) as u8);
            }
            place = (place + 1) % PLACES;
        }
    }
}

/// As FxHash has it: one multiplication, of which the highest bits are taken.
fn hash(key: Key) -> usize {
    let mixed = key as u64 ^ ((key >> 64) as u64).rotate_left(29);
    (mixed.wrapping_mul(0x517c_c1b7_2722_0a95) >> (64 - PLACE_BITS)) as usize
}

/// All ones in so many of the lowest bytes.
static LOWEST: [u128; LONGEST + 1] = lowest();

const fn lowest() -> [u128; LONGEST + 1] {
    let mut all = [0; LONGEST + 1];
    let mut length = 1;
    while length < all.len() {
        all[length] = all[length - 1] << 8 | 0xff;
        length += 1;
    }
    all
}

/// The name that begins a window of 16 bytes, with its length: letters, digits and hyphens up to the first other byte.
#[inline(always)]
pub fn first_name(window: [u8; 16]) -> Option<(Key, usize)> {
    let length = (!of_names(&window)).trailing_zeros() as usize;
    (window[0].is_ascii_lowercase() && length <= LONGEST).then(|| (u128::from_le_bytes(window) & LOWEST[length], length))
}

/// Which bytes of a window may stand in a name, a bit for each, sixteen at once. Every x86-64 processor has these instructions.
#[inline(always)]
fn of_names(window: &[u8; 16]) -> u32 {
    use std::arch::x86_64::*;
    // SAFETY: sixteen bytes are read, those of the window, from where they stand.
    unsafe {
        let bytes = _mm_loadu_si128(window.as_ptr().cast());
        let between = |below: u8, above: u8| {
            _mm_and_si128(_mm_cmpgt_epi8(bytes, _mm_set1_epi8(below as i8)), _mm_cmplt_epi8(bytes, _mm_set1_epi8(above as i8)))
        };
        let letters = between(b'a' - 1, b'z' + 1);
        let digits = between(b'0' - 1, b'9' + 1);
        let hyphens = _mm_cmpeq_epi8(bytes, _mm_set1_epi8(b'-' as i8));
        _mm_movemask_epi8(_mm_or_si128(_mm_or_si128(letters, digits), hyphens)) as u32
    }
}
