// What the judges share: the words of a list, the check value, random numbers.

// The longest list that test_replay and test_reader read.
pub const LONGEST: usize = 1_048_575;

// The check value of bytes: 64-bit FNV-1a.
pub fn check(bytes: impl Iterator<Item = u8>) -> u64 {
    bytes.fold(14695981039346656037, |h, b| (h ^ b as u64).wrapping_mul(1099511628211))
}

// A byte string as a word.
pub fn spelled(bytes: &[u8]) -> String {
    let mut out = String::new();
    for &b in bytes {
        match b {
            0 => out.push('~'),
            b'\\' | b'~' => out.push_str(&format!("\\x{b:02x}")),
            33..=126 => out.push(b as char),
            _ => out.push_str(&format!("\\x{b:02x}")),
        }
    }
    out
}

// The word's byte string.
pub fn meant(word: &str) -> Result<Vec<u8>, String> {
    let (b, mut out, mut at) = (word.as_bytes(), Vec::new(), 0);
    while at < b.len() {
        match b[at] {
            b'~' => out.push(0),
            b'\\' => {
                let digits = word.get(at + 2..at + 4).filter(|_| b.get(at + 1) == Some(&b'x'));
                let byte = digits.and_then(|d| u8::from_str_radix(d, 16).ok());
                out.push(byte.ok_or_else(|| format!("no byte: {word}"))?);
                at += 3;
            }
            33..=126 => out.push(b[at]),
            _ => return Err(format!("no byte string: {word}")),
        }
        at += 1;
    }
    Ok(out)
}

// A decimal number of at most 64 bits; an empty word is 0.
pub fn number(word: &str) -> Result<u64, String> {
    word.bytes()
        .try_fold(0u64, |n, d| {
            let digit = d.is_ascii_digit().then(|| u64::from(d - b'0'))?;
            n.checked_mul(10)?.checked_add(digit)
        })
        .ok_or_else(|| format!("no number: {word}"))
}

// Writes numbers or bytes over others from an index on; what does not fit is left out.
pub fn put<T: Copy>(into: &mut [T], at: u64, from: &[T]) {
    for (k, &x) in from.iter().enumerate() {
        if let Some(place) = usize::try_from(at).ok().and_then(|at| into.get_mut(at.checked_add(k)?)) {
            *place = x;
        }
    }
}

// Random numbers (splitmix64).
pub struct Rng(pub u64);

impl Rng {
    pub fn next(&mut self) -> u64 {
        self.0 = self.0.wrapping_add(0x9e37_79b9_7f4a_7c15);
        let z = (self.0 ^ (self.0 >> 30)).wrapping_mul(0xbf58_476d_1ce4_e5b9);
        let z = (z ^ (z >> 27)).wrapping_mul(0x94d0_49bb_1331_11eb);
        z ^ (z >> 31)
    }

    pub fn below(&mut self, n: u64) -> u64 {
        self.next() % n
    }

    // True once in n times.
    pub fn once_in(&mut self, n: u64) -> bool {
        self.below(n) == 0
    }

    pub fn of<T: Clone>(&mut self, all: &[T]) -> T {
        all[self.below(all.len() as u64) as usize].clone()
    }
}
