//! What a call is given and what it answers, in one form for every function.

/// What a call is given: numbers, a buffer of bytes, a list of numbers and a list of ranges, each as the function reads it.
#[derive(Clone, Debug, Default, PartialEq, Eq)]
pub struct Input {
    pub numbers: Vec<u64>,
    pub bytes: Vec<u8>,
    pub list: Vec<u64>,
    pub ranges: Vec<[usize; 2]>,
}

/// What a call answers: the refusal's number or 0, values, and what the buffer and the lists hold afterwards. A list of theirs that grew
/// beyond the one that was lent is longer here. Values that we alone tell are apart: they come behind the others, and the host makes them.
#[derive(Clone, Debug, Default, PartialEq, Eq)]
pub struct Output {
    pub refusal: u32,
    pub numbers: Vec<u64>,
    pub apart: Vec<u64>,
    pub bytes: Vec<u8>,
    pub list: Vec<u64>,
    pub ranges: Vec<[usize; 2]>,
}

impl Input {
    pub fn new(numbers: &[u64], bytes: &[u8], list: &[u64]) -> Input {
        Input { numbers: numbers.to_vec(), bytes: bytes.to_vec(), list: list.to_vec(), ranges: Vec::new() }
    }

    /// A list, and a lent list of ranges.
    pub fn with_ranges(numbers: &[u64], list: &[u64], ranges: Vec<[usize; 2]>) -> Input {
        Input { numbers: numbers.to_vec(), bytes: Vec::new(), list: list.to_vec(), ranges }
    }

    /// How large an input is: its elements, then the bits of its numbers, bytes and list.
    pub fn size(&self) -> (usize, u64) {
        let bits = |n: &u64| 64 - n.leading_zeros() as u64;
        let of_bytes: u64 = self.bytes.iter().map(|b| b.count_ones() as u64).sum();
        let of_numbers: u64 = self.numbers.iter().chain(&self.list).map(bits).sum();
        (self.bytes.len() + 8 * self.list.len() + 16 * self.ranges.len(), of_bytes + of_numbers)
    }

    /// An input in a line, cut to what fits.
    pub fn shown(&self) -> String {
        let mut parts = Vec::new();
        if !self.numbers.is_empty() {
            parts.push(format!("numbers {:x?}", self.numbers));
        }
        if !self.bytes.is_empty() {
            parts.push(format!("{} bytes {}", self.bytes.len(), shown_bytes(&self.bytes)));
        }
        if !self.list.is_empty() {
            parts.push(format!("{} in the list {:x?}", self.list.len(), &self.list[..self.list.len().min(4)]));
        }
        if !self.ranges.is_empty() {
            parts.push(format!("{} ranges", self.ranges.len()));
        }
        if parts.is_empty() {
            "nothing".into()
        } else {
            parts.join(", ")
        }
    }
}

/// Some bytes in hexadecimal: the first ones, without the zeros behind them.
fn shown_bytes(bytes: &[u8]) -> String {
    let end = bytes.iter().rposition(|b| *b != 0).map_or(0, |k| k + 1);
    let text: Vec<String> = bytes[..end.min(16)].iter().map(|b| format!("{b:02x}")).collect();
    format!("[{}{}]", text.join(" "), if end > 16 { " .." } else { "" })
}

impl Output {
    /// An output whose buffers hold what the input's do.
    pub fn start(&mut self, input: &Input) {
        self.refusal = 0;
        self.numbers.clear();
        self.apart.clear();
        self.bytes.clone_from(&input.bytes);
        self.list.clone_from(&input.list);
        self.ranges.clone_from(&input.ranges);
    }

    /// The refusal or the values of a call of theirs.
    pub fn theirs(&mut self, answer: Result<&[u64], u32>) {
        match answer {
            Ok(values) => self.numbers.extend_from_slice(values),
            Err(number) => self.refusal = number,
        }
    }
}

/// Lays what a call of theirs put into a Vec over the start of a lent list; where it has no room for all, the list grows.
pub fn lay_over<T: Copy>(read: &[T], list: &mut Vec<T>) {
    let common = read.len().min(list.len());
    list[..common].copy_from_slice(&read[..common]);
    list.extend_from_slice(&read[common..]);
}
