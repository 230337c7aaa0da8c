//! 01 "Painting", the paragraph "Fade (house)": the alpha of a layer with global alpha at a frame
//! number.

#[derive(Clone, Copy, Debug, PartialEq, Eq)]
pub struct Fade {
    pub value: u32,
    pub target: u32,
    pub start: u32,
    pub length: u32,
}

impl Fade {
    /// "e is frame number minus start modulo 2^32, read as signed. If the length is 0, or e is
    /// negative, the value is the word's own. If e is at least the length it is the target.
    /// Otherwise (value·(L−e) + target·e + L/2)/L, both divisions rounded down."
    pub fn at(&self, frame: u32) -> u32 {
        let e = i64::from(frame.wrapping_sub(self.start) as i32);
        let length = i64::from(self.length);
        if length == 0 || e < 0 {
            return self.value;
        }
        if e >= length {
            return self.target;
        }
        let value = i64::from(self.value);
        let target = i64::from(self.target);
        ((value * (length - e) + target * e + length / 2) / length) as u32
    }
}
