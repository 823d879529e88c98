//! An input: what the bytes of libFuzzer mean. Twelve bytes say what is asked and how long the lent buffers are, two how long the list is; then come
//! the list and, to the end, the image.

use second::image::LONGEST_IMAGE;

/// The bytes before the list.
const HEAD: usize = 14;

#[derive(Clone, Debug, Default, PartialEq, Eq)]
pub struct Input {
    /// The entity that is looked up.
    pub dimension: u8,
    pub number: u32,
    /// The part whose box is asked.
    pub part: u8,
    /// Even: lent buffers end at a page that cannot be touched; odd: they begin behind one.
    pub side: u8,
    pub out: Length,
    pub work: Length,
    /// 255: zeros follow the image until it is a byte longer than an image may be.
    pub stretch: u8,
    pub list: Vec<u8>,
    pub image: Vec<u8>,
}

/// How long a lent buffer is: as `kind` says, beside what the call needs.
#[derive(Clone, Copy, Debug, Default, PartialEq, Eq)]
pub struct Length {
    pub kind: u8,
    pub value: u8,
}

impl Length {
    /// Just enough, a little short, a little more, or something else.
    pub fn beside(self, needed: usize) -> usize {
        match self.kind % 4 {
            0 => needed,
            1 => needed.saturating_sub(1 + self.value as usize),
            2 => needed + self.value as usize,
            _ => 8 * self.value as usize,
        }
    }
}

impl Input {
    pub fn read(bytes: &[u8]) -> Option<Input> {
        let (head, rest) = bytes.split_at_checked(HEAD)?;
        let list_length = usize::from(u16::from_le_bytes([head[12], head[13]])).min(rest.len());
        let (list, image) = rest.split_at(list_length);
        Some(Input {
            number: u32::from_le_bytes([head[0], head[1], head[2], head[3]]),
            dimension: head[4],
            part: head[5],
            side: head[6],
            out: Length { kind: head[7], value: head[8] },
            work: Length { kind: head[9], value: head[10] },
            stretch: head[11],
            list: list.to_vec(),
            image: image.to_vec(),
        })
    }

    /// The input with its image as it is lent.
    pub fn stretched(mut self) -> Input {
        if self.stretch == 255 {
            self.image.resize(self.image.len().max(LONGEST_IMAGE + 1), 0);
        }
        self
    }

    pub fn bytes(&self) -> Vec<u8> {
        let mut bytes = self.number.to_le_bytes().to_vec();
        bytes.extend([self.dimension, self.part, self.side, self.out.kind, self.out.value, self.work.kind, self.work.value, self.stretch]);
        bytes.extend((self.list.len() as u16).to_le_bytes());
        bytes.extend(&self.list);
        bytes.extend(&self.image);
        bytes
    }
}
