//! A deck by its parts, as document 01 orders them.

pub const WIDTHS: [usize; 7] = [3, 4, 3, 4, 4, 3, 1];
pub const LIMITS: [u32; 7] = [4096, 1024, 4096, 16384, 16384, 16384, 262144];
pub const TRAILER: usize = 18;

#[derive(Clone, Default, Debug)]
pub struct Parts {
    pub real: u32,
    pub dropped: u32,
    pub classes: Vec<[u32; 3]>,
    pub roles: Vec<[u32; 4]>,
    pub injected: Vec<[u32; 3]>,
    pub concepts: Vec<[u32; 4]>,
    pub axioms: Vec<[u32; 4]>,
    pub facts: Vec<[u32; 3]>,
    pub lists: Vec<u32>,
}

impl Parts {
    pub fn list(&self, start: u32, count: u32) -> &[u32] {
        &self.lists[start as usize..][..count as usize]
    }

    pub fn row(&self, class: usize) -> &[u32] {
        self.list(self.classes[class][1], self.classes[class][2])
    }

    /// Words of 64 bits that a label takes.
    pub fn width(&self) -> usize {
        self.classes.len().div_ceil(64)
    }

    pub fn words(&self) -> Vec<u32> {
        let parts: [&[u32]; 7] = [
            self.classes.as_flattened(),
            self.roles.as_flattened(),
            self.injected.as_flattened(),
            self.concepts.as_flattened(),
            self.axioms.as_flattened(),
            self.facts.as_flattened(),
            &self.lists,
        ];
        let mut body = Vec::new();
        let mut trailer = vec![1, self.real, self.dropped];
        for (part, width) in parts.into_iter().zip(WIDTHS) {
            trailer.extend([(part.len() / width) as u32, body.len() as u32]);
            body.extend_from_slice(part);
        }
        trailer.push(body.len() as u32);
        body.extend(trailer);
        body
    }

    pub fn bytes(&self) -> Vec<u8> {
        self.words().iter().flat_map(|word| word.to_le_bytes()).collect()
    }
}
