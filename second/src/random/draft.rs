//! A line before it is text: a call's name and its numbers.

pub struct Draft {
    pub name: &'static str,
    pub numbers: Vec<u64>,
}

impl Draft {
    pub fn new<const COUNT: usize>(name: &'static str, numbers: [u64; COUNT]) -> Draft {
        Draft { name, numbers: numbers.to_vec() }
    }

    pub fn words(&self) -> Vec<String> {
        let numbers = self.numbers.iter().map(u64::to_string);
        std::iter::once(self.name.to_string()).chain(numbers).collect()
    }

    pub fn line(&self) -> Vec<u8> {
        self.words().join(" ").into_bytes()
    }
}
