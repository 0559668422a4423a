//! Buffers and numbers that are lent to the library between guards, and compared after the call.

/// How many guard bytes lie at least on each side of a buffer.
const GUARD: usize = 64;

/// A buffer between guard bytes, with a copy of all of it from before the call.
pub struct Lent {
    memory: Vec<u8>,
    before: Vec<u8>,
    start: usize,
    pub length: usize,
    null: bool,
}

impl Lent {
    /// A buffer with the given content. Where it begins changes with the content, so that every alignment is lent.
    pub fn new(content: &[u8]) -> Lent {
        let start = GUARD + content.iter().take(8).fold(content.len(), |mixed, &byte| mixed ^ usize::from(byte)) % 16;
        let guard = |place: usize| (place * 37 + 101) as u8;
        let mut memory: Vec<u8> = (0..start + content.len() + GUARD).map(guard).collect();
        memory[start..start + content.len()].copy_from_slice(content);
        let before = memory.clone();
        Lent { memory, before, start, length: content.len(), null: false }
    }

    /// A null pointer, with length 0.
    pub fn null() -> Lent {
        Lent { null: true, ..Lent::new(&[]) }
    }

    pub fn pointer(&self) -> *const u8 {
        if self.null {
            return std::ptr::null();
        }
        self.memory[self.start..].as_ptr()
    }

    pub fn pointer_to_write(&mut self) -> *mut u8 {
        if self.null {
            return std::ptr::null_mut();
        }
        self.memory[self.start..].as_mut_ptr()
    }

    pub fn content(&self) -> &[u8] {
        &self.memory[self.start..self.start + self.length]
    }

    /// Fails if a guard byte was written.
    pub fn guards(&self, name: &str) -> Result<(), String> {
        for (place, (before, now)) in self.before.iter().zip(&self.memory).enumerate() {
            let inside = place >= self.start && place < self.start + self.length;
            if before != now && !inside {
                let place = place as isize - self.start as isize;
                return Err(format!("byte {place} of the {name}, which has {} bytes, was written: {now} instead of {before}", self.length));
            }
        }
        Ok(())
    }

    /// Fails if any byte was written.
    pub fn kept(&self, name: &str) -> Result<(), String> {
        self.guards(name)?;
        for (place, (before, now)) in self.before.iter().zip(&self.memory).enumerate() {
            if before != now {
                return Err(format!("byte {} of the {name} wasn't kept: {now} instead of {before}", place - self.start));
            }
        }
        Ok(())
    }

    /// Looks at a buffer that may be written: only its guards if the call was done, all of it if it was refused.
    pub fn after(&self, code: u8, name: &str) -> Result<(), String> {
        if code == 0 {
            return self.guards(name);
        }
        self.kept(name).map_err(|difference| format!("refused {code}, but {difference}"))
    }
}

/// A number between guards that a pointer leads to.
pub struct Number<Value> {
    memory: [Value; 9],
    before: [Value; 9],
}

impl<Value: Copy + PartialEq + std::fmt::Debug> Number<Value> {
    pub fn new(guard: Value, value: Value) -> Number<Value> {
        let mut memory = [guard; 9];
        memory[4] = value;
        Number { memory, before: memory }
    }

    pub fn pointer_to_write(&mut self) -> *mut Value {
        self.memory[4..].as_mut_ptr()
    }

    pub fn value(&self) -> Value {
        self.memory[4]
    }

    /// Fails if a number around it was written.
    pub fn guards(&self, name: &str) -> Result<(), String> {
        for (place, (before, now)) in self.before.iter().zip(&self.memory).enumerate() {
            if before != now && place != 4 {
                let place = place as isize - 4;
                return Err(format!("what lies {place} places from the number {name} was written: {now:?} instead of {before:?}"));
            }
        }
        Ok(())
    }

    /// Fails if it or a number around it was written.
    pub fn kept(&self, name: &str) -> Result<(), String> {
        self.guards(name)?;
        if self.memory[4] != self.before[4] {
            return Err(format!("the number {name} wasn't kept: {:?} instead of {:?}", self.memory[4], self.before[4]));
        }
        Ok(())
    }

    /// Looks at a number that may be written: only around it if the call was done, at it too if it was refused.
    pub fn after(&self, code: u8, name: &str) -> Result<(), String> {
        if code == 0 {
            return self.guards(name);
        }
        self.kept(name).map_err(|difference| format!("refused {code}, but {difference}"))
    }
}

/// A number of type size_t.
pub fn size(value: usize) -> Number<usize> {
    Number::new(0x5A5A_1234_5A5A_1234, value)
}
