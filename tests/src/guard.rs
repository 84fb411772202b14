//! Memory that is lent to the library: guards on both sides, and a copy of all of it from before the call.

use std::marker::PhantomData;
use std::mem::{align_of, size_of, size_of_val};
use std::ops::{Deref, DerefMut};

use second::gen::Rng;

use crate::c::pool_slot;
use crate::pages::Pages;

/// The least length of a guard; each is up to 15 bytes longer, so that buffers start at every alignment that C allows.
const GUARD: usize = 32;

/// So many random bytes.
fn noise(rng: &mut Rng, length: usize) -> Vec<u8> {
    let mut bytes = Vec::with_capacity(length + 8);
    while bytes.len() < length {
        bytes.extend(rng.next_u64().to_le_bytes());
    }
    bytes.truncate(length);
    bytes
}

/// What a buffer holds: bytes, numbers or slots, in memory as the machine has them.
pub trait Item: Copy {
    fn put(self, bytes: &mut Vec<u8>);
    fn get(bytes: &[u8]) -> Self;
}

impl Item for u8 {
    fn put(self, bytes: &mut Vec<u8>) {
        bytes.push(self);
    }

    fn get(bytes: &[u8]) -> u8 {
        bytes[0]
    }
}

impl Item for u32 {
    fn put(self, bytes: &mut Vec<u8>) {
        bytes.extend(self.to_ne_bytes());
    }

    fn get(bytes: &[u8]) -> u32 {
        let (words, _) = bytes.as_chunks();
        u32::from_ne_bytes(words[0])
    }
}

/// Field by field; there are no gaps.
impl Item for pool_slot {
    fn put(self, bytes: &mut Vec<u8>) {
        let pool_slot { id, stage, r, s, d, e } = self;
        bytes.extend([id, stage].map(u32::to_ne_bytes).as_flattened());
        bytes.extend([r, s, d, e].map(u64::to_ne_bytes).as_flattened());
    }

    fn get(bytes: &[u8]) -> pool_slot {
        let (halves, _) = bytes.as_chunks();
        let (words, _) = bytes.as_chunks();
        let [r, s, d, e] = [1, 2, 3, 4].map(|k| u64::from_ne_bytes(words[k]));
        pool_slot { id: u32::from_ne_bytes(halves[0]), stage: u32::from_ne_bytes(halves[1]), r, s, d, e }
    }
}

/// The bytes that hold a buffer and its guards: on the heap, or whole pages between two that nobody may touch.
enum Memory {
    Heap(Vec<u8>),
    Pages(Pages),
}

impl Deref for Memory {
    type Target = [u8];

    fn deref(&self) -> &[u8] {
        match self {
            Memory::Heap(bytes) => bytes,
            Memory::Pages(pages) => pages.bytes(),
        }
    }
}

impl DerefMut for Memory {
    fn deref_mut(&mut self) -> &mut [u8] {
        match self {
            Memory::Heap(bytes) => bytes,
            Memory::Pages(pages) => pages.bytes_mut(),
        }
    }
}

/// Where a buffer stands.
enum Site {
    Heap,
    PageStart,
    PageEnd,
}

/// A lent buffer.
pub struct Lent<T = u8> {
    name: &'static str,
    memory: Memory,
    before: Vec<u8>,
    start: usize,
    /// In bytes.
    length: usize,
    /// An empty buffer is lent as NULL or as a pointer between the guards.
    null: bool,
    items: PhantomData<T>,
}

impl<T: Item> Lent<T> {
    /// A buffer that holds these items, to be read. Now and then it starts or ends at a page that may not even be read;
    /// its own pages may then not be written.
    pub fn of(name: &'static str, content: &[T], rng: &mut Rng) -> Lent<T> {
        let mut lent = Lent::held(name, content, rng);
        if let Memory::Pages(pages) = &mut lent.memory {
            pages.seal();
        }
        lent
    }

    /// A buffer that holds these items and may be written.
    pub fn held(name: &'static str, content: &[T], rng: &mut Rng) -> Lent<T> {
        let mut bytes = Vec::with_capacity(size_of_val(content));
        content.iter().for_each(|item| item.put(&mut bytes));
        Lent::of_bytes(name, &bytes, rng)
    }

    /// A buffer of so many random items, to be written.
    pub fn room(name: &'static str, count: usize, rng: &mut Rng) -> Lent<T> {
        let content = noise(rng, size_of::<T>() * count);
        Lent::of_bytes(name, &content, rng)
    }

    fn of_bytes(name: &'static str, content: &[u8], rng: &mut Rng) -> Lent<T> {
        let length = content.len();
        let site = match rng.below(32) {
            0 => Site::PageStart,
            1 => Site::PageEnd,
            _ => Site::Heap,
        };
        let whole = match site {
            Site::Heap => length + 2 * (GUARD + 16),
            _ => Pages::rounded(length),
        };
        let mut before = noise(rng, whole);
        let mut memory = match site {
            Site::Heap => Memory::Heap(before.clone()),
            _ => Memory::Pages(Pages::of(&before)),
        };
        let start = match site {
            Site::Heap => aligned::<T>(&memory, GUARD + rng.index(16)),
            Site::PageStart => 0,
            Site::PageEnd => whole - length,
        };
        before[start..start + length].copy_from_slice(content);
        memory.copy_from_slice(&before);
        let null = content.is_empty() && rng.chance(50);
        Lent { name, memory, before, start, length, null, items: PhantomData }
    }

    /// How many items.
    pub fn length(&self) -> usize {
        self.length / size_of::<T>()
    }

    pub fn pointer(&self) -> *const T {
        if self.null {
            return std::ptr::null();
        }
        self.memory[self.start..].as_ptr().cast()
    }

    pub fn pointer_mut(&mut self) -> *mut T {
        if self.null {
            return std::ptr::null_mut();
        }
        self.memory[self.start..].as_mut_ptr().cast()
    }

    /// The first items of the buffer as they are now.
    pub fn items(&self, count: usize) -> Vec<T> {
        let bytes = &self.memory[self.start..self.start + size_of::<T>() * count];
        bytes.chunks_exact(size_of::<T>()).map(T::get).collect()
    }

    /// All but the first `open` items of the buffer is as it was before the call, the guards too.
    pub fn kept_past(&self, open: usize) -> Result<(), String> {
        let free = self.start..self.start + size_of::<T>() * open;
        if self.memory[..free.start] == self.before[..free.start] && self.memory[free.end..] == self.before[free.end..]
        {
            return Ok(());
        }
        let changed = (0..self.memory.len()).find(|i| !free.contains(i) && self.memory[*i] != self.before[*i]);
        let at = changed.unwrap_or(0);
        let place = at as i64 - self.start as i64;
        let (old, new) = (self.before[at], self.memory[at]);
        let (name, length) = (self.name, self.length);
        Err(format!("byte {place} of the buffer '{name}' ({length} bytes) was {old:02x} and is {new:02x}"))
    }

    /// The whole buffer and its guards are as they were before the call.
    pub fn kept(&self) -> Result<(), String> {
        self.kept_past(0)
    }
}

/// The first place from `least` on where such items may stand.
fn aligned<T>(memory: &[u8], least: usize) -> usize {
    let address = memory.as_ptr() as usize + least;
    least + (address.next_multiple_of(align_of::<T>()) - address)
}

/// A number behind a pointer, between two others.
pub struct Word<T> {
    name: &'static str,
    cells: [T; 3],
    before: [T; 3],
}

impl<T: Copy + PartialEq + std::fmt::Debug> Word<T> {
    fn holding(name: &'static str, cells: [T; 3]) -> Word<T> {
        Word { name, cells, before: cells }
    }

    pub fn pointer(&mut self) -> *mut T {
        &raw mut self.cells[1]
    }

    pub fn value(&self) -> T {
        self.cells[1]
    }

    /// The numbers on both sides are as they were, and the number itself where the call was refused.
    pub fn kept(&self, refused: bool) -> Result<(), String> {
        let sides = self.cells[0] == self.before[0] && self.cells[2] == self.before[2];
        if sides && (!refused || self.cells[1] == self.before[1]) {
            return Ok(());
        }
        Err(format!("the result '{}' and its neighbours were {:x?} and are {:x?}", self.name, self.before, self.cells))
    }
}

pub fn word32(name: &'static str, rng: &mut Rng) -> Word<u32> {
    Word::holding(name, [(); 3].map(|()| rng.next_u64() as u32))
}

pub fn word_signed(name: &'static str, rng: &mut Rng) -> Word<i64> {
    Word::holding(name, [(); 3].map(|()| rng.next_u64() as i64))
}

pub fn word_size(name: &'static str, rng: &mut Rng) -> Word<usize> {
    Word::holding(name, [(); 3].map(|()| rng.next_u64() as usize))
}
