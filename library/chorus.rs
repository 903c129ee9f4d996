//! The functions of chorus.h for Rust: a file to take into a crate, as `mod chorus;`. Each is described there.
#![allow(dead_code)]

#[repr(C)]
pub struct Handle {
    _private: [u8; 0],
}

#[repr(C)]
#[derive(Clone, Copy)]
struct Exchange {
    address: u64,
    copies: u64,
    call: u32,
    actor: u32,
    cache: u32,
    page: u32,
    pages: u32,
    to_cache: u32,
    to_page: u32,
    region: u32,
    write: u32,
    locked: u32,
    length: u32,
    live: u32,
    working: u32,
    bytes: [u8; 64],
}

const NOTHING: Exchange = Exchange {
    address: 0, copies: 0, call: 0, actor: 0, cache: 0, page: 0, pages: 0, to_cache: 0, to_page: 0, region: 0, write: 0,
    locked: 0, length: 0, live: 0, working: 0, bytes: [0; 64],
};

unsafe extern "C" {
    fn chorus_size() -> usize;
    fn chorus_begin(at: *mut Handle, frames: u32, page: u32, swap: u32);
    fn chorus_call(machine: *mut Handle, exchange: *mut Exchange) -> u32;
}

/// Why a call wasn't carried out, by the numbers of chorus.h.
#[derive(Clone, Copy, Debug, PartialEq, Eq)]
pub struct Why(pub u32);

/// What a region is.
#[derive(Clone, Copy, Debug, PartialEq, Eq)]
pub struct Region {
    pub actor: u32,
    pub cache: u32,
    pub first: u32,
    pub pages: u32,
    pub address: u64,
    pub write: bool,
    pub locked: bool,
}

/// How much there is.
#[derive(Clone, Copy, Debug, PartialEq, Eq)]
pub struct Counts {
    pub live: u32,
    pub working: u32,
    pub copies: u64,
}

/// A machine, which is closed when it is dropped.
pub struct Machine {
    room: Box<[Word]>,
    page: u32,
}

/// Room for a machine, at an address that 16 divides.
#[repr(C, align(16))]
#[derive(Clone, Copy)]
struct Word([u8; 16]);

impl Machine {
    pub fn open(frames: u32, page: u32, swap: u32) -> Result<Machine, Why> {
        let words = unsafe { chorus_size() }.div_ceil(16);
        let mut machine = Machine { room: vec![Word([0; 16]); words].into_boxed_slice(), page };
        unsafe { chorus_begin(machine.at(), frames, page, swap) };
        machine.stat()?;
        Ok(machine)
    }

    fn at(&mut self) -> *mut Handle {
        self.room.as_mut_ptr().cast()
    }

    fn call(&mut self, mut exchange: Exchange) -> Result<Exchange, Why> {
        match unsafe { chorus_call(self.at(), &mut exchange) } {
            0 => Ok(exchange),
            number => Err(Why(number)),
        }
    }

    pub fn actor(&mut self) -> Result<u32, Why> {
        Ok(self.call(Exchange { call: 0, ..NOTHING })?.actor)
    }

    pub fn exit(&mut self, actor: u32) -> Result<(), Why> {
        self.call(Exchange { call: 1, actor, ..NOTHING }).map(drop)
    }

    pub fn temp(&mut self, pages: u32) -> Result<u32, Why> {
        Ok(self.call(Exchange { call: 2, pages, ..NOTHING })?.cache)
    }

    pub fn destroy(&mut self, cache: u32) -> Result<(), Why> {
        self.call(Exchange { call: 3, cache, ..NOTHING }).map(drop)
    }

    pub fn copy(&mut self, from: (u32, u32), to: (u32, u32), pages: u32) -> Result<(), Why> {
        let (cache, page) = from;
        let (to_cache, to_page) = to;
        self.call(Exchange { call: 4, cache, page, to_cache, to_page, pages, ..NOTHING }).map(drop)
    }

    /// `move` is a word of Rust.
    pub fn move_pages(&mut self, from: (u32, u32), to: (u32, u32), pages: u32) -> Result<(), Why> {
        let (cache, page) = from;
        let (to_cache, to_page) = to;
        self.call(Exchange { call: 5, cache, page, to_cache, to_page, pages, ..NOTHING }).map(drop)
    }

    pub fn map(&mut self, actor: u32, cache: u32, first: u32, pages: u32, address: u64, write: bool) -> Result<u32, Why> {
        let asked = Exchange { call: 6, actor, cache, page: first, pages, address, write: write as u32, ..NOTHING };
        Ok(self.call(asked)?.region)
    }

    pub fn split(&mut self, region: u32, pages: u32) -> Result<u32, Why> {
        Ok(self.call(Exchange { call: 7, region, pages, ..NOTHING })?.region)
    }

    pub fn protect(&mut self, region: u32, write: bool) -> Result<(), Why> {
        self.call(Exchange { call: 8, region, write: write as u32, ..NOTHING }).map(drop)
    }

    pub fn lock(&mut self, region: u32) -> Result<(), Why> {
        self.call(Exchange { call: 9, region, ..NOTHING }).map(drop)
    }

    pub fn unlock(&mut self, region: u32) -> Result<(), Why> {
        self.call(Exchange { call: 10, region, ..NOTHING }).map(drop)
    }

    pub fn unmap(&mut self, region: u32) -> Result<(), Why> {
        self.call(Exchange { call: 11, region, ..NOTHING }).map(drop)
    }

    pub fn find(&mut self, actor: u32, address: u64) -> Result<u32, Why> {
        Ok(self.call(Exchange { call: 12, actor, address, ..NOTHING })?.region)
    }

    pub fn status(&mut self, region: u32) -> Result<Region, Why> {
        let e = self.call(Exchange { call: 13, region, ..NOTHING })?;
        Ok(Region {
            actor: e.actor, cache: e.cache, first: e.page, pages: e.pages, address: e.address, write: e.write != 0,
            locked: e.locked != 0,
        })
    }

    pub fn load(&mut self, actor: u32, address: u64, into: &mut [u8]) -> Result<(), Why> {
        let length = into.len().min(65) as u32;
        let e = self.call(Exchange { call: 14, actor, address, length, ..NOTHING })?;
        into.copy_from_slice(&e.bytes[..into.len()]);
        Ok(())
    }

    pub fn store(&mut self, actor: u32, address: u64, bytes: &[u8]) -> Result<(), Why> {
        let length = bytes.len().min(65) as u32;
        let mut e = Exchange { call: 15, actor, address, length, ..NOTHING };
        if bytes.len() <= 64 {
            e.bytes[..bytes.len()].copy_from_slice(bytes);
        }
        self.call(e).map(drop)
    }

    pub fn page_out(&mut self, frames: u32) -> Result<(), Why> {
        self.call(Exchange { call: 16, pages: frames, ..NOTHING }).map(drop)
    }

    pub fn stat(&mut self) -> Result<Counts, Why> {
        let e = self.call(Exchange { call: 17, ..NOTHING })?;
        Ok(Counts { live: e.live, working: e.working, copies: e.copies })
    }

    fn part(&self, address: u64, n: usize) -> usize {
        n.min(64).min((self.page as u64 - address % self.page as u64) as usize)
    }

    /// Several loads, one behind the other.
    pub fn read(&mut self, actor: u32, mut address: u64, mut into: &mut [u8]) -> Result<(), Why> {
        while !into.is_empty() {
            let part = self.part(address, into.len());
            let (front, rest) = into.split_at_mut(part);
            self.load(actor, address, front)?;
            into = rest;
            address += part as u64;
        }
        Ok(())
    }

    /// Several stores, one behind the other.
    pub fn write(&mut self, actor: u32, mut address: u64, mut bytes: &[u8]) -> Result<(), Why> {
        while !bytes.is_empty() {
            let part = self.part(address, bytes.len());
            self.store(actor, address, &bytes[..part])?;
            bytes = &bytes[part..];
            address += part as u64;
        }
        Ok(())
    }
}

impl Drop for Machine {
    fn drop(&mut self) {
        let _ = self.call(Exchange { call: 18, ..NOTHING });
    }
}
