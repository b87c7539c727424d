//! What the translated code calls of the kit and of the system: standard input and output as bytes of this thread, and calls that go wrong.

pub mod system {
    use crate::stdio::{Error, Result};
    use std::cell::RefCell;

    /// How the calls on a stream go wrong: those from `first` to `last`, counted from 1, fail with `error`, and the others move
    /// at most so many bytes.
    #[derive(Clone, Copy)]
    pub struct Faults {
        pub first: u32,
        pub last: u32,
        pub error: i32,
        pub most: usize,
    }

    pub const NO_FAULTS: Faults = Faults { first: 1, last: 0, error: 0, most: usize::MAX };

    struct Stream {
        bytes: Vec<u8>, // an input's, or those written
        done: usize, // how many of an input's bytes were read
        calls: u32,
        faults: Faults,
    }

    impl Stream {
        const fn new(bytes: Vec<u8>, faults: Faults) -> Stream {
            Stream { bytes, done: 0, calls: 0, faults }
        }

        /// How many bytes a call is to move of so many, or why it fails.
        fn moves(&mut self, size: usize) -> Result<usize> {
            self.calls += 1;
            if (self.faults.first..=self.faults.last).contains(&self.calls) {
                return Err(Error::from_raw_os_error(self.faults.error));
            }
            Ok(size.min(self.faults.most))
        }
    }

    thread_local! {
        static INPUT: RefCell<Stream> = const { RefCell::new(Stream::new(Vec::new(), NO_FAULTS)) };
        static OUTPUT: RefCell<Stream> = const { RefCell::new(Stream::new(Vec::new(), NO_FAULTS)) };
    }

    /// What a run prints.
    pub fn printed(input: Vec<u8>, reads: Faults, writes: Faults, run: impl FnOnce()) -> Vec<u8> {
        INPUT.set(Stream::new(input, reads));
        OUTPUT.set(Stream::new(Vec::new(), writes));
        run();
        OUTPUT.with_borrow_mut(|output| std::mem::take(&mut output.bytes))
    }

    pub fn read(buffer: &mut [u8]) -> Result<usize> {
        INPUT.with_borrow_mut(|input| {
            let most = input.moves(buffer.len())?;
            let left = &input.bytes[input.done..];
            let size = left.len().min(most);
            buffer[..size].copy_from_slice(&left[..size]);
            input.done += size;
            Ok(size)
        })
    }

    pub fn write(bytes: &[u8]) -> Result<usize> {
        OUTPUT.with_borrow_mut(|output| {
            let size = output.moves(bytes.len())?;
            output.bytes.extend(&bytes[..size]);
            Ok(size)
        })
    }
}

/// What stands for `std::io`, whose errors are values of no resource in Rattle, and for the handles that `main` is given.
pub mod stdio {
    pub use std::io::ErrorKind;

    #[derive(Clone, Copy)]
    pub struct Error(i32);

    pub type Result<T> = std::result::Result<T, Error>;

    impl Error {
        pub fn from_raw_os_error(number: i32) -> Error {
            Error(number)
        }

        pub fn kind(&self) -> ErrorKind {
            std::io::Error::from_raw_os_error(self.0).kind()
        }
    }

    pub trait Read {
        fn read(&mut self, buffer: &mut [u8]) -> Result<usize>;
    }

    pub trait Write {
        fn write(&mut self, bytes: &[u8]) -> Result<usize>;
    }

    pub trait Eprint {}

    #[derive(Clone, Copy)]
    pub struct HostRuntime;

    impl HostRuntime {
        pub fn stdin(self) -> HostRuntime {
            self
        }

        pub fn stdout(self) -> HostRuntime {
            self
        }

        pub fn stderr(self) -> HostRuntime {
            self
        }
    }

    impl Read for HostRuntime {
        fn read(&mut self, buffer: &mut [u8]) -> Result<usize> {
            crate::system::read(buffer)
        }
    }

    impl Write for HostRuntime {
        fn write(&mut self, bytes: &[u8]) -> Result<usize> {
            crate::system::write(bytes)
        }
    }

    impl Eprint for HostRuntime {}
}

/// What stands for `reason` of `streams`: a line on standard error, which no limit depends on.
pub mod reason {
    use crate::stdio::{Eprint, Error, Result};

    pub fn error_of(got: Result<usize>) -> Error {
        got.err().unwrap_or(Error::from_raw_os_error(0))
    }

    pub fn fail<E: Eprint>(_: &E, _: &str, _: Error) {}
}

pub mod io {
    pub fn decimal(n: u64, text: &mut [u8; 20]) -> usize {
        let digits = n.to_string();
        text[..digits.len()].copy_from_slice(digits.as_bytes());
        digits.len()
    }
}

pub mod num {
    pub fn nearest_u32_to_f32(n: u32) -> f32 {
        n as f32
    }
}
