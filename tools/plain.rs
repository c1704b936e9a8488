// What the Rattle kit gives its programs, in stock Rust: an allocator that never fails, files, standard output,
// and small stand-ins for the libraries `arrayvec` and `anyhow`.

// `format!(in heap; ..)`
macro_rules! rt_format {
    (in $heap:expr; $($t:tt)*) => {{
        let _: $crate::kit::Global = $heap;
        Ok::<$crate::kit::String, $crate::kit::AllocError>($crate::kit::String::made(::std::format!($($t)*)))
    }};
}

// `vec![in heap; item; count]`
macro_rules! rt_vec {
    (in $heap:expr; $item:expr; $count:expr) => {{
        let _: $crate::kit::Global = $heap;
        Ok::<_, $crate::kit::AllocError>($crate::kit::Vec::made(::std::vec![$item; $count]))
    }};
}

// `print!(rt; ..)` and `println!(rt; ..)`
macro_rules! rt_print {
    ($rt:expr; $($t:tt)*) => { $crate::kit::print(&$rt, ::std::format_args!($($t)*)) };
}
macro_rules! rt_println {
    ($rt:expr; $($t:tt)*) => { $crate::kit::print(&$rt, ::std::format_args!("{}\n", ::std::format_args!($($t)*))) };
}

use std::io::Write as _;

pub mod prelude {
    pub use super::{AllocFailed, CollectIn, Drop, HostRuntime, RepeatIn, String, Vec, anyhow, arrayvec};
    pub use crate::crates::*;
}

// A bound that every type meets.
pub trait Drop {}
impl<T: ?Sized> Drop for T {}

pub trait Model {}

#[derive(Clone, Copy)]
pub struct Global;

#[derive(Clone, Copy, Debug, PartialEq, Eq)]
pub struct AllocError;

#[derive(Clone, Copy, Debug)]
pub struct AllocFailed<T>(pub T);

impl<T> From<AllocFailed<T>> for AllocError {
    fn from(_: AllocFailed<T>) -> AllocError {
        AllocError
    }
}

pub struct HostRuntime;

impl HostRuntime {
    pub fn alloc(&self) -> Global {
        Global
    }
}

// Takes a runtime or a reference to one.
pub trait Runtime {}
impl Runtime for HostRuntime {}
impl<T: Runtime> Runtime for &T {}

pub fn print<R: Runtime>(_: &R, text: std::fmt::Arguments<'_>) -> std::io::Result<()> {
    std::io::stdout().lock().write_fmt(text)
}

#[derive(Clone, Debug, PartialEq, Eq)]
pub struct String(std::string::String);

impl String {
    pub fn made(text: std::string::String) -> String {
        String(text)
    }
    pub fn new(_: Global) -> String {
        String(std::string::String::new())
    }
    pub fn from_str(_: Global, text: &str) -> Result<String, AllocError> {
        Ok(String(text.to_owned()))
    }
    pub fn push(&mut self, c: char) -> Result<(), AllocError> {
        self.0.push(c);
        Ok(())
    }
    pub fn push_str(&mut self, text: &str) -> Result<(), AllocError> {
        self.0.push_str(text);
        Ok(())
    }
    pub fn as_str(&self) -> &str {
        &self.0
    }
    pub fn as_bytes(&self) -> &[u8] {
        self.0.as_bytes()
    }
    pub fn len(&self) -> usize {
        self.0.len()
    }
    pub fn is_empty(&self) -> bool {
        self.0.is_empty()
    }
    // What `write!` and `writeln!` call.
    pub fn write_fmt(&mut self, text: std::fmt::Arguments<'_>) -> Result<(), AllocError> {
        std::fmt::Write::write_fmt(&mut self.0, text).map_err(|_| AllocError)
    }
}

impl std::fmt::Display for String {
    fn fmt(&self, f: &mut std::fmt::Formatter<'_>) -> std::fmt::Result {
        f.write_str(&self.0)
    }
}

#[derive(Clone, Debug, PartialEq, Eq)]
pub struct Vec<T>(std::vec::Vec<T>);

impl<T> Vec<T> {
    pub fn made(items: std::vec::Vec<T>) -> Vec<T> {
        Vec(items)
    }
    pub fn new(_: Global) -> Vec<T> {
        Vec(std::vec::Vec::new())
    }
    pub fn push(&mut self, item: T) -> Result<(), AllocFailed<T>> {
        self.0.push(item);
        Ok(())
    }
    pub fn as_slice(&self) -> &[T] {
        &self.0
    }
    pub fn as_mut_slice(&mut self) -> &mut [T] {
        &mut self.0
    }
    pub fn len(&self) -> usize {
        self.0.len()
    }
    pub fn is_empty(&self) -> bool {
        self.0.is_empty()
    }
}

// `.collect(heap)`
pub trait CollectIn: Iterator + Sized {
    fn collect_in(self, _: Global) -> Result<Vec<Self::Item>, AllocError> {
        Ok(Vec(self.collect()))
    }
}
impl<I: Iterator> CollectIn for I {}

// `.repeat(heap, n)`
pub trait RepeatIn {
    fn repeat_in(&self, heap: Global, count: usize) -> Result<String, AllocError>;
}
impl RepeatIn for str {
    fn repeat_in(&self, _: Global, count: usize) -> Result<String, AllocError> {
        Ok(String(self.repeat(count)))
    }
}

pub mod fs {
    use super::{HostRuntime, String, Vec};

    pub fn read(_: &HostRuntime, path: &str) -> std::io::Result<Vec<u8>> {
        Ok(Vec(std::fs::read(path)?))
    }
    pub fn read_to_string(_: &HostRuntime, path: &str) -> std::io::Result<String> {
        Ok(String(std::fs::read_to_string(path)?))
    }
}

pub mod anyhow {
    pub struct Error(std::string::String);
    pub type Result<T> = std::result::Result<T, Error>;

    impl std::fmt::Debug for Error {
        fn fmt(&self, f: &mut std::fmt::Formatter<'_>) -> std::fmt::Result {
            f.write_str(&self.0)
        }
    }
    impl From<std::io::Error> for Error {
        fn from(error: std::io::Error) -> Error {
            Error(error.to_string())
        }
    }
    impl From<super::AllocError> for Error {
        fn from(_: super::AllocError) -> Error {
            Error("no memory".to_owned())
        }
    }
}

pub mod arrayvec {
    #[derive(Clone, Debug, PartialEq, Eq)]
    pub struct ArrayVec<T, const N: usize>(std::vec::Vec<T>);

    #[derive(Clone, Copy, Debug)]
    pub struct CapacityError<T>(pub T);

    impl<T, const N: usize> ArrayVec<T, N> {
        pub fn new() -> ArrayVec<T, N> {
            ArrayVec(std::vec::Vec::new())
        }
        pub fn is_full(&self) -> bool {
            self.0.len() == N
        }
        pub fn try_push(&mut self, item: T) -> Result<(), CapacityError<T>> {
            if self.is_full() {
                return Err(CapacityError(item));
            }
            self.0.push(item);
            Ok(())
        }
        #[track_caller]
        pub fn push(&mut self, item: T) {
            assert!(!self.is_full(), "the array is full");
            self.0.push(item);
        }
        #[track_caller]
        pub fn remove(&mut self, index: usize) -> T {
            self.0.remove(index)
        }
        pub fn as_slice(&self) -> &[T] {
            &self.0
        }
    }

    impl<T, const N: usize> std::ops::Deref for ArrayVec<T, N> {
        type Target = [T];
        fn deref(&self) -> &[T] {
            &self.0
        }
    }
    impl<T, const N: usize> std::ops::DerefMut for ArrayVec<T, N> {
        fn deref_mut(&mut self) -> &mut [T] {
            &mut self.0
        }
    }
}
