// Stands in for `arrayvec` and `itoa`, which Rattle's kit has as Rust has them: what the sources call, and no more.
pub mod arrayvec {
    use std::ops::{Deref, DerefMut};

    #[derive(Debug)]
    pub struct CapacityError;

    #[derive(Clone)]
    pub struct ArrayVec<T, const CAP: usize>(Vec<T>);

    impl<T, const CAP: usize> ArrayVec<T, CAP> {
        pub fn new() -> Self {
            Self(Vec::with_capacity(CAP))
        }

        pub fn is_full(&self) -> bool {
            self.0.len() == CAP
        }

        pub fn push(&mut self, item: T) {
            assert!(!self.is_full());
            self.0.push(item);
        }

        pub fn insert(&mut self, at: usize, item: T) {
            assert!(!self.is_full());
            self.0.insert(at, item);
        }

        pub fn remove(&mut self, at: usize) -> T {
            self.0.remove(at)
        }

        pub fn truncate(&mut self, length: usize) {
            self.0.truncate(length);
        }

        pub fn clear(&mut self) {
            self.0.clear();
        }

        pub fn retain(&mut self, keeps: impl FnMut(&mut T) -> bool) {
            self.0.retain_mut(keeps);
        }

        pub fn try_extend_from_slice(&mut self, items: &[T]) -> Result<(), CapacityError>
        where
            T: Copy,
        {
            if CAP - self.0.len() < items.len() {
                return Err(CapacityError);
            }
            self.0.extend_from_slice(items);
            Ok(())
        }

        pub fn as_slice(&self) -> &[T] {
            &self.0
        }

        pub fn as_mut_slice(&mut self) -> &mut [T] {
            &mut self.0
        }
    }

    impl<T, const CAP: usize> Deref for ArrayVec<T, CAP> {
        type Target = [T];

        fn deref(&self) -> &[T] {
            &self.0
        }
    }

    impl<T, const CAP: usize> DerefMut for ArrayVec<T, CAP> {
        fn deref_mut(&mut self) -> &mut [T] {
            &mut self.0
        }
    }

    pub struct ArrayString<const CAP: usize>(String);

    impl<const CAP: usize> ArrayString<CAP> {
        pub fn new() -> Self {
            Self(String::with_capacity(CAP))
        }

        pub fn push_str(&mut self, text: &str) {
            assert!(text.len() <= CAP - self.0.len());
            self.0.push_str(text);
        }

        pub fn clear(&mut self) {
            self.0.clear();
        }

        pub fn as_str(&self) -> &str {
            &self.0
        }
    }
}

pub mod itoa {
    pub trait Integer: ToString {}

    impl Integer for u16 {}
    impl Integer for u32 {}
    impl Integer for i32 {}
    impl Integer for usize {}

    pub struct Buffer(String);

    impl Buffer {
        pub fn new() -> Self {
            Self(String::new())
        }

        pub fn format<I: Integer>(&mut self, n: I) -> &str {
            self.0 = n.to_string();
            &self.0
        }
    }
}
