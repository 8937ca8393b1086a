//! Stands in for the crate `allocator_api2`: a vector that takes an allocator and does without it.
pub mod vec {
    pub struct Vec<T, A>(pub std::vec::Vec<T>, std::marker::PhantomData<A>);

    impl<T, A> Vec<T, A> {
        pub fn new_in(_: A) -> Self {
            Vec(std::vec::Vec::new(), std::marker::PhantomData)
        }

        pub fn push(&mut self, x: T) {
            self.0.push(x)
        }
    }
}
