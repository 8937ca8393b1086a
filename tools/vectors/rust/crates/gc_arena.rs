//! Stands in for the crate `gc_arena`. Nothing is collected here, which no answer can tell.
pub use derives::Collect;

pub mod allocator_api {
    pub struct MetricsAlloc;

    impl MetricsAlloc {
        pub fn new<T>(_: &T) -> Self {
            MetricsAlloc
        }
    }
}
