//! The smallest stand-ins for what the source leans on and is not there: the forest's names, as types of which no value can exist.

/// For `crate::rcf`.
pub mod rcf {
    use crate::types::Result;
    use std::convert::Infallible;
    use std::marker::PhantomData;

    pub struct RCFLarge<Label, Attributes>(Infallible, PhantomData<(Label, Attributes)>);

    pub trait AugmentedRCF<Label, Attributes> {
        fn update(&mut self, point: &[f32], label: Label) -> Result<()>;
    }

    impl<Label, Attributes> AugmentedRCF<Label, Attributes> for RCFLarge<Label, Attributes> {
        fn update(&mut self, _point: &[f32], _label: Label) -> Result<()> {
            match self.0 {}
        }
    }
}

/// For `crate::samplerplustree`, which divector.rs names.
pub mod samplerplustree {
    pub mod boundingbox {
        pub enum BoundingBox {}

        impl BoundingBox {
            pub fn get_min_values(&self) -> &[f32] {
                match *self {}
            }

            pub fn get_max_values(&self) -> &[f32] {
                match *self {}
            }

            pub fn get_range_sum(&self) -> f64 {
                match *self {}
            }
        }
    }
}
