// Included behind transformer.rs, in its module: the state that has no getter.
impl WeightedTransformer {
    pub fn statistics(&self) -> &[Deviation] {
        &self.deviations
    }

    pub fn statistics_mut(&mut self) -> &mut [Deviation] {
        &mut self.deviations
    }

    pub fn given_weights(&self) -> &[f32] {
        &self.weights
    }
}
