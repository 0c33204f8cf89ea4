
// Appended by the oracle's build: the stationary shares, which model.rs keeps to itself.
impl MarkovSwitchingAr<'_> {
    pub fn shares(&self, params: &MsarParams) -> Result<Vec<f64>, RegimeError> {
        self.stationary_distribution(params)
    }
}
