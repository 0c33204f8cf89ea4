//! Stands in for the crate tsecon_stats, which is not among the sources: document 01's normal log density.
pub mod dist {
    pub trait ContinuousDist {
        fn ln_pdf(&self, x: f64) -> f64;
    }

    pub struct StdNormal;

    /// Half the logarithm of two pi.
    const C: f64 = 0.91893853320467274178;

    impl ContinuousDist for StdNormal {
        #[inline]
        fn ln_pdf(&self, z: f64) -> f64 {
            (-0.5 * z) * z - C
        }
    }
}
