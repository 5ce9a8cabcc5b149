//! Stand-in for the crate `rand`: the names in the bounds of the original's sampling functions.
//! Nothing in scope draws random numbers, so no generator is given.

pub trait Rng {}

pub trait RngExt: Rng {
    fn random<T>(&mut self) -> T
    where
        distr::StandardUniform: distr::Distribution<T>,
        Self: Sized,
    {
        distr::Distribution::sample(&distr::StandardUniform, self)
    }
}

impl<R: Rng> RngExt for R {}

pub mod distr {
    pub struct StandardUniform;

    pub trait Distribution<T> {
        fn sample<R: crate::Rng>(&self, rng: &mut R) -> T;
    }
}
