//! Stand-in for the crate `num-traits`: what the original calls, mapped to the operations of std.

use std::ops::{Add, Div, Mul, Neg, Rem, Sub};

pub trait Zero: Sized + Add<Self, Output = Self> {
    fn zero() -> Self;
    fn is_zero(&self) -> bool;
}

pub trait One: Sized + Mul<Self, Output = Self> {
    fn one() -> Self;
}

pub trait ToPrimitive {
    fn to_f64(&self) -> Option<f64>;
}

pub trait NumCast: Sized + ToPrimitive {
    fn from<T: ToPrimitive>(n: T) -> Option<Self>;
}

pub trait NumOps:
    Sized
    + Add<Output = Self>
    + Sub<Output = Self>
    + Mul<Output = Self>
    + Div<Output = Self>
    + Rem<Output = Self>
{
}

pub trait Num: PartialEq + Zero + One + NumOps {}

pub trait AsPrimitive<T: Copy + 'static>: Copy + 'static {
    fn as_(self) -> T;
}

pub trait PrimInt: Num + NumCast + Copy + Ord + Eq {}

/// Functions of one float; std has each under the same name.
macro_rules! float {
    ($($unary:ident)*) => {
        pub trait Float: Num + Copy + NumCast + PartialOrd + Neg<Output = Self> {
            fn infinity() -> Self;
            fn neg_infinity() -> Self;
            fn epsilon() -> Self;
            fn max_value() -> Self;
            fn min_value() -> Self;
            fn max(self, other: Self) -> Self;
            fn min(self, other: Self) -> Self;
            fn powf(self, n: Self) -> Self;
            fn powi(self, n: i32) -> Self;
            fn atan2(self, other: Self) -> Self;
            $(fn $unary(self) -> Self;)*
        }

        floats! { f32 [$($unary)*] f64 [$($unary)*] }
    };
}

macro_rules! floats {
    ($($t:ident [$($unary:ident)*])*) => {$(
        impl Float for $t {
            #[inline] fn infinity() -> Self { $t::INFINITY }
            #[inline] fn neg_infinity() -> Self { $t::NEG_INFINITY }
            #[inline] fn epsilon() -> Self { $t::EPSILON }
            #[inline] fn max_value() -> Self { $t::MAX }
            #[inline] fn min_value() -> Self { $t::MIN }
            #[inline] fn max(self, other: Self) -> Self { $t::max(self, other) }
            #[inline] fn min(self, other: Self) -> Self { $t::min(self, other) }
            #[inline] fn powf(self, n: Self) -> Self { $t::powf(self, n) }
            #[inline] fn powi(self, n: i32) -> Self { $t::powi(self, n) }
            #[inline] fn atan2(self, other: Self) -> Self { $t::atan2(self, other) }
            $(#[inline] fn $unary(self) -> Self { $t::$unary(self) })*
        }
    )*};
}

float! { abs recip sqrt sin cos acos ceil }

#[allow(non_snake_case)]
pub trait FloatConst {
    fn PI() -> Self;
}

macro_rules! float_const {
    ($($t:ident)*) => {$(
        impl FloatConst for $t {
            #[inline] fn PI() -> Self { std::$t::consts::PI }
        }
    )*};
}

float_const! { f32 f64 }

macro_rules! numbers {
    ($($t:ident $zero:literal $one:literal)*) => {$(
        impl Zero for $t {
            #[inline] fn zero() -> Self { $zero }
            #[inline] fn is_zero(&self) -> bool { *self == $zero }
        }
        impl One for $t {
            #[inline] fn one() -> Self { $one }
        }
        impl ToPrimitive for $t {
            #[inline] fn to_f64(&self) -> Option<f64> { Some(*self as f64) }
        }
        impl NumCast for $t {
            #[inline] fn from<T: ToPrimitive>(n: T) -> Option<Self> { n.to_f64().map(|x| x as $t) }
        }
        impl NumOps for $t {}
        impl Num for $t {}
        as_primitive! { $t => f32 f64 i32 u32 usize }
    )*};
}

macro_rules! as_primitive {
    ($from:ident => $($to:ident)*) => {$(
        impl AsPrimitive<$to> for $from {
            #[inline] fn as_(self) -> $to { self as $to }
        }
    )*};
}

numbers! { f32 0.0 1.0 f64 0.0 1.0 i32 0 1 u32 0 1 }

impl PrimInt for i32 {}
impl PrimInt for u32 {}
