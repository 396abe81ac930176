//! Terms of a bond and its price, in binary64.

use std::ops::RangeInclusive;

/// "a bond's terms are one of two cases, zero or fixed, each carrying its rates"
#[derive(Clone, Copy, Debug)]
pub enum Terms {
    Zero { ytm: f64 },
    Fixed { coupon: f64, ytm: f64 },
}

/// An entry's terms with the count of its periods and the payments per year.
#[derive(Clone, Copy, Debug)]
pub struct Bond {
    pub periods: u8,
    pub payments: u8,
    pub terms: Terms,
}

/// "A yield now lies from -0.5 to 1, ends included" (document 02, 2.1)
const YIELDS: RangeInclusive<f64> = -0.5..=1.0;

/// "the payments per year: 1, 2, 4 or 12 [..]; an entry's terms in a table hold one of these four"
/// (document 02, 2.3)
pub const PAYMENTS: [u8; 4] = [1, 2, 4, 12];

/// The bits that stand for every NaN.
const NAN_BITS: u64 = 0x7FF8_0000_0000_0000;

impl Bond {
    /// What stands where there is no entry: all 0.
    pub const NONE: Bond = Bond { periods: 0, payments: 0, terms: Terms::Zero { ytm: 0.0 } };

    /// Whether every bit of it is clear.
    pub fn is_none(&self) -> bool {
        let no_terms = matches!(self.terms, Terms::Zero { ytm } if ytm.to_bits() == 0);
        self.periods == 0 && self.payments == 0 && no_terms
    }

    /// "periods (1 to 240 [..]) [..] Coupon lies from 0 to 100, [..] ends included; a NaN is outside.
    /// Negative zero is inside"; the yields and the payments are document 02's.
    pub fn in_range(&self) -> bool {
        let rates = match self.terms {
            Terms::Zero { ytm } => YIELDS.contains(&ytm),
            Terms::Fixed { coupon, ytm } => (0.0..=100.0).contains(&coupon) && YIELDS.contains(&ytm),
        };
        (1..=240).contains(&self.periods) && PAYMENTS.contains(&self.payments) && rates
    }

    /// The yield of either case.
    pub fn ytm(&self) -> f64 {
        match self.terms {
            Terms::Zero { ytm } | Terms::Fixed { ytm, .. } => ytm,
        }
    }

    /// The bits of the price.
    pub fn price(&self) -> u64 {
        match self.terms {
            Terms::Zero { ytm } => price_zero(self.periods, self.payments, ytm),
            Terms::Fixed { coupon, ytm } => price_fixed(self.periods, self.payments, coupon, ytm),
        }
    }
}

/// "Let d = 1 + yield / 2. Start from 100. Once per period, [..] a zero takes p / d." "Both divisions by 2 in
/// the formula become divisions by that number, also for a zero" (document 02, 2.3).
pub fn price_zero(periods: u8, payments: u8, ytm: f64) -> u64 {
    let d = 1.0 + ytm / f64::from(payments);
    bits((0..periods).fold(100.0, |p, _| p / d))
}

/// "Once per period, a fixed bond takes (p + coupon / 2) / d", by that number too.
pub fn price_fixed(periods: u8, payments: u8, coupon: f64, ytm: f64) -> u64 {
    let a_year = f64::from(payments);
    let d = 1.0 + ytm / a_year;
    bits((0..periods).fold(100.0, |p, _| (p + coupon / a_year) / d))
}

fn bits(price: f64) -> u64 {
    if price.is_nan() {
        NAN_BITS
    } else {
        price.to_bits()
    }
}

#[cfg(test)]
mod tests {
    use super::*;

    #[test]
    fn examples() {
        assert_eq!(price_fixed(2, 2, 4.0, 0.0), 104f64.to_bits());
        assert_eq!(price_zero(2, 2, 0.5), 64f64.to_bits());
        assert_eq!(price_fixed(1, 2, 10.0, 0.5), 84f64.to_bits());
    }

    /// By hand: no step is rounded.
    #[test]
    fn yields_below_zero() {
        assert_eq!(price_fixed(1, 2, 10.0, -0.25), 120f64.to_bits());
        assert_eq!(price_fixed(2, 2, 62.5, -0.5), 275f64.to_bits());
        assert_eq!(price_zero(1, 2, -0.4375), 128f64.to_bits());
    }

    /// By hand: no step is rounded.
    #[test]
    fn payments_per_year() {
        let zero = |periods, payments, ytm| f64::from_bits(price_zero(periods, payments, ytm));
        let fixed =
            |periods, payments, coupon, ytm| f64::from_bits(price_fixed(periods, payments, coupon, ytm));
        assert_eq!(
            [zero(1, 1, -0.5), zero(2, 1, 0.25), zero(2, 4, 1.0), zero(240, 12, 0.0)],
            [200.0, 64.0, 64.0, 100.0]
        );
        assert_eq!([fixed(1, 1, 5.0, 0.25), fixed(2, 1, 50.0, -0.5)], [84.0, 700.0]);
        assert_eq!([fixed(1, 4, 20.0, 1.0), fixed(1, 4, 20.0, -0.5)], [84.0, 120.0]);
        assert_eq!(
            [fixed(2, 12, 12.0, 0.0), fixed(1, 12, 9.0, -0.375), fixed(240, 12, 75.0, 0.75)],
            [102.0, 104.0, 100.0]
        );
        assert_eq!([price_zero(1, 0, 0.0), price_fixed(1, 0, 4.0, 0.05)], [NAN_BITS; 2]);
        assert_eq!([zero(1, 0, 0.05), zero(1, 0, -0.05), fixed(0, 0, 4.0, 0.0)], [0.0, -0.0, 100.0]);
    }

    #[test]
    fn ranges() {
        let fixed = |periods, coupon, ytm| {
            Bond { periods, payments: 2, terms: Terms::Fixed { coupon, ytm } }.in_range()
        };
        assert!(fixed(240, 100.0, 1.0) && fixed(1, -0.0, -0.0));
        assert!(!fixed(241, 4.0, 0.0) && !fixed(0, 4.0, 0.0));
        assert!(!fixed(2, 4.0, f64::NAN) && !fixed(2, f64::NAN, 0.0));
        assert!(!fixed(2, 100.0f64.next_up(), 0.0) && !fixed(2, 0.0f64.next_down(), 0.0));
    }

    #[test]
    fn payments_in_range() {
        let zero = |payments: &u8| Bond { periods: 2, payments: *payments, terms: Terms::Zero { ytm: 0.0 } };
        let inside: Vec<u8> = (0..=u8::MAX).filter(|payments| zero(payments).in_range()).collect();
        assert_eq!(inside, [1, 2, 4, 12]);
    }

    #[test]
    fn ends_of_a_yield() {
        let low = (-0.5f64).next_up();
        for kind in [|ytm| Terms::Zero { ytm }, |ytm| Terms::Fixed { coupon: 4.0, ytm }] {
            let inside = |ytm| Bond { periods: 2, payments: 1, terms: kind(ytm) }.in_range();
            assert!([-0.5, low, -0.25, -5e-324, -0.0, 0.0, 1.0].into_iter().all(inside));
            assert!(![(-0.5f64).next_down(), -1.0, 1.0f64.next_up(), f64::NAN].into_iter().any(inside));
        }
        assert_eq!([(-0.5f64).to_bits(), low.to_bits()], [0xBFE0_0000_0000_0000, 0xBFDF_FFFF_FFFF_FFFF]);
    }
}
