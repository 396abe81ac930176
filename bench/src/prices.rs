//! Prices of fixed and zero bonds of 1, 60 and 240 periods with two payments a year, and of one with twelve: the proved pricer, the same
//! loop in C and in Rust, and QuantLib.
//! The C is compiled twice, by gcc and by clang, which has the same back end as the proved code. The columns of clang and of
//! QuantLib are there where the features are.

use crate::c::{rakhvide_price_fixed, rakhvide_price_zero};
use crate::timing::{best, Work};
use std::hint::black_box;

extern "C" {
    fn c_price_zero(periods: u8, payments: u8, ytm: f64) -> u64;
    fn c_price_fixed(periods: u8, payments: u8, coupon: f64, ytm: f64) -> u64;
    #[cfg(feature = "clang")]
    fn clang_price_zero(periods: u8, payments: u8, ytm: f64) -> u64;
    #[cfg(feature = "clang")]
    fn clang_price_fixed(periods: u8, payments: u8, coupon: f64, ytm: f64) -> u64;
}

const COUPON: f64 = 4.5;

/// A bond without its yield; a zero has the coupon 0.
#[derive(Clone, Copy, Debug)]
struct Bond {
    periods: u8,
    payments: u8,
    coupon: f64,
}

/// What the proved pricer is measured beside: its name as the head of a column and in a ratio, and the decimals of both.
struct Other(&'static str, &'static str, usize, usize);

const OTHERS: &[Other] = &[
    Other("C by gcc", "gcc", 1, 2),
    #[cfg(feature = "clang")]
    Other("C by clang", "clang", 1, 2),
    Other("Rust", "Rust", 1, 2),
    #[cfg(feature = "quantlib")]
    Other("QuantLib", "QuantLib", 0, 4),
];

/// Yields that differ, so that no price is worked out once for all.
fn yields(count: usize) -> Vec<f64> {
    (0..count).map(|i| 0.02 + 0.04 * i as f64 / count as f64).collect()
}

fn sum(yields: &[f64], price: impl Fn(f64) -> u64) -> u64 {
    yields.iter().fold(0, |total, &ytm| total.wrapping_add(price(ytm)))
}

/// A bond's price by its yield, by the function for its kind.
fn by_kind(
    Bond { periods, payments, coupon }: Bond,
    price_zero: impl Fn(u8, u8, f64) -> u64 + Copy,
    price_fixed: impl Fn(u8, u8, f64, f64) -> u64 + Copy,
) -> impl Fn(f64) -> u64 + Copy {
    let zero = coupon == 0.0;
    move |y| if zero { price_zero(periods, payments, y) } else { price_fixed(periods, payments, coupon, y) }
}

fn proved(bond: Bond) -> impl Fn(f64) -> u64 + Copy {
    by_kind(
        bond,
        |periods, payments, y| unsafe { rakhvide_price_zero(periods, payments, y) },
        |periods, payments, coupon, y| unsafe { rakhvide_price_fixed(periods, payments, coupon, y) },
    )
}

/// A round over the yields, whose prices are the proved ones bit for bit.
fn round<'a>(
    yields: &'a [f64],
    proved: impl Fn(f64) -> u64,
    price: impl Fn(f64) -> u64 + 'a,
) -> Box<Work<'a>> {
    for &y in yields {
        assert_eq!(proved(y), price(y));
    }
    Box::new(move || {
        black_box(sum(yields, &price));
    })
}

#[cfg(feature = "quantlib")]
mod quantlib {
    use super::*;

    enum Made {}

    extern "C" {
        fn quantlib_bond(periods: u8, payments: u8, coupon: f64) -> *const Made;
        fn quantlib_price(bond: *const Made, payments: u8, ytm: f64) -> f64;
    }

    fn price(bond: Bond) -> impl Fn(f64) -> f64 {
        let made = unsafe { quantlib_bond(bond.periods, bond.payments, bond.coupon) };
        move |y| unsafe { quantlib_price(made, bond.payments, y) }
    }

    /// Nanoseconds of a price.
    pub fn time(bond: Bond, yields: &[f64]) -> f64 {
        let price = price(bond);
        let few = &yields[..yields.len().min(200)];
        let mut works: [Box<Work>; 1] = [Box::new(|| {
            black_box(sum(few, |y| price(y).to_bits()));
        })];
        best(20, few.len(), &mut works)[0]
    }

    const PERIODS: [u8; 7] = [1, 2, 12, 60, 120, 239, 240];
    const YIELDS: [f64; 11] = [-0.5, -0.25, -0.01, -0.0015, 0.0, 0.001, 0.02, 0.0425, 0.15, 0.5, 1.0];
    /// QuantLib has a payment as 100 * ((1 + rate * time) - 1). What that rounds off shows where the price is little but payments and
    /// these are small: with a coupon of 0.01 two prices may differ by 7e-12.
    const COUPONS: [f64; 5] = [0.5, 2.375, COUPON, 25.0, 100.0];

    /// The largest relative difference of the proved prices and QuantLib's over the periods and yields. QuantLib adds up discounted
    /// payments, so that the two agree to twelve decimal digits and not to the bit.
    fn largest_difference(payments: u8, coupon: f64) -> f64 {
        let mut largest = 0.0;
        for bond in PERIODS.map(|periods| Bond { periods, payments, coupon }) {
            let (formula, price) = (proved(bond), price(bond));
            for y in YIELDS {
                let found = (f64::from_bits(formula(y)) / price(y) - 1.0).abs();
                assert!(found < 1e-12, "{bond:?} at {y}: QuantLib differs by {found:e}");
                largest = found.max(largest);
            }
        }
        largest
    }

    /// A line for each number of payments per year. Stops where a price differs in its first twelve digits.
    pub fn differences() {
        println!("\n| payments a year | prices | largest relative difference to QuantLib, zero | fixed |");
        println!("|---|---|---|---|");
        for payments in [1, 2, 4, 12] {
            let prices = (1 + COUPONS.len()) * PERIODS.len() * YIELDS.len();
            let zero = largest_difference(payments, 0.0);
            let fixed =
                COUPONS.map(|coupon| largest_difference(payments, coupon)).into_iter().fold(0.0, f64::max);
            println!("| {payments} | {prices} | {zero:.1e} | {fixed:.1e} |");
        }
    }
}

/// Nanoseconds of a price: the proved one first, then the others.
fn times(bond: Bond) -> Vec<f64> {
    let ys = yields(40_000 / (bond.periods as usize + 4));
    let proved = proved(bond);
    let c = by_kind(
        bond,
        |periods, payments, y| unsafe { c_price_zero(periods, payments, y) },
        |periods, payments, coupon, y| unsafe { c_price_fixed(periods, payments, coupon, y) },
    );
    #[cfg(feature = "clang")]
    let clang = by_kind(
        bond,
        |periods, payments, y| unsafe { clang_price_zero(periods, payments, y) },
        |periods, payments, coupon, y| unsafe { clang_price_fixed(periods, payments, coupon, y) },
    );
    let rust = by_kind(bond, second::price::price_zero, second::price::price_fixed);
    let mut rounds = [
        round(&ys, proved, proved),
        round(&ys, proved, c),
        #[cfg(feature = "clang")]
        round(&ys, proved, clang),
        round(&ys, proved, rust),
    ];
    let times = best(if bond.periods == 1 { 2_000 } else { 200 }, ys.len(), &mut rounds);
    #[cfg(feature = "quantlib")]
    let times = [times, vec![quantlib::time(bond, &ys)]].concat();
    times
}

fn row(bond: Bond) {
    let times = times(bond);
    let beside = || times[1..].iter().zip(OTHERS);
    let kind = if bond.coupon == 0.0 { "zero" } else { "fixed" };
    print!("| {kind} of {}, {} a year | {:.1} |", bond.periods, bond.payments, times[0]);
    for (time, Other(_, _, decimals, _)) in beside() {
        print!(" {time:.decimals$} |");
    }
    for (time, Other(_, _, _, decimals)) in beside() {
        print!(" {:.decimals$} |", times[0] / time);
    }
    println!();
}

pub fn table() {
    let columns: String = OTHERS.iter().map(|other| format!(" {}, ns |", other.0)).collect();
    let ratios: String = OTHERS.iter().map(|other| format!(" proved / {} |", other.1)).collect();
    println!("| bond, periods | proved, ns |{columns}{ratios}");
    println!("|---|---|{}", "---|".repeat(2 * OTHERS.len()));
    for coupon in [COUPON, 0.0] {
        for periods in [1, 60, 240] {
            row(Bond { periods, payments: 2, coupon });
        }
    }
    row(Bond { periods: 240, payments: 12, coupon: COUPON });
    #[cfg(feature = "quantlib")]
    quantlib::differences();
}
