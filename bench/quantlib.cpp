// QuantLib's price of a bond from its yield: what a desk would pick. A bond is made once and priced many times, as a desk does;
// periods are counted 30/360 from a coupon date, the yield is compounded as often as there are payments, and the price is clean, which it
// is on that date.
#include <cstdint>
#include <memory>

#include <ql/instruments/bonds/fixedratebond.hpp>
#include <ql/instruments/bonds/zerocouponbond.hpp>
#include <ql/pricingengines/bond/bondfunctions.hpp>
#include <ql/settings.hpp>
#include <ql/time/calendars/nullcalendar.hpp>
#include <ql/time/daycounters/thirty360.hpp>
#include <ql/time/schedule.hpp>

using namespace QuantLib;

// QuantLib's last date is in 2199, and a bond of 240 yearly payments has to end before it.
static const Date struck(15, January, 1950);
static const Thirty360 thirty_days(Thirty360::BondBasis);

// QuantLib's frequencies are the payments of a year: 1 annual, 2 semiannual, 4 quarterly, 12 monthly.
static Frequency frequency(uint8_t payments)
{
    return Frequency(payments);
}

extern "C" Bond *quantlib_bond(uint8_t periods, uint8_t payments, double coupon)
{
    Settings::instance().evaluationDate() = struck;
    Date end = struck + Period(12 / payments * periods, Months);
    if (coupon == 0.0)
        return new ZeroCouponBond(0, NullCalendar(), 100.0, end, Unadjusted, 100.0, struck);
    Schedule dates(struck, end, Period(frequency(payments)), NullCalendar(), Unadjusted, Unadjusted, DateGeneration::Backward, false);
    return new FixedRateBond(0, 100.0, dates, {coupon / 100.0}, thirty_days, Unadjusted);
}

extern "C" double quantlib_price(const Bond *bond, uint8_t payments, double yield)
{
    return BondFunctions::cleanPrice(*bond, yield, thirty_days, Compounded, frequency(payments), struck);
}
