/* The formula of documents 01 and 02 as a loop in C: what the proved pricer is measured beside. The numbers of payments that a book has are written
 * out, as in the proved code: a conversion takes longer by some compilers (docs/PERFORMANCE.md, "Prices"). */
#include <stdint.h>
#include <string.h>

static uint64_t bits(double price)
{
    uint64_t n;
    memcpy(&n, &price, sizeof n);
    return n;
}

static double yearly(uint8_t payments)
{
    switch (payments) {
    case 1: return 1.0;
    case 2: return 2.0;
    case 4: return 4.0;
    case 12: return 12.0;
    default: return payments;
    }
}

uint64_t c_price_zero(uint8_t periods, uint8_t payments, double yield)
{
    double d = 1.0 + yield / yearly(payments), p = 100.0;
    for (uint8_t i = 0; i < periods; i++)
        p = p / d;
    return bits(p);
}

uint64_t c_price_fixed(uint8_t periods, uint8_t payments, double coupon, double yield)
{
    double a_year = yearly(payments), d = 1.0 + yield / a_year, payment = coupon / a_year, p = 100.0;
    for (uint8_t i = 0; i < periods; i++)
        p = (p + payment) / d;
    return bits(p);
}
