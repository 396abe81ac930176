/* Prices of bonds by a plain loop in C, for make_price_vectors.py, which compiles and runs it.
   To run: gcc -O2 -ffp-contract=off -o prices tools/price_vectors.c && ./prices < LIST; needs: apt-get install gcc
   LIST has a bond to a line: kind, periods, payments per year (all decimal; 0 reads as 2), coupon bits, yield bits (both
   hexadecimal). For each, the price bits are written. The price is document 01's with the payments of document 02, 2.3: each
   operation is one IEEE binary64 operation, rounded to nearest even. */
#include <float.h>
#include <inttypes.h>
#include <stdint.h>
#include <stdio.h>
#include <string.h>

#if FLT_EVAL_METHOD != 0
#error "a double operation is to be rounded to a double"
#endif

static double of_bits(uint64_t bits)
{
    double x;
    memcpy(&x, &bits, sizeof x);
    return x;
}

static uint64_t bits_of(double x)
{
    uint64_t bits;
    memcpy(&bits, &x, sizeof bits);
    return bits;
}

static double price(unsigned kind, unsigned periods, unsigned payments, double coupon, double yield)
{
    double a_year = payments == 0 ? 2.0 : payments;
    double d = 1.0 + yield / a_year;
    double p = 100.0;
    for (unsigned i = 0; i < periods; i++) {
        if (kind == 2)
            p = (p + coupon / a_year) / d;
        else
            p = p / d;
    }
    return p;
}

int main(void)
{
    unsigned kind, periods, payments;
    uint64_t coupon, yield;
    while (scanf("%u %u %u %" SCNx64 " %" SCNx64, &kind, &periods, &payments, &coupon, &yield) == 5)
        printf("%016" PRIx64 "\n", bits_of(price(kind, periods, payments, of_bits(coupon), of_bits(yield))));
    return 0;
}
