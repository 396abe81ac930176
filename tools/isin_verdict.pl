#!/usr/bin/perl
# Verdicts of identifiers by Perl's Algorithm::CheckDigits, for make_isin_vectors.py, which runs it.
# To run: perl tools/isin_verdict.pl < LIST; needs: apt-get install libalgorithm-checkdigits-perl
# LIST has an identifier to a line, as hexadecimal digits. A line 0 (passes), 4 (form) or 5 (check digit) is written for each.
# The form is tested here, since the module also takes spaces, lower case and any length.
use strict;
use warnings;
use Algorithm::CheckDigits;

my $isin = CheckDigits('isin');
while (my $line = <STDIN>) {
    chomp $line;
    my $text = pack 'H*', $line;
    if ($text !~ /\A[A-Z]{2}[A-Z0-9]{9}[0-9]\z/) {
        print "4\n";
    } elsif ($isin->is_valid($text)) {
        print "0\n";
    } else {
        print "5\n";
    }
}
