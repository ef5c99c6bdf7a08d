# Writes lines of words from a fixed seed, about 181 bytes for each hit: a word such as nee42dle, and after it a full stop and blanks.
# After 82,883 hits, which are 15 MB, a form feed begins a new page.
#   perl text.pl HITS
use strict;
my $seed = 12345;

sub below {
    $seed = ($seed * 16807) % 2147483647;
    return $seed % $_[0];
}

my @words = map { join '', map { chr(97 + below(26)) } 1 .. 2 + below(8) } 1 .. 4000;
for my $hit (1 .. $ARGV[0]) {
    my $line = '';
    $line .= $words[below(4000)] . (below(12) ? ' ' : "\n") while length $line < 157 + below(12);
    print $line, 'nee42dle.', ' ' x (1 + below(3)), "\t" x below(2), $words[below(4000)], "\n";
    print "\f" if $hit % 82883 == 0 && $hit < $ARGV[0];
}
