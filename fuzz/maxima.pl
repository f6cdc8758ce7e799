# Reads messages as Net::DNS does: a message in hexadecimal on each line of standard input. It prints a line for each: its records, as
# maxima.py names them, or `-` if it reads no message there.
use strict;
use warnings;
use Net::DNS;
use Net::DNS::Parameters qw(classbyname typebyname);

while (my $line = <STDIN>) {
    chomp $line;
    my $octets = pack 'H*', $line;
    my ($packet, $used) = Net::DNS::Packet->decode(\$octets);
    print "-\n" and next unless $packet && $used == length $octets;
    print $packet->header->tc ? 1 : 0;
    my $section = 0;
    for my $records ([$packet->answer], [$packet->authority], [$packet->additional]) {
        $section++;
        for my $record (@$records) {
            next if $record->type eq 'OPT';
            my $owner = unpack 'H*', Net::DNS::DomainName->new($record->owner)->encode;
            my @head = ($section, $owner, typebyname($record->type), classbyname($record->class), $record->ttl);
            print ' ', join '/', @head, unpack 'H*', $record->rdata;
        }
    }
    print "\n";
}
