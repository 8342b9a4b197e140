# Net::SNMP's GetBulkRequest and get_table, of an agent on 127.0.0.1: bulk.pl PORT [MSGMAXSIZE]
use strict;
use warnings;
use Net::SNMP;

my ($port, $size) = @ARGV;
my ($session, $error) = Net::SNMP->session(
    -hostname => '127.0.0.1', -port => $port, -version => 3, -timeout => 2, -retries => 0, -username => 'sha', -authprotocol => 'sha',
    -authpassword => 'maplesyrup', -privprotocol => 'aes', -privpassword => 'another-one', $size ? (-maxmsgsize => $size) : ());
die "no session: $error\n" unless $session;

sub print_found {
    my ($what, $found) = @_;
    print defined $found ? "$what: " . scalar(keys %$found) . "\n" : "$what: " . $session->error() . "\n";
}

my $table = '1.3.6.1.2.1.1.9.1.3';
print_found('bulk', $session->get_bulk_request(-maxrepetitions => 100, -varbindlist => [$table]));
print_found('table', $session->get_table(-baseoid => $table, -maxrepetitions => 60));
