# What Net::SNMP gets through a gateway, by each user at each level, beside what it gets from the device itself by SNMPv2c:
# gate_net_snmp.pl GATE-PORT DEVICE-PORT COMMUNITY CONTEXT
#
# It has neither SHA-256 nor, without Crypt::Rijndael, AES. It prints what differs, and how many exchanges were compared; the status is 1 if any differs.
use strict;
use warnings;
use Net::SNMP qw(:asn1);

my ($gate, $device, $community, $context) = @ARGV;
my $system = '1.3.6.1.2.1.1';
my %password = (md5 => 'syrupmaple', sha => 'another-one');

sub session {
    my ($port, %more) = @_;
    my ($session, $error) = Net::SNMP->session(-hostname => '127.0.0.1', -port => $port, -timeout => 3, -retries => 1, %more);
    die "no session: $error\n" unless $session;
    return $session;
}

sub told {
    my ($session, $found) = @_;
    return 'error ' . $session->error() unless defined $found;
    my $types = $session->var_bind_types();
    return join '|', map { "$_ $types->{$_} " . ($_ eq "$system.3.0" ? '' : $found->{$_}) } $session->var_bind_names();
}

# By its name what is compared; a GetBulk and a table want a context only of SNMPv3.
my %asks = (
    get => sub { my ($s, @in) = @_; told($s, $s->get_request(@in, -varbindlist => ["$system.1.0", "$system.5.0", "$system.99.0"])) },
    getnext => sub { my ($s, @in) = @_; told($s, $s->get_next_request(@in, -varbindlist => [$system, "$system.5.0"])) },
    getbulk => sub { my ($s, @in) = @_; told($s, $s->get_bulk_request(@in, -nonrepeaters => 1, -maxrepetitions => 4, -varbindlist => [$system, "$system.4"])) },
    table => sub { my ($s, @in) = @_; told($s, $s->get_table(@in, -baseoid => $system, -maxrepetitions => 7)) },
);
my @in = (-contextname => $context);
my ($count, $differ) = (0, 0);

sub judge {
    my ($name, $found, $expected) = @_;
    $count++;
    return if $found eq $expected;
    $differ++;
    print "differs: $name: $found instead of $expected\n";
}

for my $who (['plain', '', 1], ['md', 'md5', 2], ['md', 'md5', 3], ['sha', 'sha', 2], ['sha', 'sha', 3]) {
    my ($user, $hash, $level) = @$who;
    my @secret = $level >= 2 ? (-authprotocol => $hash, -authpassword => 'maplesyrup') : ();
    push @secret, (-privprotocol => 'aes', -privpassword => $password{$hash}) if $level == 3;
    for my $ask (sort keys %asks) {
        my $own = session($device, -version => 2, -community => $community);
        my $other = session($gate, -version => 3, -username => $user, @secret);
        judge("$user $level $ask", $asks{$ask}->($other, @in), $asks{$ask}->($own));
        $_->close() for $own, $other;
    }
    next if $level == 1;
    my $session = session($gate, -version => 3, -username => $user, @secret);
    my $set = told($session, $session->set_request(@in, -varbindlist => ["$system.4.0", OCTET_STRING, "by $user"]));
    judge("$user $level set", $set, "$system.4.0 " . OCTET_STRING . " by $user");
    $session->close();
}
print "$count exchanges compared, $differ differ\n";
exit($differ > 0);
