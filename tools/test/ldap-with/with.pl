# Asks tools/adsd-ldap by Net::LDAP: perl with.pl URL NAME PASSWORD BASE ACCOUNT. Prints what it found.
use strict;
use warnings;
use Net::LDAP;
use Net::LDAP::Control::Paged;
use Net::LDAP::Control::Sort;
use Net::LDAP::Control::VLV;
use Net::LDAP::Constant qw(LDAP_CONTROL_PAGED LDAP_CONTROL_VLVRESPONSE);

my ($url, $name, $password, $base, $account) = @ARGV;
sub must { my $told = shift; die $told->error if $told->code; return $told }

my $one = Net::LDAP->new($url) or die $@;
must($one->bind($name, password => $password));
my $schema = $one->schema or die "no schema";
print "schema ", $schema->attribute('cn')->{name}, " ", $schema->objectclass('user')->{name}, "\n";
my ($page, $cookie, $count) = (Net::LDAP::Control::Paged->new(size => 50), undef, 0);
while (1) {
    my $found = must($one->search(base => $base, filter => '(objectClass=*)', attrs => ['1.1'], control => [$page]));
    $count += $found->entries;
    my ($told) = $found->control(LDAP_CONTROL_PAGED) or last;
    $cookie = $told->cookie or last;
    $page->cookie($cookie);
}
print "paged ", ($count > 10 ? 1 : 0), "\n";
my $sort = Net::LDAP::Control::Sort->new(order => 'cn');
my $view = Net::LDAP::Control::VLV->new(before => 0, after => 2, content => 0, offset => 2);
my $found = must($one->search(base => $base, filter => '(cn=*)', attrs => ['cn'], control => [$sort, $view]));
my ($told) = $found->control(LDAP_CONTROL_VLVRESPONSE) or die "no view";
print "view ", scalar($found->entries), " ", $told->target, "\n";
$found = must($one->search(base => $base, filter => "(sAMAccountName=$account)", attrs => ['cn']));
print "found ", $found->entry(0)->get_value('cn'), "\n";
must($one->add("OU=by perl,$base", attrs => [objectClass => 'organizationalUnit']));
must($one->modify("OU=by perl,$base", replace => { description => 'by Perl' }));
must($one->moddn("OU=by perl,$base", newrdn => 'OU=by Net::LDAP', deleteoldrdn => 1));
must($one->delete("OU=by Net::LDAP,$base"));
print "refused ", $one->bind($name, password => 'wrong')->code, "\n";
