#!/usr/bin/perl
# generated_client.pl DOCUMENT PORT: a client that OpenAPI::Client makes of the document (Debian: libopenapi-client-perl)
# makes the calls that standard input lists, one JSON object a line, and prints the operation and the status of each.
use strict;
use warnings;
use Mojo::JSON qw(decode_json);
use OpenAPI::Client;

my ($document, $port) = @ARGV;
my $client = OpenAPI::Client->new($document);
$client->base_url->scheme('http')->host('127.0.0.1')->port($port);
while (my $line = <STDIN>) {
    my $asked = decode_json($line);
    my @body = defined $asked->{body} ? (json => $asked->{body}) : ();
    my $answer = $client->call($asked->{operation} => $asked->{parameters}, @body);
    my $error = $answer->error // {};
    print join(' ', $asked->{operation}, $answer->res->code // 0, $error->{message} // ''), "\n";
}
