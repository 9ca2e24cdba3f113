#!/usr/bin/perl
# A worker in Perl, without modules from outside: examples/worker.pl PORT COMMAND [WORD ..]
#
# It takes one job after the other from the server at PORT of 127.0.0.1 and runs COMMAND with the job's payload as its
# last word. The job is done if that ends with status 0; otherwise it fails, and comes back as the server's options
# say. COMMAND must be safe to repeat: a job whose `DONE` the server never read comes back.
#
#   SIGTERM, SIGINT      finishes the job in hand, leaves, and ends with status 0; without a job within two seconds
#   WORKER_SESSION=30    seconds after which it leaves between two jobs and connects again, so that a server which is
#                        to be replaced can end
#   WORKER_PATIENCE=60   seconds for which it looks for a server that serves it; then it ends with status 1
#
# Printed is a line for each job that it ran, and one at the end. Standard error says what went wrong. Status: 0
# after a signal; 1 if there was no server for that long; 2 if an argument is wrong.
use strict;
use warnings;
use IO::Handle;
use IO::Select;
use IO::Socket::INET;
use Socket qw(IPPROTO_TCP TCP_NODELAY);
use Time::HiRes qw(sleep time);

my ($port, @command) = @ARGV;
unless (@command and $port =~ /^[1-9][0-9]{0,4}$/) {
    warn "usage: worker.pl PORT COMMAND [WORD ..]\n";
    exit 2;
}
my $session_seconds = $ENV{WORKER_SESSION} // 30;
my $patience = $ENV{WORKER_PATIENCE} // 60;

my $stopping = 0;
$SIG{TERM} = $SIG{INT} = sub { $stopping = 1 };
$SIG{PIPE} = 'IGNORE';    # a failing write shows that a server is gone
STDOUT->autoflush(1);

my %count = (done => 0, again => 0, dead => 0, lost => 0, unheard => 0);

# Sends a request and gives its reply without the line feed, or nothing once the connection is lost.
sub ask {
    my ($socket, $request) = @_;
    my $line = "$request\n";
    while (length $line) {
        my $written = syswrite $socket, $line;
        next if !defined $written and $!{EINTR};
        return unless defined $written;
        substr $line, 0, $written, '';
    }
    my $reply = '';
    my $wait = IO::Select->new($socket);
    my $until;
    while ($reply !~ /\n\z/) {    # one request at a time, so nothing follows the reply
        $until //= time + 2 if $stopping;    # while all workers are busy there may be no reply for a long time
        return if defined $until and time > $until;
        next unless $wait->can_read(0.2);
        my $read = sysread $socket, $reply, 4096, length $reply;
        next if !defined $read and $!{EINTR};
        return unless $read;
        $reply =~ s/\ARUN .*\n//;    # what a service says first
    }
    chomp $reply;
    return $reply;
}

# Runs the command on a payload, and tells whether it ended with status 0. Signals to stop are for this worker alone.
sub deliver {
    my ($payload) = @_;
    my $child = fork // die "worker.pl: fork: $!\n";
    if ($child == 0) {
        setpgrp;
        $SIG{TERM} = $SIG{INT} = $SIG{PIPE} = 'DEFAULT';
        exec {$command[0]} @command, $payload or exit 127;
    }
    while (waitpid($child, 0) < 0) { die "worker.pl: wait: $!\n" unless $!{EINTR} }
    return $? == 0;
}

# Runs a job, and tells the server. False if the session is of no more use: it is lost, or the run is full.
sub work_off {
    my ($socket, $id, $attempt, $payload) = @_;    # the id stays text, so no number is too large
    my $request = deliver($payload) ? "DONE $id" : "FAIL $id";
    my $reply = ask($socket, $request);
    for (my $try = 1; defined $reply and $reply eq 'ERR 7 memory' and $try < 5; $try++) {
        sleep 0.2 * $try;
        $reply = ask($socket, $request);
    }
    my $ending = !defined $reply ? 'unheard'
        : $reply =~ /^DONE / ? 'done'
        : $reply =~ /^AGAIN / ? 'again'
        : $reply =~ /^DEAD / ? 'dead'
        : 'lost';    # ERR 6 full: at the end of the session the server drops it
    $count{$ending}++;
    print "$payload, attempt $attempt: $ending\n";
    warn "worker.pl: $payload was lost: $reply\n" if $ending eq 'lost';
    return $ending ne 'unheard' && $ending ne 'lost';
}

# Serves one session. True if the server served it, so that the next pause is short again.
sub serve_session {
    my ($socket) = @_;
    my $until = time + $session_seconds;
    my $was_served = 0;
    while (!$stopping and time < $until) {
        my $reply = ask($socket, 'POLLFOR 1000000000') // return $was_served;    # nanoseconds
        if (my ($id, $attempt, $payload) = $reply =~ /^ITEM (\d+) \d+ (\d+) (\S+)$/) {
            $was_served = 1;
            work_off($socket, $id, $attempt, $payload) or last;
        } elsif ($reply eq 'ERR 6 full') {
            $was_served = 0;    # a pause, in which the server can end
            last;
        } elsif ($reply eq 'NONE' or $reply eq 'STOPPED') {
            $was_served = 1;
        } else {
            die "worker.pl: the server answered '$reply'\n";
        }
    }
    ask($socket, 'QUIT');
    return $was_served;
}

my $pause = 0.1;
my $looked_since = time;
while (!$stopping) {
    my $socket = IO::Socket::INET->new(PeerAddr => '127.0.0.1', PeerPort => $port, Proto => 'tcp');
    if ($socket) {
        setsockopt $socket, IPPROTO_TCP, TCP_NODELAY, 1;
        if (serve_session($socket)) {
            $pause = 0.1;
            $looked_since = time;
        }
        close $socket;
    }
    last if $stopping;
    if (time > $looked_since + $patience) {
        warn "worker.pl: no server at port $port has served it for $patience s\n";
        last;
    }
    sleep $pause;
    $pause = $pause * 2 > 5 ? 5 : $pause * 2;
}
print join(', ', map {"$_ $count{$_}"} qw(done again dead lost unheard)), "\n";
exit($stopping ? 0 : 1);
