# What Perl's IPC::Msg and its own calls do with queues: run on the system's own and by `msgq with`, it prints the same.
use strict;
use warnings;
use Errno;
use IPC::Msg;
use IPC::SysV qw(IPC_CREAT IPC_EXCL IPC_NOWAIT IPC_PRIVATE IPC_RMID IPC_STAT MSG_NOERROR S_IRUSR S_IWUSR ftok);

$| = 1;
my $key = $ENV{XSI_KEY} + 2;
sub told { my ($name, $value) = @_; print "$name: ", $value ? $value : "none, $!", "\n"; }

my $queue = IPC::Msg->new(IPC_PRIVATE, IPC_CREAT | S_IRUSR | S_IWUSR) or die "new: $!";
my $body;
told('send', $queue->snd(7, 'hello'));
told('receive', $queue->rcv($body, 256, 7, IPC_NOWAIT));
print "[$body]\n";
told('empty', $queue->rcv($body, 256, 0, IPC_NOWAIT));
my $it = $queue->stat;
printf "%d %d %o %d %d\n", $it->qnum, $it->qbytes, $it->mode, $it->uid == $>, $it->lspid == $$;
told('set', $queue->set(qbytes => 1000, mode => 0640));
$it = $queue->stat;
printf "%d %o\n", $it->qbytes, $it->mode;
for my $size (0, 1, 999, 1000, 1024) {
    my $sent = $queue->snd(1, 'x' x $size, IPC_NOWAIT);
    told("send $size", $sent);
    told("receive $size", $queue->rcv($body, 4096, 0, IPC_NOWAIT)) if $sent;
}
$queue->snd(3, 'a long message', 0);
told('too long', $queue->rcv($body, 4, 0, 0));
told('cut', $queue->rcv($body, 4, 0, MSG_NOERROR));
print "[$body]\n";

my $id = msgget($key, IPC_CREAT | 0600);
told('builtin', defined $id ? 'made' : undef);
told('twice', msgget($key, IPC_CREAT | IPC_EXCL | 0600));
told('again', msgget($key, 0) == $id ? 'the same' : 'another');
told('send', msgsnd($id, pack('l! a*', 4, 'builtin'), 0));
told('receive', msgrcv($id, $body, 100, -9, 0));
print join(',', unpack('l! a*', $body)), "\n";
{
    local $SIG{ALRM} = sub { };
    alarm 1;
    told('alarm', msgrcv($id, $body, 100, 0, 0));
}
my $done = eval { local $SIG{ALRM} = sub { die "out\n" }; alarm 1; msgrcv($id, $body, 100, 0, 0); 1 };
print $done ? "done\n" : "left: $@";
alarm 0;
my $child = fork;
if ($child == 0) { msgsnd($id, pack('l! a*', 2, 'of a child'), 0); exec 'true'; }
msgrcv($id, $body, 100, 0, 0);
waitpid $child, 0;
print join(',', unpack('l! a*', $body)), "\n";
told('remove', msgctl($id, IPC_RMID, 0));
print msgsnd($id, pack('l! a*', 4, 'x'), 0) ? "sent\n" : ($!{EINVAL} || $!{EIDRM}) ? "it is gone\n" : "$!\n";
$queue->remove;
print defined $queue->stat ? "some\n" : "none\n";
