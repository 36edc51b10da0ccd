# A file of libmidi-perl, by the name that is given: perl perl_file.pl FILE
use strict;
use MIDI;

my @events = (
    ['set_tempo', 0, 500_000],
    ['marker', 0, 'running status, velocity 0 for note-offs'],
    ['patch_change', 0, 3, 5],
);
for my $step (0 .. 39) {
    my $note = (48, 50, 52, 53, 55)[$step % 5];
    push @events, ['note_on', $step ? 18 : 0, 3, $note, 64 + $step], ['note_on', 12, 3, $note, 0];
    push @events, ['control_change', 0, 3, 64, 127], ['pitch_wheel_change', 0, 3, -100] if $step == 16;
    push @events, ['sysex_f0', 0, "\x7E\x00\x09\x01\xF7"], ['sysex_f7', 0, "\x24\x40\xF7"] if $step == 20;
}
my $track = MIDI::Track->new({events => \@events});
MIDI::Opus->new({format => 0, ticks => 120, tracks => [$track]})->write_to_file($ARGV[0]);
