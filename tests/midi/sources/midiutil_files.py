#!/usr/bin/python3
"""Files of python3-midiutil, into the folder that is named: midiutil_files.py FOLDER"""
import sys
from pathlib import Path
from midiutil import MIDIFile

FOLDER = Path(sys.argv[1])
KICK, SNARE, HAT, DRUMS = 36, 38, 42, 9

def one_track(**options):
    """The library documents formats 1 and 2; it writes any number into the header, and lays out one track for all but 1."""
    return MIDIFile(1, **{"file_format": 0, "adjust_origin": False, **options})

def save(name, midi):
    with open(FOLDER / name, "wb") as f:
        midi.writeFile(f)

def groove(**options):
    """Two bars: eighths on the hat, kick on 1 and 3, snare on 2 and 4, a flam in the second bar."""
    midi = one_track(**options)
    midi.addTrackName(0, 0, "groove")
    midi.addTempo(0, 0, 108)
    for eighth in range(16):
        midi.addNote(0, DRUMS, HAT, eighth / 2, 0.25, 80)
    for beat in range(0, 8, 2):
        midi.addNote(0, DRUMS, KICK, beat, 0.5, 110)
        midi.addNote(0, DRUMS, SNARE, beat + 1, 0.5, 100)
    midi.addNote(0, DRUMS, SNARE, 7.75, 0.125, 60)
    midi.addNote(0, DRUMS, SNARE, 7.9, 0.1, 127)
    return midi

def all_kinds():
    """Program changes, controllers, pressures, bends, texts, exclusive events and signatures among the notes."""
    midi = one_track(ticks_per_quarternote=480)
    midi.addText(0, 0, "every kind of event")
    midi.addTimeSignature(0, 0, 4, 2, 24)
    midi.addKeySignature(0, 0, 2, 1, 0)
    midi.addProgramChange(0, 0, 0, 24)
    midi.addSysEx(0, 0.5, 0x7E, bytes([0x7F, 0x09, 0x01]))
    midi.addNote(0, 0, 60, 0.75, 1, 90)
    midi.addControllerEvent(0, 0, 1, 7, 100)
    midi.addPitchWheelEvent(0, 0, 1.25, 2000)
    midi.addChannelPressure(0, 0, 1.5, 50)
    midi.addNote(0, 15, 127, 3.999, 0.5, 1)
    midi.addNote(0, 7, 0, 4, 0.5, 127)
    midi.changeNoteTuning(0, [(60, 440.0)])
    return midi

def doubled():
    """One note on two channels at once, and again within the step."""
    midi = one_track(removeDuplicates=False, ticks_per_quarternote=96)
    for channel in (0, 9):
        midi.addNote(0, channel, SNARE, 1, 0.1, 20 + channel)
    midi.addNote(0, 0, SNARE, 1.2, 0.1, 127)
    midi.addNote(0, 0, SNARE, 1.25, 0.1, 64)
    return midi

def far(quarters):
    midi = one_track(ticks_per_quarternote=4)
    midi.addNote(0, DRUMS, KICK, 0, 1, 100)
    midi.addNote(0, DRUMS, KICK, quarters, 1, 100)
    return midi

save("groove.mid", groove())
save("all_kinds.mid", all_kinds())
save("doubled.mid", doubled())
save("empty.mid", one_track(ticks_per_quarternote=32764))
save("far.mid", far(4 * 65536))
save("format1.mid", groove(file_format=1))
save("format2.mid", groove(file_format=2))
save("division30.mid", groove(ticks_per_quarternote=30))
