"""Captures of `aes18 encode`, and captures read by the tool, beside ALSA's own code. Argument: the tool.

aplay and arecord work with alsa-lib's plugins: iec958 makes words of the format IEC958_SUBFRAME_LE of audio, and audio of such words; file stands
for the device. What aplay writes is filled up with silence to a whole period.
"""
import json
import os
import pathlib
import random
import subprocess
import sys
import tempfile

TOOL = sys.argv[1]
FRAMES = 5000
OPTIONS = ["-q", "-t", "raw", "-c", "2", "-r", "48000"]
WORDS, AUDIO = "IEC958_SUBFRAME_LE", "S32_LE"
# the bits of a word: all that --into leaves as it is; and what silence has but for channel status, which ALSA sets by itself
UNCHANGED, SILENCE = 0x5FFFFFFF, 0x1FFFFFFF
PLANS = {
    "left": 'circuits 01 02:07\noffer 0 3 1 "battery 28.1 V, 3.4 A"\noffer 1 1 0 @noise\nblock 4001 4001 system 15 4 "25 fps"\n',
    "right": 'circuits 05\noffer 0 0 0 "the other channel"\nblock 4500 4500\n',
}
CONFIGURATION = """
pcm.device { type file file "%(work)s/played" infile "%(work)s/captured" format raw slave.pcm { type null } }
pcm.words { type iec958 slave { pcm device format IEC958_SUBFRAME_LE } status [ 0 0 0 0 ] }
"""


def fail(what):
    print("tests/capture: " + what)
    sys.exit(1)


def run(*command):
    ran = subprocess.run(list(map(str, command)), stdout=subprocess.PIPE, stderr=subprocess.PIPE, cwd=str(WORK))
    if ran.returncode != 0:
        fail("%s: status %d: %s" % (" ".join(map(str, command)), ran.returncode, ran.stderr.decode()))
    return ran.stdout


def played(device, form, data):
    """What comes to the device where aplay plays so many frames."""
    (WORK / "data").write_bytes(data)
    run("aplay", "-D", device, "-f", form, *OPTIONS, "data")
    words = (WORK / "played").read_bytes()
    if len(words) < len(data):
        fail("aplay plays %d bytes of %d" % (len(words), len(data)))
    return words[:len(data)]


def recorded(device, form, capture):
    """What arecord records where these words come from the device."""
    (WORK / "captured").write_bytes(capture)
    run("arecord", "-D", device, "-f", form, *OPTIONS, "--samples=%d" % (len(capture) // 8), "data")
    return (WORK / "data").read_bytes()


def words(capture):
    return [int.from_bytes(capture[i:i + 4], "little") for i in range(0, len(capture), 4)]


def even(word):
    return bin(word >> 4).count("1") % 2 == 0


def encoded(channel, *options):
    """The user bits of the channel's plan, filed by these options."""
    run(TOOL, "encode", "plan." + channel, "-o", "filed", *options)
    return (WORK / "filed").read_bytes()


def told(bits, *options):
    """The notices that the tool tells of these bits."""
    (WORK / "filed").write_bytes(bits)
    lines = run(TOOL, "decode", "--json", "--circuits", "01,02:07,05", "filed", *options).decode().splitlines()
    return [notice for notice in map(json.loads, lines) if "notice" in notice]


def check_silence():
    """Silence is as ALSA writes it but for user bits, channel status and parity, which is even."""
    silence = words(played("words", AUDIO, bytes(8 * FRAMES)))
    for channel in PLANS:
        capture = words(encoded(channel, "--format", "iec958", "--channel", channel))
        if [word & SILENCE for word in capture] != [word & SILENCE for word in silence[:len(capture)]]:
            fail("the tool's silence differs from ALSA's")
        if not all(map(even, capture)) or not all(map(even, silence)):
            fail("the parity of silence is wrong")


def filled(capture):
    """The capture with a plan in each channel."""
    for channel in PLANS:
        (WORK / "into").write_bytes(capture)
        capture = encoded(channel, "--format", "iec958", "--channel", channel, "--into", "into")
    return capture


def check_audio():
    """A capture of ALSA's with plans put into it has the same audio for ALSA, and the plans' notices for the tool."""
    noise = random.Random(15)
    audio = b"".join((noise.getrandbits(24) << 8).to_bytes(4, "little") for _ in range(2 * FRAMES))
    before = played("words", AUDIO, audio)
    after = filled(before)
    if [word & UNCHANGED for word in words(after)] != [word & UNCHANGED for word in words(before)]:
        fail("--into changes more than user bits and parity")
    if not all(map(even, words(before))) or not all(map(even, words(after))):
        fail("the parity of audio is wrong")
    if recorded("words", AUDIO, after) != audio:
        fail("arecord hears other audio behind --into")
    if played("device", WORDS, after) != after:
        fail("aplay plays other words")
    record = recorded("device", WORDS, after)
    for channel in PLANS:
        notices = told(encoded(channel))
        if len(notices) < 2 or told(record, "--format", "iec958", "--channel", channel) != notices:
            fail("the %s channel of what arecord records has other notices than the plan's bits" % channel)


with tempfile.TemporaryDirectory() as work:
    WORK = pathlib.Path(work)
    os.environ["ALSA_CONFIG_PATH"] = str(WORK / "configuration")
    (WORK / "configuration").write_text(CONFIGURATION % {"work": work})
    (WORK / "captured").write_bytes(bytes(8 * FRAMES))
    (WORK / "noise").write_bytes(bytes(range(256)))
    for name, plan in PLANS.items():
        (WORK / ("plan." + name)).write_text(plan)
    check_silence()
    check_audio()
    print("tests/capture: ALSA's silence and audio with user bits in both channels; it hears and plays what was there")
