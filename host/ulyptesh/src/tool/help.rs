//! What the tool says of itself.

pub const VERSION: &str = concat!("ulyptesh ", env!("CARGO_PKG_VERSION"));

pub const INTRODUCTION: &str = "\
ulyptesh tells the musical key of tracks.

  ulyptesh analyse FILE.. --rate N    key, alternate key and key segments of each track
  ulyptesh key-at FILE SECONDS.. --rate N    the key that sounds at a mix point
  ulyptesh card FILE..                what key cards say
  ulyptesh totals FOLDER|CARD..       how long each key sounds on all key cards
  ulyptesh key NUMBER x12             the key of a chroma
  ulyptesh key-name NUMBER            the name of a key
  ulyptesh demo                       the library at work on a built-in track
  ulyptesh help COMMAND               one command alone
  ulyptesh --version                  the version of the tool and of the library's interface
";

pub const ANALYSE: &str = "\
ulyptesh analyse FILE.. --rate N [OPTION..]
  The key, confidence, alternate key and key segments of each track, each as it is done.
  FILE            raw mono samples, 32-bit little-endian floats, of 24 hours at most; - is standard
                  input. For any other file:
                  ffmpeg -nostdin -v error -i FILE -f f32le -ac 1 -ar N - | ulyptesh analyse - --rate N
  --rate N        samples in a second, up to 192000

  Of several segments the key is the longest one's. Where there is one segment, the key is that of the
  whole track's chroma, and its segment may tell another: unless --coverage forbids it, that one is then
  the alternate, with all of the track. The confidence is the whole chroma's, so it is low where a track
  changes its key. A segment's line ends with how many local windows it rests on; 0 where none tells a
  key. A chroma whose pitch classes are all but equally strong has no shape: what it tells is printed as
  ever and says little. A line says so of the whole track's, and one of how many windows'.

  --json          an array with an object for each track
  --json-lines    an object a line for each track
  --key-only      the key alone, a line for each track; of several with a tab and the file's name
  --notation WORD keys as sharps (C# minor), flats (Db minor), camelot (12A) or open-key (5m)
  --card OUT      also writes the key card, for one file; - is standard output, in place of the text.
                  Its times are milliseconds, rounded down: none lies after the audio. Beyond 1023
                  segments or 4 hours it has layout 2, which decks of versions before 0.7.0 refuse
  --svg OUT       also draws the segments and the chroma over time, likewise; windows without shape are
                  hatched
  --cards DIR     also writes the key card of each track into a folder that is there, as NAME.card
  --svgs DIR      also draws each track into a folder, as NAME.svg
  --jobs N        so many tracks at a time; answers come as they are done
";

pub const SETTINGS: &str = "\
Settings of analyse and key-at, with what they are where they are not given:
  --window S              length of a local window in seconds, 12
  --local-hop S           from a window's start to the next one's, at least 0.5; 6
  --segment-confidence P  confidence from which a window of another key starts a segment, 0.35
  --minimum-segment S     a shorter segment is joined to a neighbour, 12
  --coverage P            part of the track from which an alternate is named, 0.25; 0 for never
  --notes LO-HI           MIDI notes that are listened to, 36-95
  --frame-size N          samples in a frame, 32 to 65536; 4096
  --hop-size N            samples from a frame's start to the next one's, up to 1048576; 2048
  --engine N              how a frame's notes are worked out: 0 all side by side, 1 four at a time; 0.
                          The answers are the same, and 1 takes longer
";

pub const KEY_AT: &str = "\
ulyptesh key-at FILE SECONDS.. --rate N [--notation WORD] [SETTING..]
  The key that sounds at each mix point; of several with the time before it.
";

pub const CARD: &str = "\
ulyptesh card FILE.. [--json | --json-lines | --notation WORD]
  What key cards say: a line for the key, or 'no key', and one for each segment with its start and its
  end in milliseconds and its key. Of several cards each stands under its file's name. A card that is
  refused does not keep others from being shown: 'refused' and the number, in JSON an object with it, go
  to standard output, the words to standard error. A file that can't be read is told there alone. The
  numbers: 20 wrong length, 21 unknown layout, 22 a card rule broken or a filler bit set, 23 layout 2
  where layout 1 would have held the card. A card of a version before 0.2.0 has its ends to the nearest
  millisecond: the last may lie after the audio, by half a millisecond at most.
  FILE            a card, as analyse --card or --cards writes it; - is standard input
  --json          an array with an object for each card
  --json-lines    an object a line for each card
  --notation WORD keys in another notation, as for analyse
";

pub const TOTALS: &str = "\
ulyptesh totals FOLDER|CARD.. [--json | --json-lines | --notation WORD] [--svg OUT]
  How long each key sounds on all key cards together: the keys that sound, the largest total first and
  equal ones by number, with hours, minutes and seconds, the share of all and a bar; then how many cards
  there are, how many of them have no key, and their time in all. Two equal cards count twice. Cards are
  counted in sets of 1024; where one is full, another is begun, and the totals are those of all. A card
  that is refused, or a file that can't be read, is told on standard error, and the others are counted
  all the same. The numbers are those of card, and 30 for a card of more than 512 bytes.
  FOLDER          a folder whose files named *.card are counted; those in folders below it are not
  CARD            a card, whatever its name; - is standard input
  --json          an array with one object
  --json-lines    the object in one line
  --notation WORD keys in another notation, as for analyse
  --svg OUT       also draws the totals as bars, of the cards that were counted; - is standard output,
                  in place of the text
";

pub const KEY: &str = "\
ulyptesh key NUMBER x12 [--notation WORD]
  The key of a chroma: a number for each pitch class, from C upward. The best score is the highest of
  the 24; where the relative key was taken instead, that one's own is the second. Where the chroma has
  no shape, that is said behind them.
";

pub const KEY_NAME: &str = "\
ulyptesh key-name NUMBER [--notation WORD]
  The name of one key: 0 is C major, 11 B major, 12 C minor, 23 B minor.
";

pub const DEMO: &str = "\
ulyptesh demo [--svg OUT] [--track OUT]
  The 24 keys, the key of a triad, and a built-in track of 80 s at 44100 Hz with its card.
  --svg OUT       also draws the track; - is standard output, in place of the text
  --track OUT     also writes its samples, likewise, for ulyptesh analyse OUT --rate 44100
";

pub const ENDING: &str = "\
An option's word may stand behind an equals sign, as --rate=44100; words behind -- are plain ones.
OUT is replaced where it is there, and written only where all went well: first the answer is out, then
the files are put into their places. A track that fails does not keep others from being analysed.
The tool neither reads nor sets the floating-point environment.
Exit status: 0, or 1 where something was refused, not read or not written, or 2 for bad usage.
";
