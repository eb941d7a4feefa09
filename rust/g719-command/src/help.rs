//! The pages of help, for a screen of 80 columns. The first line of each says how the command is called.

use crate::{files, Failure, Verdict};

/// Prints a page.
pub fn print(page: &str) -> Result<Verdict, Failure> {
    files::print(page)?;
    Ok(Verdict::Complete)
}

pub const USAGE: &str = "usage: g719 check|list|show|picture|extract|join ...; g719 --help says more\n";

pub const WHOLE: &str = "\
usage: g719 COMMAND FILE... [OPTION VALUE]...

  g719 check FILE... --booked N [--channels C]
      is each recording complete? a line a file
  g719 list FILE
      a line a frame: number, reply, body bytes
  g719 show FILE [--frame N]
      a frame as a table: flags, norms, scores, rates, bits
  g719 picture FILE -o OUT.svg
      the recording as a picture
  g719 extract FILE --channels C --channel K -o OUT
      one channel of several, as stored
  g719 join FILE... -o OUT
      recordings of one channel as one of several

g719 COMMAND --help says more of each. A file - is standard input, an output -
is standard output. Ends with 0 only if all is complete, with 1 if a recording
is not, with 2 if something could not be read, written or understood.
";

pub const CHECK: &str = "\
usage: g719 check FILE... --booked N [--channels C]

Reads every frame of each recording in full and prints a line a file: complete,
or why not; the sound frames, their seconds, and the byte from which to ask the
boat to send again.

  --booked N      how many frames each recording should have; of several
                  channels, how many blocks of one frame a channel
  --channels C    the recordings have C channels, 1 to 8; without it, one

A recording that was cut between two frames shows only by the booked count.
Frames may be empty; they count. Ends with 0 if all are complete, with 1 if one
is not, with 2 if one could not be read.
";

pub const LIST: &str = "\
usage: g719 list FILE

Prints a line for each frame: its number, its reply (0 sound, 14 sound and
empty, any other refused), its body bytes; then how many frames are sound, the
answer, and the byte at which it was given. It is the lister's text, byte by
byte; as the lister it takes 65,536 bytes and prints `input too long` for more.

Ends with 0 for answer 0, with 1 for another answer, with 2 if nothing was
listed. It knows no booked count: g719 check does.
";

pub const SHOW: &str = "\
usage: g719 show FILE [--frame N]

Prints a frame as a table: its size and flags, how its bits part, and for each
of the 44 bands its norm index (smaller is louder), loudness, score, rate,
coefficients and the bits that it was granted.

  --frame N    the number of the frame, from 0, as g719 list has it; without
               it, the first

Ends with 0 if the recording is sound to its end, with 1 if it is not, though
the frame was shown, with 2 if there is no such frame.
";

pub const PICTURE: &str = "\
usage: g719 picture FILE -o OUT.svg

Draws the recording: a time line with a mark for each frame, the torn end with
the byte to ask again from; the body sizes; the 44 bands over time by loudness
and by rate. The picture is SVG: a browser opens it.

  -o OUT.svg    where to write it

Of several channels take one out first:
  g719 extract FILE --channels 2 --channel 0 -o - | g719 picture - -o left.svg

Ends with 0 if the recording is sound to its end, with 1 if it is not, though
the picture was written.
";

pub const EXTRACT: &str = "\
usage: g719 extract FILE --channels C --channel K -o OUT

Takes one channel out of a recording of several: its frames, as stored.

  --channels C    how many channels the recording has, 1 to 8: the file does
                  not say
  --channel K     which one, from 0
  -o OUT          where to write it; nothing is written if a block is not sound

Ends with 0 if it was written, with 1 if a block is not sound, with 2 if
something could not be read, written or understood.
";

pub const JOIN: &str = "\
usage: g719 join FILE... -o OUT

Joins 1 to 8 recordings of one channel and of equal frame count into one,
channel by channel in the order of the files. g719 extract takes each out
again, byte by byte.

  -o OUT    where to write it; nothing is written if a recording is not sound

Ends with 0 if it was written, with 1 if a recording is not sound or frame
counts differ, with 2 if something could not be read, written or understood.
";

#[cfg(test)]
mod tests {
    use super::*;

    #[test]
    fn pages_fit_a_screen() {
        for page in [USAGE, WHOLE, CHECK, LIST, SHOW, PICTURE, EXTRACT, JOIN] {
            assert!(
                page.ends_with('\n') && page.lines().all(|line| line.len() < 80),
                "{page}"
            );
        }
    }
}
