//! What `--help` says.

pub const ALL: &str = "\
usage: corbel COMMAND [OPTIONS] [FILE]

Filters and questions for pictures of contact resistance, by the proved library Corbelrush. `corbel COMMAND --help` has
a command's options, and `man corbel` the rest.

";

pub const COMMON: &str = "
An image file is a PAM file, RGB_ALPHA, maximum 255. Without FILE, or as -, standard input is read.
  -o FILE      the result goes there, under a temporary name first, and not to standard output
Options may be cut short, and are written -n=2, -n 2 or --n=2.

Exit status: 0 done, 1 refused, 2 wrong use, 3 something could not be read or written.
";

pub const FROM: &str = "\
  -from=KIND   the samples of FILE: straight (not premultiplied, as netpbm has them) or stored (premultiplied already)
";

pub const TO: &str = "\
  -to=KIND     the samples of the result: straight (not premultiplied) or stored (as the plate has them); straight
               unless given
";

pub const PICTURES: &str = "\
  -from=KIND   the samples of FILE: straight (not premultiplied, as netpbm has them) or stored (premultiplied already)
  -to=KIND     those of the result; both are straight unless this page says otherwise
";

pub const KERNEL: &str = "\
  -weights=LIST   1 to 33 weights: 1,4,6,4,1/16 is each over 16; decimals as 0.25,0.5,0.25 too
  -n=N            decimations, 0 to 14; 0 unless given
  -edge=RULE      beyond the borders: duplicate (the nearest pixel), wrap, mirror, none (zeros); duplicate unless given
";

pub const BLUR: &str = "\
usage: corbel blur -weights=LIST [-n=N] [-edge=RULE] [-strength=S] [-whole] [OPTIONS] [FILE]

Blurs a picture: N halvings, the weights in rows and in columns, N doublings.
  -strength=S     a switch: at or below 0 the picture stays as it is; 1 unless given
  -whole          in whole numbers alone, to the same bytes; weights are multiples of 1/65536 and sum to at most 1
";

pub const SHIFT: &str = "\
usage: corbel shift [-dx=X] [-dy=Y] [OPTIONS] [FILE]

Moves a picture by X to the right and Y down, each to the nearest whole number. Zeros come in.
";

pub const SHADOW: &str = "\
usage: corbel shadow -weights=LIST [-n=N] [-edge=RULE] [-strength=S] [-dx=X] [-dy=Y] [-colour=R,G,B,A] [-alone]
                     [OPTIONS] [FILE]

Draws a picture over its drop shadow: its alpha moved and blurred, in a colour.
  -dx=X, -dy=Y    where the shadow lies, to the right and down; 0 unless given
  -colour=R,G,B,A each 0 to 1, not premultiplied; 0,0,0,1 unless given
  -strength=S     a switch: at or below 0 the shadow is not blurred; 1 unless given
  -alone          the shadow alone
";

pub const SAVE: &str = "\
  -save=CHAIN  what was done is written there as a chain, for corbel chain
";

pub const MANY: &str = "\
  -jobs        many files, as many at once as there are cores; -o names the folder for the results, which have the
               names of the files
";

pub const CHAIN: &str = "\
usage: corbel chain -recipes=CHAIN [-save=CHAIN] [OPTIONS] [FILE]

Runs the operations of a text on a picture, one after the other; all are checked before the first runs. A line is an
operation with its options, as in

    # lines that begin with # say nothing
    blur -weights=1,4,6,4,1/16 -n=2 -edge=wrap
    shift -dx=3 -dy=-2
    shadow -weights=1,2,1/4 -dx=2 -dy=2 -colour=0,0,0,0.5

  -recipes=CHAIN  that text
";

pub const CHECK: &str = "\
usage: corbel check [-from=KIND] [-o FILE] [FILE]

Says 'premultiplied', or which pixel is the first of which r, g or b exceeds a; then the exit status is 1. FILE is
stored unless -from says otherwise: of straight samples no picture exceeds.
";

pub const MEND: &str = "\
usage: corbel mend -list=LIST [OPTIONS] [FILE]

Lowers each r, g or b above its alpha to that alpha, and changes no other byte. FILE and the result are stored unless
-from and -to say otherwise.
  -list=LIST   the place y * w + x and the old pixel of each pixel changed go there, a line each
";

pub const UNMEND: &str = "\
usage: corbel unmend -list=LIST [OPTIONS] [FILE]

Puts back the old pixels of a list: of a mended picture and its list, the picture as it was. FILE and the result are
stored unless -from and -to say otherwise.
  -list=LIST   what mend wrote
";

pub const MEAN: &str = "\
usage: corbel mean [-box=X,Y,W,H] [-from=KIND] [-o FILE] [FILE]

The sum of the alphas of a box, how many pixels it has, and their mean, as an exact fraction and as a decimal.
  -box=X,Y,W,H W columns from X on and H rows from Y on, at most 16843009 pixels; all of the picture unless given
";

pub const SPREAD: &str = "\
usage: corbel spread -weights=LIST [-n=N] [-o FILE]

How far a blur with these weights and N decimations spreads a pixel along an axis: in 1/131072 of a square pixel, as a
variance in square pixels, exact and as a decimal, and as a sigma in pixels. It is the check of a kernel: weights that
do not sum to 1, or are no multiples of 1/65536, are refused as 11.
";

pub const WHY: &str = "\
usage: corbel why -at=X,Y -weights=LIST [-n=N] [-edge=RULE] [-map=FILE] [-from=KIND] [-o FILE] [FILE]

Which points of a picture made the pixel X,Y of its blur: each with its exact share, and its channels; then what share
times channel comes to, beside the channel that the blur stores, which is within 2N + 1 of it. The weights are multiples
of 1/65536 and sum to at most 1, and N is 0 to 3.
  -at=X,Y         the pixel, column and row counted from 0
  -map=FILE       the shares as a picture, the greatest white, go there
";

pub const LIST: &str = "\
usage: corbel plate list [-o FILE] [FILE]

The version of a plate, and for each picture its sides, where it lies, its unit and its sheet. Of a file that is no
plate it says which rule is broken, and at which byte.
";

pub const PACK: &str = "\
usage: corbel plate pack -units=LIST [-sheets=LIST] [-version=V] [-from=KIND] [-o FILE] [FILE ...]

A plate of the pictures in some image files, in that order.
  -version=V   1 (no units, no sheets), 2, or 3, for larger scans; 2 unless given
  -units=LIST  milliohm or microohm: one for all, or one for each with commas between them
  -sheets=LIST the number of the sheet, in the same way; 0 unless given
";

pub const GET: &str = "\
usage: corbel plate get -index=I [-to=KIND] [-o FILE] [FILE]

A picture of a plate as an image file.
  -index=I     which, counted from 0
";

pub const JOB: &str = "\
usage: corbel plate job [-jobs] [-o FILE] [FILE ...]

Blurs every picture of a plate where it lies, with weights 1/4, 1/2, 1/4, one decimation and the nearest pixel beyond
the borders; its table stays as it was, units and sheets too.
";

pub const REPORT: &str = "\
usage: corbel report [-o FILE] [FILE]

For each picture of a plate its sides, its unit and its sheet, whether it is premultiplied or which pixel is the first
that exceeds its alpha, and its mean alpha, exact and as a decimal.
";
