"""What impose-pdf --help prints."""

OPTIONS = """\
Options that impose doesn't have:
  --box BOX       which box of a page is placed: crop, trim, bleed, media or art
  --bleed LENGTH  the TrimBox of a page is placed, and what is around it printed so far
  --marks MARKS   also registration, bars (of colour) and slug (file, sheet, side), in the margins
  --crop [same,][MARGIN]  pages are what is drawn, with a margin; same: all have one box
  --text WHERE:WORDS  words at the foot, head, outer-foot, inner-foot or centre of each
                  cell; {page}, {pages}, {label}, {sheet}, {file}, {date} are filled in
  --stamp WORDS   words across each page
  --under FILE    the first page of this PDF is under each page
  --over FILE     the first page of this PDF is over each page
  --each-right    each INFILE begins on a right-hand page, after a blank one if need be
  --turn SIDE=RANGES  these pages alone are turned, as left=5,7-9
  --password FILE the first line of this file opens INFILEs; - is standard input
  --each FOLDER   each INFILE has its own OUTFILE, in this folder
  --suffix WORD   each INFILE has its own OUTFILE, with this added to its name
"""
UNBOOKLET = """\
Cuts the sheets of a booklet into single pages, in their order

Usage: impose-pdf unbooklet [OPTIONS] INFILE [RANGES].. OUTFILE

Options:
  --signature N   the booklet has signatures of N pages each, or auto, as booklet makes them
  --rtl           it is bound at the right
  --turn SIDE     its sheets lie on their side: turn them left or right
and those of: impose-pdf poster 2x1, with which each sheet is cut into halves
"""
USAGE = f"""\
Puts the pages of PDFs on sheets to print, and writes a PDF of the sheets

Usage: impose-pdf COMMAND [OPTIONS] INFILE [RANGES].. OUTFILE
       impose-pdf COMMAND [OPTIONS] --each FOLDER INFILE [RANGES]..
       impose-pdf unbooklet [OPTIONS] INFILE OUTFILE

COMMAND and its OPTIONS are those of impose: impose --help, impose-pdf booklet --help.
unbooklet cuts the sheets of a booklet, as 8|1 and 2|7, into single pages in their order:
impose-pdf unbooklet --help.
Files come after them, OUTFILE last; - is standard input, and standard output.
The pages of several INFILEs follow one another, as those of one document. RANGES after an
INFILE are the pages that are taken of it, as 7, 3-9, 9-3, 5-, _1 (the last) or blank, with
commas between them. A JPEG or a PNG is a page too.

Pages are placed as they are: text, fonts, links and outlines, layers, attachments stay.
With --plan or --preview no sheets are made: OUTFILE stays as it was, and may be
left out. Every failure leaves it as it was, too. A document or image that impose-pdf didn't
write, and that isn't an INFILE, is replaced only with --replace.

{OPTIONS}
Exit status:
  0  the PDF was written, or a text printed
  1  the PDF, the layout or the specification is refused
  2  a bad command line
  3  a program is missing or failed, or reading or writing failed, or out of memory

Examples:
  impose-pdf booklet in.pdf out.pdf           print on both sides, fold, staple
  impose-pdf nup 4 --sheet a3 in.pdf out.pdf  four pages on each sheet of A3
  impose-pdf select 3-9,12 in.pdf out.pdf     some pages
  impose-pdf booklet a.pdf b.pdf out.pdf      a booklet of two PDFs
  impose-pdf booklet a.pdf 1-3 b.pdf 5- out.pdf
"""
