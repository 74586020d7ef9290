/* What --help prints. The script petalbuzz prints these lines too, where the program
 * is not built yet. */
#ifndef HOST_HELP_H
#define HOST_HELP_H

static const char help[] =
    "petalbuzz [--text | --plain | --json] [--summary] [--] [FILE...]\n"
    "Judges GeoTIFF files by their bytes: rules 1 to 22, 27 and 28, drawn from TIFF 6.0,\n"
    "GeoTIFF and DGIWG 108.\n"
    "\n"
    "A FILE is a file, a directory, of which every file is judged, or - for standard input.\n"
    "Without one it is file A, an example.\n"
    "\n"
    "  --text     of each file the verdict in words, and what was found (as without an option)\n"
    "  --plain    of each file the lines of the bench program, in numbers alone\n"
    "  --json     of each file one JSON object on a line, and one with the totals at the end\n"
    "  --summary  how many files each rule refuses, and at which places: behind the records of\n"
    "             one of these, or alone\n"
    "  -h, --help prints this\n"
    "  --version  prints which library judges, and from which sources and kit it was built\n"
    "\n"
    "Verdict 0 is accepted, any other number is the first broken rule; 27 comes directly after 7,\n"
    "28, of a transparency mask, behind 22. The place is a tag, the index of a strip or tile, a\n"
    "key, or the rule that the mask breaks. docs/RULES.md says what each number means, what\n"
    "usually causes it and what to do.\n"
    "Status: 0 all accepted, 1 some refused, 2 some not read.\n";

#endif
