/* What the numbers mean: a sentence for each rule, in the words of documents 01
 * and 02, and the names of tags and keys. Nothing here looks at a file. */
#ifndef HOST_WORDS_H
#define HOST_WORDS_H

#include "files.h"
#include <stdint.h>

/* What is said of a tag or key beside its name, by rule: of 10 and 17, 11 and
 * 19, 12 and 21, 9 and 18. */
enum column { FORM, ALLOWED, FAULT, NEEDED, COLUMNS };

struct thing {
    uint32_t number;
    const char *name;
    const char *says[COLUMNS];
};

#define STRIPS "its count is not length / rows per strip, rounded up"
#define MULTIPLES "positive multiples of 16"
#define TILES "its count is not the tiles across times the tiles down, each rounded up"
#define OF_STRIPS "as a tag of strips is present"
#define OF_TILES "as a tag of tiles is present"
#define IN_EACH ", in each entry of the tag"
#define MATRIX                                                                                     \
    "a double is not finite, the last four do not compare equal to 0, 0, 0, 1, or the products "   \
    "(1st x 6th) and (2nd x 5th), each rounded to a double, compare equal"

/* Tags by their names in TIFF 6.0, GeoTIFF and DGIWG 108, with the table of
 * documents 01 and 02; the last row is any other tag. */
static const struct thing tags[] = {
    {254, "NewSubfileType", {0}},
    {256, "ImageWidth", {"type SHORT or LONG, count 1", "1 to 1,000,000"}},
    {257, "ImageLength", {"type SHORT or LONG, count 1", "1 to 1,000,000"}},
    {258, "BitsPerSample", {"type SHORT, count 1 or more", "each 1, 8, 16 or 32",
        "its count differs from samples or its values differ among themselves"}},
    {259, "Compression", {"type SHORT, count 1", "1, 2 or 32773",
        "it is 2 or 32773 and bits or samples is not 1"}},
    {262, "PhotometricInterpretation", {"type SHORT, count 1", "0 to 3"}},
    {266, "FillOrder", {0}},
    {269, "DocumentName", {0}},
    {270, "ImageDescription", {0}},
    {271, "Make", {0}},
    {272, "Model", {0}},
    {273, "StripOffsets", {"type SHORT or LONG, count 1 or more", NULL, STRIPS, OF_STRIPS}},
    {274, "Orientation", {0}},
    {277, "SamplesPerPixel", {"type SHORT, count 1", "1 to 8"}},
    {278, "RowsPerStrip", {"type SHORT or LONG, count 1", "1 or more", NULL, OF_STRIPS}},
    {279, "StripByteCounts", {"type SHORT or LONG, count 1 or more", NULL, STRIPS, OF_STRIPS}},
    {280, "MinSampleValue", {0}},
    {281, "MaxSampleValue", {0}},
    {282, "XResolution", {0}},
    {283, "YResolution", {0}},
    {284, "PlanarConfiguration", {"type SHORT, count 1", "1"}},
    {296, "ResolutionUnit", {0}},
    {305, "Software", {0}},
    {306, "DateTime", {0}},
    {315, "Artist", {0}},
    {316, "HostComputer", {0}},
    {320, "ColorMap", {0}},
    {322, "TileWidth", {"type SHORT or LONG, count 1", MULTIPLES, NULL, OF_TILES}},
    {323, "TileLength", {"type SHORT or LONG, count 1", MULTIPLES, NULL, OF_TILES}},
    {324, "TileOffsets", {"type LONG, count 1 or more", NULL, TILES, OF_TILES}},
    {325, "TileByteCounts", {"type SHORT or LONG, count 1 or more", NULL, TILES, OF_TILES}},
    {338, "ExtraSamples", {0}},
    {339, "SampleFormat", {0}},
    {33432, "Copyright", {0}},
    {33550, "ModelPixelScaleTag", {"type DOUBLE, count 3", NULL,
        "a double is not finite, or scale X or Y is not above 0"}},
    {33922, "ModelTiepointTag", {"type DOUBLE, count 6", NULL, "a double is not finite"}},
    {34264, "ModelTransformationTag", {"type DOUBLE, count 16", NULL, MATRIX}},
    {34735, "GeoKeyDirectoryTag", {"type SHORT, count 4 or more"}},
    {34736, "GeoDoubleParamsTag", {"type DOUBLE, count 1 or more"}},
    {34737, "GeoAsciiParamsTag", {"type ASCII, count 1 or more"}},
    {42113, "GDAL_NODATA", {0}},
    {50909, "GEO_METADATA", {"type BYTE, count 1 or more" IN_EACH}},
    {0, NULL, {0}},
};

#define WITHIN "index + count at most the tag's count"
#define SHORT_KEY "location 0, count 1"
#define DOUBLE_KEY "location 34736, count 1, " WITHIN
#define ASCII_KEY "location 34737, count 1 or more, " WITHIN ", last character \"|\""
#define OTHER_KEY                                                                                  \
    "location 0, count 1; or location 34735, 34736 or 34737, count 1 or more, " WITHIN

/* The 45 keys by their names in DGIWG 108; the last row is any other key. */
static const struct thing keys[] = {
    {1024, "GTModelTypeGeoKey", {SHORT_KEY, "1 or 2"}},
    {1025, "GTRasterTypeGeoKey", {SHORT_KEY, "1 or 2"}},
    {1026, "GTCitationGeoKey", {ASCII_KEY}},
    {2048, "GeographicTypeGeoKey", {SHORT_KEY, "4326", NULL, "as key 1024 is 2"}},
    {2049, "GeogCitationGeoKey", {ASCII_KEY}},
    {2050, "GeogGeodeticDatumGeoKey", {SHORT_KEY}},
    {2051, "GeogPrimeMeridianGeoKey", {SHORT_KEY}},
    {2052, "GeogLinearUnitsGeoKey", {SHORT_KEY}},
    {2053, "GeogLinearUnitSizeGeoKey", {DOUBLE_KEY}},
    {2054, "GeogAngularUnitsGeoKey", {SHORT_KEY, "9102"}},
    {2055, "GeogAngularUnitSizeGeoKey", {DOUBLE_KEY}},
    {2056, "GeogEllipsoidGeoKey", {SHORT_KEY}},
    {2057, "GeogSemiMajorAxisGeoKey", {DOUBLE_KEY}},
    {2058, "GeogSemiMinorAxisGeoKey", {DOUBLE_KEY}},
    {2059, "GeogInvFlatteningGeoKey", {DOUBLE_KEY}},
    {2060, "GeogAzimuthUnitsGeoKey", {SHORT_KEY}},
    {2061, "GeogPrimeMeridianLongGeoKey", {DOUBLE_KEY}},
    {3072, "ProjectedCSTypeGeoKey", {SHORT_KEY, "32601-32661 or 32701-32761", NULL,
        "as key 1024 is 1"}},
    {3073, "PCSCitationGeoKey", {ASCII_KEY}},
    {3074, "ProjectionGeoKey", {SHORT_KEY}},
    {3075, "ProjCoordTransGeoKey", {SHORT_KEY}},
    {3076, "ProjLinearUnitsGeoKey", {SHORT_KEY, "9001"}},
    {3077, "ProjLinearUnitSizeGeoKey", {DOUBLE_KEY}},
    {3078, "ProjStdParallel1GeoKey", {DOUBLE_KEY}},
    {3079, "ProjStdParallel2GeoKey", {DOUBLE_KEY}},
    {3080, "ProjNatOriginLongGeoKey", {DOUBLE_KEY}},
    {3081, "ProjNatOriginLatGeoKey", {DOUBLE_KEY}},
    {3082, "ProjFalseEastingGeoKey", {DOUBLE_KEY}},
    {3083, "ProjFalseNorthingGeoKey", {DOUBLE_KEY}},
    {3084, "ProjFalseOriginLongGeoKey", {DOUBLE_KEY}},
    {3085, "ProjFalseOriginLatGeoKey", {DOUBLE_KEY}},
    {3086, "ProjFalseOriginEastingGeoKey", {DOUBLE_KEY}},
    {3087, "ProjFalseOriginNorthingGeoKey", {DOUBLE_KEY}},
    {3088, "ProjCenterLongGeoKey", {DOUBLE_KEY}},
    {3089, "ProjCenterLatGeoKey", {DOUBLE_KEY}},
    {3090, "ProjCenterEastingGeoKey", {DOUBLE_KEY}},
    {3091, "ProjCenterNorthingGeoKey", {DOUBLE_KEY}},
    {3092, "ProjScaleAtNatOriginGeoKey", {DOUBLE_KEY}},
    {3093, "ProjScaleAtCenterGeoKey", {DOUBLE_KEY}},
    {3094, "ProjAzimuthAngleGeoKey", {DOUBLE_KEY}},
    {3095, "ProjStraightVertPoleLongGeoKey", {DOUBLE_KEY}},
    {4096, "VerticalCSTypeGeoKey", {SHORT_KEY, "3855, 4979, 5714, 5715, 5773 or 5798"}},
    {4097, "VerticalCitationGeoKey", {ASCII_KEY}},
    {4098, "VerticalDatumGeoKey", {SHORT_KEY}},
    {4099, "VerticalUnitsGeoKey", {SHORT_KEY}},
    {0, NULL, {OTHER_KEY}},
};

/* Kinds of keys, and the two forms of a georeference with their six numbers. */
static const char *const kind_names[] = {"SHORT", "DOUBLE", "ASCII", "other"};
static const char *const form_names[] = {"scaled", "affine"};
static const char *const six_names[][6] = {{"ti", "tj", "tx", "ty", "sx", "sy"},
                                           {"m1", "m2", "m4", "m5", "m6", "m8"}};
static const char *const six_say[] = {
    "column ti and row tj of the picture lie at X = tx, Y = ty; a pixel is sx wide and sy high, and "
    "Y falls with the row",
    "X = m1 x column + m2 x row + m4, Y = m5 x column + m6 x row + m8"};

/* The two corners, where key 1025 is 1 and where it is 2. */
static const char *const corners_say[][2] = {
    {"column 0, row 0, the outer corner of the first pixel",
        "column = width, row = length, the outer corner of the last pixel"},
    {"column 0, row 0, the centre of the first pixel",
        "column = width - 1, row = length - 1, the centre of the last pixel"}};

/* The revision of the key header, by its minor revision. */
static const char *const minor_says[] = {
    "1.0 (minor revision 0 of the key header)",
    "1.1 (minor revision 1 of the key header, as OGC 19-008r4 writers put it)"};
enum { MINORS = sizeof minor_says / sizeof minor_says[0] };

/* What a value of a key means, from a first one to a last one, by its name in the
 * EPSG register. Of zones the number stands between two words. */
static const struct meaning {
    uint32_t key, first, last;
    const char *words, *behind;
} meanings[] = {
    {1024, 1, 1, "projected", NULL},
    {1024, 2, 2, "geographic", NULL},
    {1025, 1, 1, "PixelIsArea", NULL},
    {1025, 2, 2, "PixelIsPoint", NULL},
    {2048, 4326, 4326, "WGS 84, longitude and latitude", NULL},
    {2054, 9102, 9102, "degree", NULL},
    {3072, 32601, 32660, "WGS 84 / UTM zone ", "N"},
    {3072, 32661, 32661, "WGS 84 / UPS North", NULL},
    {3072, 32701, 32760, "WGS 84 / UTM zone ", "S"},
    {3072, 32761, 32761, "WGS 84 / UPS South", NULL},
    {3076, 9001, 9001, "metre", NULL},
    {4096, 3855, 3855, "EGM2008 height", NULL},
    {4096, 4979, 4979, "WGS 84, height above the ellipsoid", NULL},
    {4096, 5714, 5714, "MSL height", NULL},
    {4096, 5715, 5715, "MSL depth", NULL},
    {4096, 5773, 5773, "EGM96 height", NULL},
    {4096, 5798, 5798, "EGM84 height", NULL},
};

/* What a rule's place is the number of. Of a piece the two numbers do not tell
 * whether it is a strip or a tile, of a rule that the mask breaks not where. */
struct noun {
    const char *word;
    const struct thing *named; /* null: it has no name */
};
static const struct noun a_tag = {"tag", tags}, a_key = {"key", keys},
                         a_piece = {"strip or tile", NULL}, a_rule = {"rule", NULL};

/* The rules of every call on a file. */
#define RULE_NUMBERS "1 to 22, 27 and 28"

/* What the table of a mask has other than that of the image. */
#define MASK_NEEDS                                                                                 \
    "of 254, 256 to 259, 262 and 277, with strips 273, 278 and 279, with tiles 322 to 325"
#define MASK_ALLOWS                                                                                \
    "254 = 4, 256 and 257 as in the image, 258 = 1, 259 1, 2 or 32773, 262 = 4, 277 = 1, 278 1 "   \
    "or more, 284 = 1, 322 and 323 " MULTIPLES

/* The sentence of a rule: its place, what is wrong there, and, behind a joint,
 * what is said of that very tag or key. They stand in the order in which they
 * are tried. The mask keeps 4 to 14 and 27 for itself, and 8 is kept by it alone:
 * where it breaks one, the last rule has that one's sentence for any place and,
 * behind the joint, what is said of masks. */
static const struct rule {
    const struct noun *place; /* null: it has none */
    const char *wrong; /* null: no such rule */
    const char *joint; /* null: no more is said */
    enum column more;
    const char *mask; /* null: no more is said of masks */
} rules[] = {
    [0] = {.wrong = "accepted"},
    [1] = {.wrong = "the file's length is below 8 or above 4,294,967,295"},
    [2] = {.wrong = "bytes 0-1 are neither order, 49 49 or 4D 4D"},
    [3] = {.wrong = "the number in bytes 2-3 is not 42, that of a classic TIFF file; 43 is BigTIFF, "
                    "which is not judged"},
    [4] = {.wrong = "the directory offset is odd, below 8, or offset + 2 exceeds the file's "
                    "length", .joint = "; ", .mask = "it is the next offset of the image's directory"},
    [5] = {.wrong = "the directory's count is 0 or above 1,024, or the directory ends past the end "
                    "of the file"},
    [6] = {&a_tag, .wrong = "is not greater than the one before; only 50909 may stand more than "
                            "once, side by side"},
    [7] = {&a_tag, .wrong = "has count 0, or its value of more than 4 bytes starts odd, below 8, "
                            "or ends past the end of the file"},
    [8] = {.wrong = "the next offset is not 0: no directory may follow that of the mask"},
    [27] = {.wrong = "tags of both strips (273, 278, 279) and tiles (322 to 325) are present, or of "
                     "neither"},
    [9] = {&a_tag, "is needed and absent", ", ", NEEDED, MASK_NEEDS},
    [10] = {&a_tag, "has another type or count", "; right: ", FORM,
        "254 type LONG, count 1; all others as the image's table has them"},
    [11] = {&a_tag, "has a value that is not allowed", "; allowed: ", ALLOWED, MASK_ALLOWS},
    [12] = {&a_tag, "disagrees with other tags", ": ", FAULT,
        "the count of 258 is not 1, or that of 273, 279, 324 or 325 is not the number of strips or "
        "tiles"},
    [13] = {&a_piece, .wrong = "has byte count 0, an offset below 8, or ends past the end of the "
                               "file: look at its offset (tag 273 or 324), its byte count (279 or "
                               "325) and the file's length"},
    [14] = {&a_piece, .wrong = "shares a byte with the reading list, which is the head, the "
                               "directory and the values of the table's tags: look at where its "
                               "bytes begin and end (tags 273 and 279, or 324 and 325) and where "
                               "these stand", .joint = "; ",
        .mask = "it is one of the image or of the mask, and the list is that of both directories"},
    [15] = {.wrong = "the key directory's first three numbers are not 1, 1, and 0 or 1, or the "
                     "fourth, K, exceeds 256, or the tag's count is below 4 + 4K"},
    [16] = {&a_key, .wrong = "is not greater than the one before"},
    [17] = {&a_key, "has a wrong location, count or value index", "; right: ", FORM, NULL},
    [18] = {&a_key, "is needed and absent", ", ", NEEDED, NULL},
    [19] = {&a_key, "has a value that is not allowed", "; allowed: ", ALLOWED, NULL},
    [20] = {.wrong = "the file has neither scale and tiepoint with no matrix, nor matrix with no "
                     "scale and no tiepoint"},
    [21] = {&a_tag, "cannot place the picture on the ground", ": ", FAULT, NULL},
    [22] = {.wrong = "a corner coordinate is not finite"},
    [28] = {&a_rule, .wrong = "the transparency mask breaks"},
};
enum { RULES = sizeof rules / sizeof rules[0], SENTENCE = 512 };

/* The row of a number, or the last one. */
static const struct thing *find(const struct thing *row, uint32_t number) {
    while (row->name && row->number != number) row++;
    return row;
}

/* Writes what a value of a key means; nothing where no meaning is known. */
enum { MEANING = 64 };
static void mean(char words[MEANING], uint32_t key, uint32_t value) {
    words[0] = 0;
    for (size_t i = 0; i < sizeof meanings / sizeof meanings[0]; i++) {
        const struct meaning *m = &meanings[i];
        if (m->key != key || value < m->first || value > m->last) continue;
        if (m->behind)
            snprintf(words, MEANING, "%s%u%s", m->words, value - m->first + 1, m->behind);
        else
            snprintf(words, MEANING, "%s", m->words);
    }
}

/* The rule of a verdict, or null. */
static const struct rule *rule_of(uint32_t verdict) {
    return verdict < RULES && rules[verdict].wrong ? &rules[verdict] : NULL;
}

/* Writes the sentence of a rule, for any place. */
static void say_rule(char sentence[SENTENCE], uint32_t verdict) {
    const struct rule *rule = rule_of(verdict);
    if (!rule)
        snprintf(sentence, SENTENCE, "rule %u is broken", verdict);
    else if (!rule->place)
        snprintf(sentence, SENTENCE, "%s", rule->wrong);
    else if (rule->place == &a_rule)
        snprintf(sentence, SENTENCE, "%s a %s", rule->wrong, rule->place->word);
    else
        snprintf(sentence, SENTENCE, "a %s %s", rule->place->word, rule->wrong);
}

static int has_place(uint32_t verdict) {
    const struct rule *rule = rule_of(verdict);
    return rule && rule->place;
}

/* Writes what a place is, its number, and its name if it has one. */
static void say_place(char words[SENTENCE], uint32_t verdict, uint32_t place) {
    const struct noun *noun = rules[verdict].place;
    const char *name = noun->named ? find(noun->named, place)->name : NULL;
    snprintf(words, SENTENCE, "%s %u%s%s%s", noun->word, place, name ? " (" : "", name ? name : "",
             name ? ")" : "");
}

/* Adds what more is said, if there is more, behind a rule's joint. */
static void add_more(char sentence[SENTENCE], const struct rule *rule, const char *more) {
    size_t len = strlen(sentence);
    if (more) snprintf(sentence + len, SENTENCE - len, "%s%s", rule->joint, more);
}

/* Writes the sentence of the rule on masks, for one rule that the mask breaks. */
static void say_mask(char sentence[SENTENCE], const struct rule *rule, uint32_t broken) {
    size_t len = (size_t)snprintf(sentence, SENTENCE, "%s %s %u: ", rule->wrong, rule->place->word,
                                  broken);
    char words[SENTENCE];
    say_rule(words, broken);
    snprintf(sentence + len, SENTENCE - len, "%s", words);
    if (rule_of(broken)) add_more(sentence, rule_of(broken), rule_of(broken)->mask);
}

/* Writes the sentence of a rule, for one place. */
static void say(char sentence[SENTENCE], uint32_t verdict, uint32_t place) {
    const struct rule *rule = rule_of(verdict);
    if (!has_place(verdict)) {
        say_rule(sentence, verdict);
        return;
    }
    if (rule->place == &a_rule) {
        say_mask(sentence, rule, place);
        return;
    }
    const struct thing *named = rule->place->named;
    say_place(sentence, verdict, place);
    size_t len = strlen(sentence);
    snprintf(sentence + len, SENTENCE - len, " %s", rule->wrong);
    add_more(sentence, rule, named && rule->joint ? find(named, place)->says[rule->more] : NULL);
}

#endif
