/* The ways to tell what is found in a file: each adds to a record. */
#ifndef HOST_TELL_H
#define HOST_TELL_H

#include "found.h"
#include "text.h"

/* What is told of one file: its verdict and place, or why it is not read. */
struct told {
    petalbuzz_judged judged;
    const char *wrong; /* null: it is read */
};

static struct told told_of(const struct whole *file, struct found *f) {
    const char *wrong = look(file, f);
    return (struct told){{f->ground.verdict, f->ground.place}, wrong};
}

/* A value of more numbers than this is not shown. */
enum { MOST_SHOWN = 64 };

static void add_value_text(struct record *to, const struct found *f, const struct value *value) {
    if (value->form == TEXT) {
        add(to, "\"");
        add_text(to, value->bytes, value->length);
        add(to, "\"");
    } else if (value->count > MOST_SHOWN) {
        add_number(to, value->count);
        add(to, value->form == REALS ? " doubles, not shown" : " numbers, not shown");
    } else
        for (size_t i = 0; i < value->count; i++) {
            if (i > 0) add(to, ", ");
            if (value->form == REALS)
                add_double(to, double_in(f, value->bytes + 8 * i));
            else
                add_number(to, number_in(f, value->bytes + 2 * i));
        }
}

/* ---- in words ---- */

/* The revision of the key header, or why it is not told. */
static void add_revision(struct record *to, const struct found *f) {
    add(to, "  revision  ");
    if (f->block.verdict == 0) {
        add(to, minor_says[f->minor]);
    } else {
        add(to, "not told: the key block cannot be written, ");
        add_number(to, f->block.verdict);
        add(to, " at key ");
        add_number(to, f->block.place);
    }
    add(to, "\n");
}

/* A place in the file, and in brackets as a hex viewer shows it. */
static void add_place(struct record *to, uint32_t place) {
    uint8_t bytes[4];
    for (int i = 0; i < 4; i++) bytes[i] = (uint8_t)(place >> (24 - 8 * i));
    add_number(to, place);
    add(to, " (0x");
    add_hex(to, "", bytes, sizeof bytes);
    add(to, ")");
}

/* A line for each key: number, name, kind, where its entry and its value stand, the
 * value and what it means. */
static void add_keys(struct record *to, const struct found *f) {
    for (uint32_t i = 0; i < f->keys; i++) {
        const petalbuzz_row *row = &f->rows[i];
        const char *name = find(keys, row->key)->name, *meaning = f->values[i].meaning;
        size_t line = to->len;
        add(to, "  key       ");
        add_number(to, row->key);
        pad(to, line, 18);
        add(to, name ? name : "-");
        pad(to, line, 49);
        add(to, kind_names[row->kind]);
        pad(to, line, 56);
        add(to, "entry at ");
        add_place(to, row->entry);
        add(to, ", value at ");
        add_place(to, row->first);
        add(to, ", ");
        add_number(to, row->length);
        add(to, " bytes: ");
        add_value_text(to, f, &f->values[i]);
        if (meaning[0]) add(to, " (");
        add(to, meaning);
        add(to, meaning[0] ? ")\n" : "\n");
    }
}

/* The georeference and the corners, with what they are. */
static void add_ground(struct record *to, const struct found *f) {
    const petalbuzz_grounded *g = &f->ground;
    size_t line = to->len;
    add(to, "  ");
    add(to, form_names[g->form]);
    pad(to, line, 11);
    for (int i = 0; i < 6; i++) {
        add(to, " ");
        add(to, six_names[g->form][i]);
        add(to, " ");
        add_double(to, g->six[i]);
    }
    add(to, "\n            ");
    add(to, six_say[g->form]);
    for (int i = 0; i < 2; i++) {
        add(to, "\n  corner    X ");
        add_double(to, g->corners[2 * i]);
        add(to, " Y ");
        add_double(to, g->corners[2 * i + 1]);
        add(to, ": ");
        add(to, corners_say[f->raster - 1][i]);
    }
    add(to, "\n");
}

/* A line for each metadata text: its place, behind its number where there are several. */
static void add_texts(struct record *to, const struct found *f) {
    for (uint32_t i = 0; i < f->texts; i++) {
        size_t line = to->len;
        add(to, "  metadata  ");
        if (f->texts > 1) {
            add_number(to, i);
            pad(to, line, 18);
        }
        add(to, "at ");
        add_number(to, f->metadata[i].start);
        add(to, ", ");
        add_number(to, f->metadata[i].length);
        add(to, " bytes\n");
    }
    if (f->texts == 0) add(to, "  metadata  none\n");
}

/* Path, verdict, place and sentence, and what is found. */
static struct told tell_words(struct record *to, const char *path, const struct whole *file) {
    static struct found f;
    struct told told = told_of(file, &f);
    if (told.wrong) return told;
    add_text(to, path, strlen(path));
    add(to, ": verdict ");
    add_number(to, f.ground.verdict);
    add(to, " place ");
    add_number(to, f.ground.place);
    add(to, ": ");
    add(to, f.sentence);
    add(to, "\n");
    if (f.ground.verdict != 0) return told;
    add_ground(to, &f);
    add_revision(to, &f);
    add_keys(to, &f);
    add_texts(to, &f);
    return told;
}

/* ---- in numbers: the lines of the bench program ---- */

static void add_line(struct record *to, const uint32_t *numbers, size_t n) {
    for (size_t i = 0; i < n; i++) {
        if (i > 0) add(to, " ");
        add_number(to, numbers[i]);
    }
    add(to, "\n");
}

static struct told tell_plain(struct record *to, const char *path, const struct whole *file) {
    static petalbuzz_row rows[MOST_KEYS];
    petalbuzz_counted a = petalbuzz_rows_file(file->bytes, file->len, rows, MOST_KEYS);
    (void)path;
    add(to, "verdict ");
    add_number(to, a.verdict);
    add(to, " place ");
    add_line(to, &a.place, 1);
    if (a.verdict == 0) {
        add(to, "keys ");
        add_line(to, &a.keys, 1);
    }
    for (uint32_t i = 0; i < a.keys; i++) {
        uint32_t row[] = {rows[i].key, rows[i].kind, rows[i].first, rows[i].length, rows[i].entry};
        add_line(to, row, sizeof row / sizeof row[0]);
    }
    return (struct told){{a.verdict, a.place}, NULL};
}

/* Nothing: the summary comes at the end. */
static struct told tell_number(struct record *to, const char *path, const struct whole *file) {
    (void)to;
    (void)path;
    return (struct told){petalbuzz_judge_file(file->bytes, file->len), NULL};
}

/* ---- as JSON ---- */

/* Adds "name":number behind a comma or what else stands there. */
static void add_json_number(struct record *to, const char *before, const char *name, size_t number) {
    add(to, before);
    add(to, "\"");
    add(to, name);
    add(to, "\":");
    add_number(to, number);
}

/* A double, or null where it is not finite, which JSON cannot show. */
static int add_json_double(struct record *to, double value) {
    if (is_number(value))
        add_double(to, value);
    else
        add(to, "null");
    return is_number(value);
}

/* The members of the georeference and of the corners. */
static void add_json_ground(struct record *to, const petalbuzz_grounded *g) {
    add(to, ",\"form\":\"");
    add(to, form_names[g->form]);
    add(to, "\",\"six\":{");
    for (int i = 0; i < 6; i++) {
        add(to, i > 0 ? ",\"" : "\"");
        add(to, six_names[g->form][i]);
        add(to, "\":");
        add_double(to, g->six[i]);
    }
    add(to, "},\"corners\":[");
    for (int i = 0; i < 4; i++) {
        add(to, i % 2 == 1 ? "," : i > 0 ? "],[" : "[");
        add_double(to, g->corners[i]);
    }
    add(to, "]]");
}

/* The member "value": a number, a text, a list of numbers, or null for a list that
 * is too long. Where a double is not finite, "value_hex" has all its bytes. */
static void add_json_value(struct record *to, const struct found *f, const struct value *value) {
    int all = 1, list = value->count != 1;
    if (value->form == TEXT) {
        add_member(to, "value", value->bytes, value->length);
        return;
    }
    add(to, "\"value\":");
    if (value->count > MOST_SHOWN) {
        add(to, "null");
        return;
    }
    if (list) add(to, "[");
    for (size_t i = 0; i < value->count; i++) {
        if (i > 0) add(to, ",");
        if (value->form == REALS)
            all &= add_json_double(to, double_in(f, value->bytes + 8 * i));
        else
            add_number(to, number_in(f, value->bytes + 2 * i));
    }
    if (list) add(to, "]");
    if (!all) add_hex_member(to, "value", value->bytes, value->length);
}

/* A member that is a text of ours, or null. */
static void add_json_word(struct record *to, const char *name, const char *word) {
    add(to, ",");
    if (word) {
        add_member(to, name, word, strlen(word));
        return;
    }
    add(to, "\"");
    add(to, name);
    add(to, "\":null");
}

/* The elements of the list of keys. */
static void add_json_keys(struct record *to, const struct found *f) {
    for (uint32_t i = 0; i < f->keys; i++) {
        const petalbuzz_row *row = &f->rows[i];
        const char *meaning = f->values[i].meaning;
        add_json_number(to, i > 0 ? ",{" : "{", "key", row->key);
        add_json_word(to, "name", find(keys, row->key)->name);
        add_json_word(to, "kind", kind_names[row->kind]);
        add_json_number(to, ",", "first", row->first);
        add_json_number(to, ",", "length", row->length);
        add_json_number(to, ",", "entry", row->entry);
        add(to, ",");
        add_json_value(to, f, &f->values[i]);
        add_json_word(to, "meaning", meaning[0] ? meaning : NULL);
        add(to, "}");
    }
}

/* The elements of the list of citations. */
static void add_json_citations(struct record *to, const struct found *f) {
    const char *before = "{";
    for (uint32_t i = 0; i < f->keys; i++) {
        const petalbuzz_part *text = &f->citations[i];
        if (f->rows[i].kind != PETALBUZZ_ASCII) continue;
        add_json_number(to, before, "key", f->rows[i].key);
        add_json_number(to, ",", "first", text->start);
        add_json_number(to, ",", "length", text->length);
        add(to, ",");
        add_member(to, "text", text->text, text->length);
        add(to, "}");
        before = ",{";
    }
}

/* The elements of the list of metadata texts. */
static void add_json_texts(struct record *to, const struct found *f) {
    for (uint32_t i = 0; i < f->texts; i++) {
        add_json_number(to, i > 0 ? ",{" : "{", "first", f->metadata[i].start);
        add_json_number(to, ",", "length", f->metadata[i].length);
        add(to, "}");
    }
}

/* The members that only an accepted file has. */
static void add_json_found(struct record *to, const struct found *f) {
    add_json_ground(to, &f->ground);
    if (f->block.verdict == 0)
        add_json_number(to, ",", "minor_revision", f->minor);
    else
        add(to, ",\"minor_revision\":null");
    add(to, ",\"keys\":[");
    add_json_keys(to, f);
    add(to, "],\"citations\":[");
    add_json_citations(to, f);
    add(to, "],\"metadata\":[");
    add_json_texts(to, f);
    add(to, "]");
}

/* One JSON object on a line. */
static struct told tell_json(struct record *to, const char *path, const struct whole *file) {
    static struct found f;
    struct told told = told_of(file, &f);
    if (told.wrong) return told;
    add(to, "{");
    add_member(to, "path", path, strlen(path));
    add_json_number(to, ",", "verdict", f.ground.verdict);
    add_json_number(to, ",", "place", f.ground.place);
    add_json_word(to, "sentence", f.sentence);
    if (f.ground.verdict == 0) add_json_found(to, &f);
    add(to, "}\n");
    return told;
}

#endif
