/* petalbuzz: judges files and whole deliveries, and says of each file what is
 * wrong and where, or what was found in it. It words what the library answers,
 * and judges nothing itself. */
#define _XOPEN_SOURCE 700
#define _DEFAULT_SOURCE
#include "ahead.h"
#include "help.h"
#include "input.h"
#include "tell.h"

/* What was built: the SHA-256 of the library, the digest of its sources, the kit
 * that built it and on which machine, and whether docs/builds.txt lists that
 * library for them: 1 it does, 0 it lists another one, -1 it lists none. */
#ifndef LIBRARY
#define LIBRARY "not named"
#endif
#ifndef SOURCES
#define SOURCES "not named"
#define KIT "not named"
#define MACHINE "not named"
#define EXPECTED -1
#endif

static struct record record; /* of the file at hand */
static struct told (*tell)(struct record *, const char *, const struct whole *);
static int summing; /* --summary is given */

/* ---- totals ---- */

static size_t accepted, refused, unread;
static petalbuzz_judged *judgements; /* of every file that was read, if there is a summary */

/* Writes to standard error what is wrong with a word or a file. */
static void complain(const char *word, const char *why) {
    struct record line = {0};
    add(&line, "petalbuzz: ");
    add_text(&line, word, strlen(word));
    add(&line, ": ");
    add(&line, why);
    add(&line, "\n");
    write_record(2, &line);
    free(line.bytes);
}

static void end(int status) {
    free(record.bytes);
    free(judgements);
    exit(status);
}

/* Writes the record of a file, or of the end. After a record that is not whole none
 * may follow. */
static void put_record(void) {
    if (!record.failed && write_record(1, &record)) return;
    complain("standard output", "not all could be written");
    end(NOT_READ);
}

static void not_read(const char *path, const char *why) {
    complain(path, why);
    unread++;
    if (tell != tell_json) return;
    add(&record, "{");
    add_member(&record, "path", path, strlen(path));
    add_json_word(&record, "not_read", why);
    add(&record, "}\n");
    put_record();
}

/* Counts a file that was read. The list has room for a power of two. */
static void count(petalbuzz_judged judged) {
    size_t all = accepted + refused;
    if (summing && (all & (all - 1)) == 0) {
        petalbuzz_judged *moved = realloc(judgements, 2 * (all + 1) * sizeof *moved);
        if (!moved) {
            complain("--summary", "there is no memory for so many files");
            end(NOT_READ);
        }
        judgements = moved;
    }
    if (summing) judgements[all] = judged;
    if (judged.verdict == 0)
        accepted++;
    else
        refused++;
}

static int by_number(const void *one, const void *other) {
    const petalbuzz_judged *a = one, *b = other;
    if (a->verdict != b->verdict) return a->verdict < b->verdict ? -1 : 1;
    return a->place < b->place ? -1 : a->place > b->place;
}

/* How many judgements from one on are of the same verdict, or of the same place too. */
static size_t run_of(size_t from, int with_place) {
    size_t n = 1;
    while (from + n < accepted + refused &&
           judgements[from + n].verdict == judgements[from].verdict &&
           (!with_place || judgements[from + n].place == judgements[from].place))
        n++;
    return n;
}

/* A count as wide as a column. */
static void add_count(struct record *to, size_t width, size_t count) {
    char text[24];
    int digits = snprintf(text, sizeof text, "%zu", count);
    while (digits >= 0 && (size_t)digits++ < width) add(to, " ");
    add(to, text);
}

/* How many files have each verdict, and each place where the rule has one. */
static void add_verdicts(struct record *to) {
    char sentence[SENTENCE];
    for (size_t at = 0, all; at < accepted + refused; at += all) {
        uint32_t verdict = judgements[at].verdict;
        all = run_of(at, 0);
        add_count(to, 7, all);
        add(to, "  verdict ");
        add_number(to, verdict);
        say_rule(sentence, verdict);
        add(to, ": ");
        add(to, sentence);
        add(to, "\n");
        if (!has_place(verdict)) continue;
        for (size_t i = at, n; i < at + all; i += n) {
            n = run_of(i, 1);
            add_count(to, 15, n);
            say_place(sentence, verdict, judgements[i].place);
            add(to, "  at ");
            add(to, sentence);
            add(to, "\n");
        }
    }
}

/* The same as JSON. */
static void add_json_verdicts(struct record *to) {
    char sentence[SENTENCE];
    for (size_t at = 0, all; at < accepted + refused; at += all) {
        all = run_of(at, 0);
        say_rule(sentence, judgements[at].verdict);
        add_json_number(to, at > 0 ? ",{" : "{", "verdict", judgements[at].verdict);
        add_json_word(to, "sentence", sentence);
        add_json_number(to, ",", "files", all);
        add(to, ",\"places\":[");
        for (size_t i = at, n; i < at + all; i += n) {
            n = run_of(i, 1);
            add_json_number(to, i > at ? ",{" : "{", "place", judgements[i].place);
            add_json_number(to, ",", "files", n);
            add(to, "}");
        }
        add(to, "]}");
    }
}

/* The last JSON object: the totals, and what judged. */
static void add_json_totals(struct record *to) {
    add_json_number(to, "{\"totals\":{", "judged", accepted + refused);
    add_json_number(to, ",", "accepted", accepted);
    add_json_number(to, ",", "refused", refused);
    add_json_number(to, ",", "not_read", unread);
    add(to, "}");
    if (summing) {
        add(to, ",\"verdicts\":[");
        add_json_verdicts(to);
        add(to, "]");
    }
    add_json_word(to, "rules", RULE_NUMBERS);
    add_json_word(to, "library", LIBRARY);
    add(to, EXPECTED > 0 ? ",\"expected\":true" : EXPECTED == 0 ? ",\"expected\":false" : ",\"expected\":null");
    add_json_word(to, "sources", SOURCES);
    add_json_word(to, "kit", KIT);
    add_json_word(to, "machine", MACHINE);
    add(to, "}\n");
}

static void add_totals(struct record *to) {
    add_verdicts(to);
    add_count(to, 7, accepted + refused);
    add(to, "  judged: ");
    add_number(to, accepted);
    add(to, " accepted, ");
    add_number(to, refused);
    add(to, " refused; ");
    add_number(to, unread);
    add(to, " not read\n");
}

/* What stands behind all records. */
static void tell_totals(void) {
    if (!summing && tell != tell_json) return;
    if (summing && accepted + refused > 0)
        qsort(judgements, accepted + refused, sizeof judgements[0], by_number);
    if (tell == tell_json)
        add_json_totals(&record);
    else
        add_totals(&record);
    put_record();
}

/* ---- the files ---- */

/* Bytes of a mapped file that cannot be read come as a signal: SIGBUS on a bad card
 * or because the file was cut meanwhile, SIGSEGV where it changed meanwhile and names
 * bytes behind its end. */
static sigjmp_buf unreadable;
static void leave(int number) { siglongjmp(unreadable, number); }

static void on_unreadable(void (*way)(int)) {
    signal(SIGBUS, way);
    signal(SIGSEGV, way);
}

/* Tells of a file that is lent. */
static struct told look_at(const char *path, const struct whole *file) {
    on_unreadable(leave);
    int number = sigsetjmp(unreadable, 1);
    if (number == 0) {
        ask_ahead(file);
        struct told seen = tell(&record, path, file);
        on_unreadable(SIG_DFL);
        if (!seen.wrong && !is_unchanged(file)) seen.wrong = changed;
        if (!seen.wrong && record.failed) seen.wrong = "there is no memory to tell of it";
        return seen;
    }
    on_unreadable(SIG_DFL);
    return (struct told){{0, 0}, number == SIGBUS ? "cannot be read to its end" : changed};
}

/* Judges a file that is lent and gives it back: a whole record, or none. */
static void judge(const char *path, struct whole *file) {
    struct told told = look_at(path, file);
    give_back(file);
    if (told.wrong) {
        record.len = 0;
        record.failed = 0;
        not_read(path, told.wrong);
        return;
    }
    count(told.judged);
    put_record();
}

static void judge_file(const char *path) {
    struct whole file;
    const char *wrong = map_path(path, &file);
    if (wrong)
        not_read(path, wrong);
    else
        judge(path, &file);
}

static void judge_input(void) {
    struct whole file;
    const char *wrong = lend_input(&file);
    if (wrong)
        not_read("-", wrong);
    else
        judge("-", &file);
}

/* The names in a directory, in the order of their bytes. */
struct names {
    char **name;
    size_t count;
};

static int by_bytes(const void *one, const void *other) {
    return strcmp(*(char *const *)one, *(char *const *)other);
}

/* Adds a path below a directory to the list: 0 if there is no memory. */
static int add_name(struct names *all, const char *directory, const char *name) {
    size_t len = strlen(directory) + strlen(name) + 2;
    if ((all->count & (all->count - 1)) == 0) {
        char **moved = realloc(all->name, 2 * (all->count + 1) * sizeof *moved);
        if (!moved) return 0;
        all->name = moved;
    }
    char *path = malloc(len);
    if (!path) return 0;
    int slash = directory[strlen(directory) - 1] == '/';
    snprintf(path, len, "%s%s%s", directory, slash ? "" : "/", name);
    all->name[all->count++] = path;
    return 1;
}

/* Reads a directory. Answers null, or why it is not read. */
static const char *read_names(const char *path, struct names *all) {
    DIR *directory = opendir(path);
    if (!directory) return strerror(errno);
    const char *wrong = NULL;
    while (!wrong) {
        errno = 0;
        struct dirent *next = readdir(directory);
        if (!next) break;
        if (strcmp(next->d_name, ".") == 0 || strcmp(next->d_name, "..") == 0) continue;
        errno = 0;
        if (!add_name(all, path, next->d_name)) wrong = strerror(errno);
    }
    if (!wrong && errno != 0) wrong = strerror(errno);
    closedir(directory);
    return wrong;
}

static void judge_path(const char *path, int inside);

/* Judges every file of a directory and of those in it. An empty one is named. */
static void judge_directory(const char *path) {
    struct names all = {NULL, 0};
    const char *wrong = read_names(path, &all);
    if (!wrong && all.count == 0) wrong = "holds no file";
    if (wrong) not_read(path, wrong);
    if (all.count > 0) qsort(all.name, all.count, sizeof all.name[0], by_bytes);
    for (size_t i = 0; i < all.count; i++) {
        judge_path(all.name[i], 1);
        free(all.name[i]);
    }
    free(all.name);
}

/* Inside a directory a link to another is named and not followed: it may lead
 * back, or out of the delivery. */
static void judge_path(const char *path, int inside) {
    struct stat about, own;
    if (stat(path, &about) != 0 || lstat(path, &own) != 0)
        not_read(path, strerror(errno));
    else if (!S_ISDIR(about.st_mode))
        judge_file(path);
    else if (inside && S_ISLNK(own.st_mode))
        not_read(path, "is a link to a directory and is not followed");
    else
        judge_directory(path);
}

/* Judges what is named on the command line. */
static void judge_named(const char *path) {
    if (strcmp(path, "-") == 0)
        judge_input();
    else
        judge_path(path, 0);
}

/* ---- options ---- */

static const struct {
    const char *name;
    struct told (*tell)(struct record *, const char *, const struct whole *);
} ways[] = {{"--text", tell_words}, {"--plain", tell_plain}, {"--json", tell_json}};

/* Prints what judges, a fact a line. */
static void tell_version(void) {
    static const char *const seen[] = {"none is listed for this kit and machine",
        "NOT the one that docs/builds.txt lists for this kit and machine", "the expected one"};
    const char *const facts[] = {"petalbuzz: rules ", RULE_NUMBERS, "\nlibrary: SHA-256 ", LIBRARY,
        ", ", seen[EXPECTED + 1], "\nsources: SHA-256 ", SOURCES, "\nkit: ", KIT, ", ", MACHINE, "\n"};
    for (size_t i = 0; i < sizeof facts / sizeof facts[0]; i++) add(&record, facts[i]);
}

/* Takes the way to tell that an option names; 0 if it names none. */
static int take_way(const char *word) {
    for (size_t i = 0; i < sizeof ways / sizeof ways[0]; i++) {
        if (strcmp(word, ways[i].name) != 0) continue;
        if (tell && tell != ways[i].tell) {
            complain(word, "only one of --text, --plain and --json can be given");
            end(NOT_READ);
        }
        tell = ways[i].tell;
        return 1;
    }
    return 0;
}

/* Takes one option; ends the program for those that judge nothing. */
static void take_option(const char *word) {
    int helps = strcmp(word, "--help") == 0 || strcmp(word, "-h") == 0;
    if (take_way(word)) return;
    if (strcmp(word, "--summary") == 0) {
        summing = 1;
        return;
    }
    if (!helps && strcmp(word, "--version") != 0) {
        complain(word, "is not an option here; --help lists them");
        end(NOT_READ);
    }
    if (helps)
        add(&record, help);
    else
        tell_version();
    put_record();
    end(ACCEPTED);
}

/* Takes all options and leaves the paths in front: how many. */
static int take_options(int argc, char **argv) {
    int paths = 0, ended = 0;
    for (int i = 1; i < argc; i++) {
        if (ended || argv[i][0] != '-' || argv[i][1] == 0)
            argv[paths++] = argv[i];
        else if (strcmp(argv[i], "--") == 0)
            ended = 1;
        else
            take_option(argv[i]);
    }
    if (!tell) tell = summing ? tell_number : tell_words;
    return paths;
}

/* The script names file A in PETALBUZZ_EXAMPLE, for when no file is named. */
int main(int argc, char **argv) {
    keep_records_whole();
    int paths = take_options(argc, argv);
    const char *example = getenv("PETALBUZZ_EXAMPLE");
    if (paths == 0 && !example) {
        complain("no file is named", "--help says more");
        end(NOT_READ);
    }
    if (paths == 0) {
        complain(example, "this is file A, as no file is named");
        judge_named(example);
    }
    for (int i = 0; i < paths; i++) judge_named(argv[i]);
    tell_totals();
    end(unread > 0 ? NOT_READ : refused > 0 ? REFUSED : ACCEPTED);
}
