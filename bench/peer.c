/* The C peer of `docketctl run --db`: what a good engineer writes over libsqlite3 with no proofs, over a file of `docketctl create`.
 * One transaction a command with its receipt in it, a log (WAL), synchronous=FULL, foreign keys, each statement prepared once, and each
 * answer written at its commit. It answers the commands of mixed_commands.py without `local`, whose strings have no escapes, and
 * refuses nothing but a case or party that is not there, a label that stands and a key of another command. It knows no calendar but
 * the statutory holidays.
 * Build: gcc -O2 -o peer peer.c -lsqlite3
 * Use: peer FILE [LOG-PAGES [exclusive]] < COMMANDS. The log is copied at LOG-PAGES pages, SQLite's own 1,000 where none are given;
 * `exclusive` keeps the file locked. With `in-memory` for LOG-PAGES it works on a copy in memory, which is not kept. */
#include <sqlite3.h>
#include <stdio.h>
#include <stdlib.h>
#include <string.h>
#include <unistd.h>

typedef sqlite3_int64 number;
enum { FIRST_DAY = 10957, DAYS = 36525 }; /* 2000 to 2099, days from 1970 on */
#define WHOLE_DAY 9999999999999LL

static sqlite3 *db;

static void fail(const char *what) {
    fprintf(stderr, "peer: %s: %s\n", what, db ? sqlite3_errmsg(db) : "");
    exit(3);
}

/* ---- days ---- */
static char closed[DAYS + 400];

static number day_number(int year, int month, int day) {
    int y = year - (month <= 2), shifted = (month + 9) % 12;
    return y * 365LL + y / 4 - y / 100 + y / 400 + (153 * shifted + 2) / 5 + day - 1 - 719468;
}
static int weekday(number day) { return (int)((day + 4) % 7); } /* 0 is Sunday */
static void close_day(number day) {
    if (day >= FIRST_DAY && day < FIRST_DAY + DAYS) closed[day - FIRST_DAY] = 1;
}
static void close_fixed(int year, int month, int day) {
    number at = day_number(year, month, day);
    close_day(at);
    if (weekday(at) == 6) close_day(at - 1);
    if (weekday(at) == 0) close_day(at + 1);
}
static void close_nth(int year, int month, int day_of_week, int count) {
    number first = day_number(year, month, 1);
    close_day(first + (day_of_week - weekday(first) + 7) % 7 + 7 * (count - 1));
}
static void close_all(void) {
    for (number day = FIRST_DAY; day < FIRST_DAY + DAYS; day++)
        if (weekday(day) == 0 || weekday(day) == 6) close_day(day);
    for (int year = 2000; year <= 2100; year++) {
        close_fixed(year, 1, 1), close_fixed(year, 6, 19), close_fixed(year, 7, 4), close_fixed(year, 11, 11), close_fixed(year, 12, 25);
        close_nth(year, 1, 1, 3), close_nth(year, 2, 1, 3), close_nth(year, 9, 1, 1), close_nth(year, 10, 1, 2), close_nth(year, 11, 4, 4);
        number last_may = day_number(year, 5, 31);
        close_day(last_may - (weekday(last_may) + 6) % 7);
    }
}
static number rolled(number day) {
    while (closed[day - FIRST_DAY]) day++;
    return day;
}

/* ---- a command, one flat object ---- */
struct text { const char *at; int length; };
struct field { struct text name, value; }; /* the value as it was written, a string with its quotes */
static struct field fields[16];
static int count;

static int precedes(struct text a, struct text b) {
    int order = memcmp(a.at, b.at, (size_t)(a.length < b.length ? a.length : b.length));
    return order ? order < 0 : a.length < b.length;
}
static const char *word_at(const char *p, struct text *word) { /* up to the next of ,:} or a string's end */
    while (*p == ' ' || *p == ',' || *p == ':') p++;
    word->at = p;
    if (*p == '"')
        for (p++; *p++ != '"';) { if (*(p - 1) < ' ') fail("a line is no command"); }
    else
        while (*p && *p != ',' && *p != '}' && *p != ' ') p++;
    word->length = (int)(p - word->at);
    return p;
}
static void parse(const char *p) { /* the fields, in the order of their names */
    if (*p++ != '{') fail("a line is no command");
    for (count = 0; *p && *p != '}'; count++) {
        struct field field;
        p = word_at(word_at(p, &field.name), &field.value);
        if (count == 16) fail("a command has too many fields");
        int at = count;
        for (; at && precedes(field.name, fields[at - 1].name); at--) fields[at] = fields[at - 1];
        fields[at] = field;
    }
}
static struct text value(const char *name) {
    for (int i = 0; i < count; i++)
        if (fields[i].name.length == (int)strlen(name) + 2 && !memcmp(fields[i].name.at + 1, name, strlen(name))) return fields[i].value;
    fail(name);
    exit(3);
}
static struct text string(const char *name) { return (struct text){value(name).at + 1, value(name).length - 2}; }
static number integer(const char *name) { return strtoll(value(name).at, NULL, 10); }
static number day(const char *name) {
    const char *p = string(name).at;
    return day_number(atoi(p), atoi(p + 5), atoi(p + 8));
}
static struct text canonical(char *out) {
    char *o = out;
    for (int i = 0; i < count; i++) {
        struct text name = fields[i].name, value = fields[i].value;
        *o++ = i ? ',' : '{';
        o = (char *)memcpy(o, name.at, (size_t)name.length) + name.length;
        *o++ = ':';
        o = (char *)memcpy(o, value.at, (size_t)value.length) + value.length;
    }
    *o++ = '}';
    return (struct text){out, (int)(o - out)};
}

/* ---- statements ---- */
enum { BEGIN, COMMIT, ROLLBACK, RECEIPT, LABEL, LAST_CASE, CASE, LAST_PARTY, LAST_ENTRY, LAST_DEADLINE, LAST_ACT, END, NEW_CASE, NEW_PARTY,
       NEW_ENTRY, NEW_DEADLINE, NEW_ACT, NEW_END, MOVE_END, NEW_RECEIPT, STATEMENTS };
static const char *TEXTS[STATEMENTS] = {
    "BEGIN IMMEDIATE", "COMMIT", "ROLLBACK", "SELECT reply, body FROM receipt WHERE command_key = ?1", "SELECT 1 FROM cases WHERE label = ?1",
    "SELECT number FROM cases ORDER BY number DESC LIMIT 1", "SELECT 1 FROM cases WHERE number = ?1",
    "SELECT number FROM party WHERE case_no = ?1 ORDER BY number DESC LIMIT 1", "SELECT number FROM entry WHERE case_no = ?1 ORDER BY number DESC LIMIT 1",
    "SELECT number FROM deadline WHERE case_no = ?1 ORDER BY number DESC LIMIT 1",
    "SELECT number FROM act WHERE case_no = ?1 AND deadline_no = ?2 ORDER BY number DESC LIMIT 1", "SELECT day FROM due WHERE case_no = ?1 AND deadline_no = ?2",
    "INSERT INTO cases VALUES (?1, ?3, ?4, ?2)", "INSERT INTO party VALUES (?1, ?2, ?4, ?3)", "INSERT INTO entry VALUES (?1, ?2, ?3, ?4)",
    "INSERT INTO deadline VALUES (?1, ?2, ?3, '12(a)(1)(B)', 0)", "INSERT INTO act VALUES (?1, ?2, ?3, ?4, ?5, ?6, ?7, ?8, ?9)",
    "INSERT INTO due VALUES (?1, ?2, ?3, ?4)", "UPDATE due SET day = ?3 WHERE case_no = ?1 AND deadline_no = ?2", "INSERT INTO receipt VALUES (?2, ?3, ?1)"};
static sqlite3_stmt *statements[STATEMENTS];

static void prepare(void) {
    for (int i = 0; i < STATEMENTS; i++)
        if (sqlite3_prepare_v3(db, TEXTS[i], -1, SQLITE_PREPARE_PERSISTENT, &statements[i], NULL) != SQLITE_OK) fail(TEXTS[i]);
}
/* Binds the numbers, and then the texts, and steps. The first column of the first row, or 0 where there is none. */
static number run(int which, int numbers, const number *n, int texts, const struct text *t) {
    sqlite3_stmt *s = statements[which];
    for (int i = 0; i < numbers; i++) sqlite3_bind_int64(s, i + 1, n[i]);
    for (int i = 0; i < texts; i++) sqlite3_bind_text(s, numbers + i + 1, t[i].at, t[i].length, SQLITE_STATIC);
    int code = sqlite3_step(s);
    if (code != SQLITE_ROW && code != SQLITE_DONE) fail(TEXTS[which]);
    number found = code == SQLITE_ROW ? sqlite3_column_int64(s, 0) : 0;
    if (which != RECEIPT) sqlite3_reset(s);
    return found;
}
#define NONE 0, NULL
#define NUMBERS(...) sizeof((number[]){__VA_ARGS__}) / sizeof(number), (number[]){__VA_ARGS__}
#define ONLY(which, ...) run(which, NUMBERS(__VA_ARGS__), NONE)
#define WITH(which, n, ...) run(which, n, sizeof((struct text[]){__VA_ARGS__}) / sizeof(struct text), (struct text[]){__VA_ARGS__})
#define ALONE(which) run(which, NONE, NONE)

/* ---- the docket ---- */
static const char *refusal;
static number refuse(const char *why) { return refusal = why, 0; }

static number open_case(void) {
    if (WITH(LABEL, NONE, string("label"))) return refuse("{\"name\":\"Exists\",\"refused\":8}\n");
    number next = ALONE(LAST_CASE) + 1;
    WITH(NEW_CASE, NUMBERS(next, day("filed")), string("label"), string("caption"));
    return next;
}
static number add_party(number c) {
    number next = ONLY(LAST_PARTY, c) + 1;
    WITH(NEW_PARTY, NUMBERS(c, next, string("role").at[0] == 'p' ? 1 : 2), string("name"));
    return next;
}
static number file_entry(number c) {
    number next = ONLY(LAST_ENTRY, c) + 1;
    WITH(NEW_ENTRY, NUMBERS(c, next, day("day")), string("text"));
    return next;
}
static number serve_pleading(number c) {
    number served = day("served"), next = ONLY(LAST_DEADLINE, c) + 1, end = rolled(served + 21);
    char method = string("method").at[0];
    int three = method == 'C' || method == 'D' || method == 'F';
    if (integer("party") > ONLY(LAST_PARTY, c)) return refuse("{\"name\":\"NoSuchParty\",\"refused\":4}\n");
    ONLY(NEW_DEADLINE, c, next, integer("party"));
    ONLY(NEW_ACT, c, next, 1, 1, served, 1, 21, 1, three);
    ONLY(NEW_END, c, next, three ? rolled(end + 3) : end, WHOLE_DAY);
    return next;
}
static number extend(number c) {
    number deadline = integer("deadline"), last = ONLY(LAST_ACT, c, deadline);
    if (!last) return refuse("{\"name\":\"NoSuchDeadline\",\"refused\":5}\n");
    ONLY(NEW_ACT, c, deadline, last + 1, 3, integer("days"), 0, 0, 0, 0);
    ONLY(MOVE_END, c, deadline, rolled(ONLY(END, c, deadline) + integer("days")));
    return deadline;
}
static number apply(void) {
    static const struct { const char *word; number (*apply)(number); } KINDS[] = {
        {"\"add_party\"", add_party}, {"\"file_entry\"", file_entry}, {"\"serve_pleading\"", serve_pleading}, {"\"extend\"", extend}};
    struct text kind = value("do");
    if (!strncmp(kind.at, "\"open_case\"", (size_t)kind.length)) return open_case();
    number c = integer("case");
    if (!ONLY(CASE, c)) return refuse("{\"name\":\"NoSuchCase\",\"refused\":3}\n");
    for (size_t i = 0; i < sizeof KINDS / sizeof *KINDS; i++)
        if (!strncmp(kind.at, KINDS[i].word, (size_t)kind.length)) return KINDS[i].apply(c);
    fail("a command is of no known kind");
    return 0;
}
static void answer(const char *text) {
    size_t length = strlen(text);
    if (write(1, text, length) != (ssize_t)length) fail("an answer was not written");
}
static void answer_line(const char *line) {
    static char body[1 << 17], out[64];
    parse(line);
    struct text text = canonical(body);
    number reply = WITH(RECEIPT, NONE, string("key"));
    sqlite3_stmt *receipt = statements[RECEIPT];
    int is_kept = reply != 0, is_same = is_kept && sqlite3_column_bytes(receipt, 1) == text.length && !memcmp(sqlite3_column_text(receipt, 1), body, (size_t)text.length);
    sqlite3_reset(receipt);
    if (is_kept && !is_same) return answer("{\"name\":\"KeyReused\",\"refused\":2}\n");
    if (!is_kept) {
        refusal = NULL;
        ALONE(BEGIN);
        reply = apply();
        if (refusal) return (void)ALONE(ROLLBACK), answer(refusal);
        WITH(NEW_RECEIPT, NUMBERS(reply), string("key"), text);
        ALONE(COMMIT);
    }
    sprintf(out, "{\"number\":%lld}\n", reply);
    answer(out);
}
static void execute(const char *sql) {
    if (sqlite3_exec(db, sql, NULL, NULL, NULL) != SQLITE_OK) fail(sql);
}
static void open_file(int words, char **word) {
    char sql[64];
    if (words < 2 || sqlite3_open_v2(word[1], &db, SQLITE_OPEN_READWRITE, NULL) != SQLITE_OK) fail("no file");
    if (words > 2 && !strcmp(word[2], "in-memory")) {
        sqlite3 *file = db;
        if (sqlite3_open(":memory:", &db) != SQLITE_OK) fail("memory");
        sqlite3_backup *copy = sqlite3_backup_init(db, "main", file, "main");
        if (!copy || sqlite3_backup_step(copy, -1) != SQLITE_DONE) fail("the copy");
        sqlite3_backup_finish(copy), sqlite3_close(file);
    }
    if (words > 3) execute("PRAGMA locking_mode = EXCLUSIVE");
    execute("PRAGMA journal_mode = WAL; PRAGMA synchronous = FULL; PRAGMA foreign_keys = ON");
    sprintf(sql, "PRAGMA wal_autocheckpoint = %d", words > 2 && atoi(word[2]) ? atoi(word[2]) : 1000);
    execute(sql);
}
int main(int words, char **word) {
    static char input[1 << 17];
    size_t held = 0;
    ssize_t more;
    open_file(words, word);
    prepare();
    close_all();
    while ((more = read(0, input + held, sizeof input - held)) > 0) {
        char *line = input, *end = input + held + more, *feed;
        for (; (feed = memchr(line, '\n', (size_t)(end - line))); line = feed + 1) *feed = 0, answer_line(line);
        memmove(input, line, held = (size_t)(end - line));
    }
    for (int i = 0; i < STATEMENTS; i++) sqlite3_finalize(statements[i]);
    return sqlite3_close(db) != SQLITE_OK;
}
