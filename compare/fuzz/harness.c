// Any bytes as a case file, through sendai_case_open and sendai_case_run as the program uses them. It aborts where what comes out is
// not one of the lines of SPEC 5.4, where a file is taken or refused against SPEC 5.3, or where a byte behind a line was
// written. The file and the buffer end at a page that can be neither read nor written.
#include <stddef.h>
#include <stdint.h>
#include <stdio.h>
#include <stdlib.h>
#include <string.h>
#include <sys/mman.h>

enum { LINE_ROOM = 55323, LONGEST = 65536, PAGE = 4096, BLANK = 0xbe };

typedef struct {
    size_t height, width;
    uint8_t states[1984];
    uint16_t ledger[1984];
    size_t len;
} Board;

typedef struct {
    Board board;
    uint16_t given[1984];
    size_t given_len;
    uint16_t clues[1024];
    size_t clues_len;
    uint8_t kind;
} Puzzle;

typedef struct {
    uint8_t code;
    Puzzle puzzle;
    size_t at, count;
} Opened;

typedef struct {
    uint8_t code;
    Puzzle puzzle;
    size_t at, done, len;
} Ran;

Opened sendai_case_open(const uint8_t *file, size_t length);
Ran sendai_case_run(const uint8_t *file, size_t length, size_t at, size_t count, Puzzle p, uint8_t *out, size_t room);
size_t LLVMFuzzerMutate(uint8_t *data, size_t size, size_t most);

// The archive is not instrumented: what comes out of it guides the search.
__attribute__((section("__libfuzzer_extra_counters"))) static uint8_t seen[1 << 14];

static void notice(uint32_t what) {
    seen[(what * 2654435761u) >> 18] = 1;
}

// Files, those that are sound, those whose puzzle is made, and lines.
static size_t files, sound_files, puzzles, lines;

__attribute__((destructor)) static void tell(void) {
    fprintf(stderr, "harness: %zu files, %zu of them sound, %zu puzzles, %zu lines\n", files, sound_files, puzzles, lines);
}

static void must(int holds, const char *what) {
    if (!holds) {
        fprintf(stderr, "harness: %s\n", what);
        abort();
    }
}

// So many places that end at a page without rights.
static uint8_t *guarded(size_t places) {
    size_t pages = (places + PAGE - 1) / PAGE * PAGE;
    uint8_t *from = mmap(NULL, pages + PAGE, PROT_READ | PROT_WRITE, MAP_PRIVATE | MAP_ANONYMOUS, -1, 0);
    must(from != MAP_FAILED && mprotect(from + pages, PAGE, PROT_NONE) == 0, "no memory");
    return from + pages - places;
}

static size_t word(const uint8_t *b) {
    return 256 * (size_t)b[0] + b[1];
}

// SPEC 5.3: how many calls a sound file has, or -1.
static long calls_of(const uint8_t *file, size_t length) {
    if (length < 5 || file[0] != 1 || word(file + 1) != length - 3 || length - 3 > 60000) return -1;
    size_t at = 5;
    for (int list = 0; list < 2; list++) {
        if (length - at < 2) return -1;
        size_t count = word(file + at);
        at += 2;
        if (length - at < 2 * count) return -1;
        at += 2 * count;
    }
    if (length - at < 2) return -1;
    size_t count = word(file + at);
    at += 2;
    for (size_t k = 0; k < count; k++) {
        if (at == length || file[at] > 3) return -1;
        size_t size = file[at] == 1 || file[at] == 2 ? 3 : 1;
        if (length - at < size) return -1;
        at += size;
    }
    return at == length ? (long)count : -1;
}

// A number in decimal without a zero in front; the place behind it, or null.
static const char *number(const char *s, size_t *n) {
    if (*s < '0' || *s > '9' || (*s == '0' && s[1] >= '0' && s[1] <= '9')) return NULL;
    for (*n = 0; *s >= '0' && *s <= '9' && *n < 100000; s++) *n = 10 * *n + (size_t)(*s - '0');
    return s;
}

// Entries of the largest board, each after a space, rising.
static int are_entries(const char *s, uint32_t kind) {
    size_t count = 0;
    for (long last = -1; *s == ' '; count++) {
        size_t n;
        if (!(s = number(s + 1, &n)) || (long)n <= last || n >= 2 * 1984) return 0;
        last = (long)n;
    }
    notice(kind << 8 | (count < 32 ? count : 32 + count / 32));
    return strcmp(s, "\n") == 0;
}

static int is_line(const char *s) {
    size_t n;
    if (!strcmp(s, "decided\n") || !strcmp(s, "undone\n") || !strcmp(s, "clear\n")) return 1;
    if (!strncmp(s, "shape:", 6)) return are_entries(s + 6, 1);
    if (!strncmp(s, "room ", 5)) return (s = number(s + 5, &n)) && n < 1024 && *s == ':' && are_entries(s + 1, 2 + (uint32_t)n);
    if (!strncmp(s, "refused ", 8)) return (s = number(s + 8, &n)) && n >= 1 && n <= 11 && !strcmp(s, "\n");
    return 0;
}

// The calls one by one, as the program runs them.
static void run(const uint8_t *file, size_t size, Opened opened) {
    static uint8_t *out;
    static uint8_t blank[LINE_ROOM];
    static char line[LINE_ROOM + 1];
    if (!out) {
        memset(out = guarded(LINE_ROOM), BLANK, LINE_ROOM);
        memset(blank, BLANK, LINE_ROOM);
    }
    Puzzle puzzle = opened.puzzle;
    size_t at = opened.at;
    uint32_t before = 0;
    for (size_t k = 0; k < opened.count; k++) {
        Ran ran = sendai_case_run(file, size, at, 1, puzzle, out, LINE_ROOM);
        must(ran.code == 0 && ran.done == 1 && ran.at > at && ran.at <= size && ran.len <= LINE_ROOM, "a call was not done");
        must(!memcmp(out + ran.len, blank, LINE_ROOM - ran.len), "a byte behind the line was written");
        memcpy(line, out, ran.len);
        line[ran.len] = 0;
        must(strlen(line) == ran.len && is_line(line), "not a line");
        memset(out, BLANK, ran.len);
        lines++;
        uint32_t kind = (uint8_t)line[0] + (line[0] == 'r' ? (uint8_t)line[ran.len - 2] : 0);
        notice(1u << 30 | before << 10 | kind);
        notice(1u << 29 | (uint32_t)(ran.puzzle.board.len << 10) | kind);
        before = kind;
        puzzle = ran.puzzle;
        at = ran.at;
    }
    must(at == size, "bytes behind the last call");
}

int LLVMFuzzerTestOneInput(const uint8_t *data, size_t size) {
    static uint8_t *end;
    static const Puzzle zero;
    if (!end) end = guarded(LONGEST) + LONGEST;
    if (size > LONGEST) return 0;
    uint8_t *file = end - size;
    memcpy(file, data, size);
    Opened opened = sendai_case_open(file, size);
    long calls = calls_of(file, size);
    files++;
    sound_files += calls >= 0;
    puzzles += opened.code == 0;
    must((calls < 0) == (opened.code == 11), "sound or not");
    must(!memcmp(file, data, size), "the file was written");
    notice(1u << 28 | (uint32_t)opened.code);
    if (opened.code != 0) {
        must(strchr("\1\3\7\10\11\13", opened.code) != NULL, "no making is refused by this number");
        must(!memcmp(&opened.puzzle, &zero, offsetof(Puzzle, kind) + 1) && !opened.at && !opened.count, "a refused puzzle is not zero");
        return 0;
    }
    must(opened.count == (size_t)calls, "the count of calls");
    notice(1u << 27 | (uint32_t)(opened.puzzle.board.height << 8 | opened.puzzle.board.width));
    run(file, size, opened);
    return 0;
}

// The list whose count stands at a byte, cut to what the file has: the byte behind it.
static size_t fitted(uint8_t *data, size_t size, size_t at) {
    size_t most = (size - at - 2) / 2;
    if (word(data + at) > most) {
        data[at] = 0;
        data[at + 1] = (uint8_t)(most < 255 ? most : 255);
    }
    return at + 2 + 2 * word(data + at);
}

// The file as a sound one: its lists and calls as far as they go, and as many calls as there are. Its length, or 0 where it is too short.
static size_t sounded(uint8_t *data, size_t size) {
    if (size < 11) return 0;
    size_t calls = fitted(data, size - 4, 5);
    calls = fitted(data, size - 2, calls);
    size_t at = calls + 2, count = 0;
    for (; at < size; count++) {
        data[at] %= 4;
        size_t behind = at + (data[at] == 1 || data[at] == 2 ? 3 : 1);
        if (behind > size) break;
        at = behind;
    }
    data[calls] = (uint8_t)(count >> 8);
    data[calls + 1] = (uint8_t)count;
    return at;
}

// Most files keep a version and a length that are right, and half of them are made sound.
size_t LLVMFuzzerCustomMutator(uint8_t *data, size_t size, size_t most, unsigned seed) {
    size = LLVMFuzzerMutate(data, size, most);
    size_t sound = seed % 2 ? sounded(data, size) : 0;
    size = sound ? sound : size;
    if (size >= 3 && seed % 8 != 0) {
        data[0] = 1;
        data[1] = (uint8_t)((size - 3) >> 8);
        data[2] = (uint8_t)(size - 3);
    }
    return size;
}
