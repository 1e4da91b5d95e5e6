/* The C library's malloc and realloc, of which some calls are refused: so many as REFUSED_IN_A_ROW tells, from the one whose number REFUSED
   is, counted from 1. At each a byte goes to the file whose number REFUSED_TOLD is. tests/growths puts it before the program. */
extern void *__libc_malloc(unsigned long);
extern void *__libc_realloc(void *, unsigned long);
extern char *getenv(const char *);
extern int atoi(const char *);
extern long write(int, const void *, unsigned long);

static int calls;

static int number_in(const char *name) {
    const char *text = getenv(name);
    return text ? atoi(text) : 0;
}

static int is_refused(void) {
    int first = number_in("REFUSED");
    calls++;
    if (!first || calls < first || calls - first >= number_in("REFUSED_IN_A_ROW")) return 0;
    write(number_in("REFUSED_TOLD"), "", 1);
    return 1;
}

void *malloc(unsigned long bytes) { return is_refused() ? 0 : __libc_malloc(bytes); }

void *realloc(void *old, unsigned long bytes) { return is_refused() ? 0 : __libc_realloc(old, bytes); }
