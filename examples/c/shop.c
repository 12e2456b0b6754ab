/* A day of a shop, kept in an account book: deposits, enquiries and one that is refused, the closing total, and the book in a file, which
   is checked before it is gone on with.

   cc shop.c $(pkg-config --cflags --libs ouriscado) -o shop && ./shop FILE

   FILE is replaced and read back. rust/examples/shop.rs tells the same story and prints the same lines. */
#define _POSIX_C_SOURCE 200809L /* for fsync */
#include <fcntl.h>
#include <inttypes.h>
#include <ouriscado.h>
#include <stdio.h>
#include <stdlib.h>
#include <string.h>
#include <unistd.h>

enum { BODY_BYTES = 65536, ACCOUNTS = 4, BAKERY = 0, FLORIST = 1, KIOSK = 2, TAILOR = 3 };
static const char *const NAMES[ACCOUNTS] = { "bakery", "florist", "kiosk", "tailor" };

/* A book is these three, which belong together. */
struct book {
    uint8_t body[BODY_BYTES];
    uint64_t heads[ACCOUNTS];
    struct ouriscado_state state;
};

/* The amount of a record in cents: a stand-in for the table of records, which the firm keeps elsewhere. */
static uint64_t cents(uint64_t record)
{
    return record * 3719 % 9000 + 100;
}

static void stop(const char *what)
{
    fprintf(stderr, "shop: %s\n", what);
    exit(1);
}

/* Records a deposit, and says where the account's list stands now. */
static void deposit(struct book *b, uint64_t account, uint64_t record)
{
    uint8_t kind, class_;
    uint16_t used;
    uint64_t place, rewritten;
    uint32_t refusal = ouriscado_append(b->body, BODY_BYTES, b->heads, ACCOUNTS, &b->state, account, record,
                                        &kind, &class_, &used, &place, &rewritten);
    printf("deposit %" PRIu64 " for the %s: ", record, NAMES[account]);
    if (refusal != OURISCADO_ACCEPTED)
        printf("refused with %" PRIu32 " and not recorded: %s\n", refusal, ouriscado_refusal_text(refusal));
    else if (kind == OURISCADO_KIND_INLINE)
        printf("inline, %" PRIu64 " rewritten\n", rewritten);
    else if (kind == OURISCADO_KIND_SLAB)
        printf("slab of class %d at %" PRIu64 " with %d numbers, %" PRIu64 " rewritten\n", class_, place, used, rewritten);
    else
        printf("pages, the last at %" PRIu64 ", %" PRIu64 " rewritten\n", place, rewritten);
}

/* An account's list, in memory that the caller frees. It asks for the length first, so that the list that it lends isn't too short; any
   refusal means that the account is unknown, which must never pass for empty. */
static uint64_t *enquire(const struct book *b, uint64_t account, uint64_t *length)
{
    uint64_t pages, padded;
    if (ouriscado_length(b->body, BODY_BYTES, b->heads, ACCOUNTS, &b->state, account, length) != OURISCADO_ACCEPTED)
        stop("an enquiry is refused");
    uint64_t *list = malloc((*length + 1) * sizeof *list);
    if (!list)
        stop("no memory");
    if (ouriscado_read(b->body, BODY_BYTES, b->heads, ACCOUNTS, &b->state, account, list, *length, length, &pages, &padded) !=
        OURISCADO_ACCEPTED)
        stop("an enquiry is refused");
    return list;
}

/* One enquiry with a list of so many numbers, and what it says. */
static void ask(const struct book *b, uint64_t account, size_t room)
{
    uint64_t list[512], length, pages, padded;
    uint32_t refusal =
        ouriscado_read(b->body, BODY_BYTES, b->heads, ACCOUNTS, &b->state, account, list, room, &length, &pages, &padded);
    printf("enquiry for the %s, with room for %zu: ", NAMES[account], room);
    if (refusal != OURISCADO_ACCEPTED)
        printf("refused with %" PRIu32 ", this is no empty account: %s\n", refusal, ouriscado_refusal_text(refusal));
    else if (length == 0)
        printf("nothing was received\n");
    else
        printf("%" PRIu64 " from %" PRIu64 " to %" PRIu64 ", pages %" PRIu64 "\n", length, list[0], list[length - 1], pages);
}

/* The closing total over all accounts, an account a line. */
static void closing(const struct book *b)
{
    uint64_t total = 0;
    for (uint64_t account = 0; account < ACCOUNTS; account++) {
        uint64_t length, sum = 0, *list = enquire(b, account, &length);
        for (uint64_t i = 0; i < length; i++)
            sum += cents(list[i]);
        free(list);
        printf("closing %s: deposits %" PRIu64 ", amount %" PRIu64 ".%02" PRIu64 "\n", NAMES[account], length, sum / 100, sum % 100);
        total += sum;
    }
    printf("closing total: %" PRIu64 ".%02" PRIu64 "\n", total / 100, total % 100);
}

/* Writes state, head words and body to an open file, the three of one moment, and has them on the disk when it returns: what was written
   may stand in memory alone until then. Tells whether all went well. */
static int put_book(const struct book *b, FILE *file)
{
    return fwrite(&b->state, sizeof b->state, 1, file) == 1 && fwrite(b->heads, sizeof b->heads, 1, file) == 1 &&
           fwrite(b->body, sizeof b->body, 1, file) == 1 && fflush(file) == 0 && fsync(fileno(file)) == 0;
}

/* Has the names in the folder of a path on the disk: a file that was renamed may have its old name there until then. */
static int sync_folder(const char *path)
{
    char folder[4096] = ".";
    const char *slash = strrchr(path, '/');
    if (slash)
        snprintf(folder, sizeof folder, "%.*s", slash == path ? 1 : (int)(slash - path), path);
    int handle = open(folder, O_RDONLY);
    if (handle < 0)
        return 0;
    int synced = fsync(handle) == 0;
    return close(handle) == 0 && synced;
}

/* Saves a book. Were it written over the file that is there, and the machine stopped in between, that file would be a mix of two moments and
   the only copy gone. So a second file is written, brought to the disk, and given the name: at each moment the name has the whole old book
   or the whole new one. */
static void save_book(const struct book *b, const char *path)
{
    char beside[4096];
    if (snprintf(beside, sizeof beside, "%s.new", path) >= (int)sizeof beside)
        stop("the file's name is too long");
    FILE *file = fopen(beside, "wb");
    if (!file)
        stop("the file can't be written");
    int put = put_book(b, file);
    if (fclose(file) != 0 || !put || rename(beside, path) != 0 || !sync_folder(path))
        stop("the file can't be written");
    printf("the book is written: %zu bytes\n", sizeof b->state + sizeof b->heads + sizeof b->body);
}

/* Reads a book from such a file. */
static void read_book(struct book *b, const char *path)
{
    FILE *file = fopen(path, "rb");
    if (!file || fread(&b->state, sizeof b->state, 1, file) != 1 || fread(b->heads, sizeof b->heads, 1, file) != 1 ||
        fread(b->body, sizeof b->body, 1, file) != 1 || fclose(file) != 0)
        stop("the file can't be read");
}

/* Says why a book isn't opened: the ground, and which account or class of blocks it is about. This book has no desks, so that counts are named
   by their ground alone. */
static void say_why(uint32_t ground, uint64_t which)
{
    printf("the book isn't opened: ");
    if (ground == OURISCADO_START_KEY_UNSOUND)
        printf("account %" PRIu64 " isn't sound\n", which);
    else if (ground == OURISCADO_START_KEY_SHARES)
        printf("a block of account %" PRIu64 " shares bytes with another in use\n", which);
    else if (ground == OURISCADO_START_FREE_STRAYS)
        printf("the freed blocks of class %" PRIu64 " name an offset where none can stand\n", which);
    else if (ground == OURISCADO_START_FREE_SHARES)
        printf("a freed block of class %" PRIu64 " shares bytes with another, in use or freed\n", which);
    else
        printf("its counts of pages aren't true: ground %" PRIu32 "\n", ground);
}

/* Goes on with a book from elsewhere, and tells whether it did: it is enquired only where it is a good start. */
static int go_on(const struct book *b)
{
    static uint8_t work[BODY_BYTES / OURISCADO_WORK_UNIT];
    uint32_t ground;
    uint64_t which, lost;
    if (ouriscado_check(b->body, BODY_BYTES, b->heads, ACCOUNTS, &b->state, work, sizeof work, &ground, &which, &lost)
        != OURISCADO_ACCEPTED)
        stop("the book can't be judged");
    if (ground != OURISCADO_START_GOOD) {
        say_why(ground, which);
        return 0;
    }
    printf("the book is a good start\n");
    if (lost != 0)
        printf("%" PRIu64 " units of 16 bytes belong to nobody: a head word may be lost\n", lost);
    ask(b, FLORIST, 512);
    ask(b, BAKERY, 512);
    closing(b);
    return 1;
}

int main(int argc, char **argv)
{
    static struct book today, later;
    uint64_t month[300], year[14], pages;
    if (argc != 2)
        stop("usage: shop FILE");

    printf("Ouriscado %s\n", ouriscado_version());
    if (ouriscado_fresh(today.body, BODY_BYTES, today.heads, ACCOUNTS, &today.state) != OURISCADO_ACCEPTED)
        stop("no book can be made");
    for (size_t i = 0; i < 300; i++)
        month[i] = 10 * (i + 1);
    if (ouriscado_load(today.body, BODY_BYTES, today.heads, ACCOUNTS, &today.state, BAKERY, month, 300, &pages) != OURISCADO_ACCEPTED)
        stop("the month can't be loaded");
    printf("loaded for the bakery: 300, pages %" PRIu64 "\n", pages);
    /* The tailor has closed: no deposit will follow, so that the list needs no spare slot. */
    for (size_t i = 0; i < 14; i++)
        year[i] = 10 * i + 5;
    if (ouriscado_load_tight(today.body, BODY_BYTES, today.heads, ACCOUNTS, &today.state, TAILOR, year, 14, &pages) != OURISCADO_ACCEPTED)
        stop("the year can't be loaded");
    printf("loaded tight for the tailor, who has closed: 14, pages %" PRIu64 "\n", pages);

    deposit(&today, FLORIST, 3005);
    deposit(&today, BAKERY, 3006);
    deposit(&today, FLORIST, 3010);
    deposit(&today, FLORIST, 3012);
    deposit(&today, FLORIST, 3012);

    ask(&today, BAKERY, 300);
    ask(&today, BAKERY, 512);
    ask(&today, KIOSK, 0);
    closing(&today);

    save_book(&today, argv[1]);
    read_book(&later, argv[1]);
    if (!go_on(&later))
        stop("the book that was written is no good start");

    read_book(&later, argv[1]);
    later.heads[KIOSK] = later.heads[FLORIST];
    printf("the florist's head word is copied over the kiosk's\n");
    if (go_on(&later))
        stop("a damaged book is a good start");
    return 0;
}
