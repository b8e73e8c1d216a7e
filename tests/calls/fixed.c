/*
** fixed FOLDER: the three calls, held to answers written by hand; FOLDER has the bundled examples. Every slice stands between guard bytes.
** Each expectation is also tried wrong, in each of its numbers and bytes, and every wrong one has to be seen.
*/
#include "culvertecho.h"
#include "lent.h"

#define DETAIL 16
#define FILE_BYTES 16384

enum call { DECIDE, PROOF, COUNTEREXAMPLE };

struct bytes {
    uint8_t *at;
    size_t length;
};

struct wanted {
    size_t returned;
    uint8_t detail[DETAIL]; /* where nothing is refused by 19 */
    size_t used;            /* bytes of the answer buffer that may change */
};

struct row {
    const char *name;
    enum call call;
    struct bytes profile, question, third;
    size_t answer_length, detail_length;
    struct wanted wanted;
};

static struct bytes evidence; /* what the last call of DECIDE wrote */

static struct bytes copy(const uint8_t *from, size_t length) {
    struct bytes all = {need(length + 1), length};
    memcpy(all.at, from, length);
    return all;
}

static struct bytes file(const char *folder, const char *name) {
    char path[4096];
    uint8_t bytes[FILE_BYTES];
    snprintf(path, sizeof path, "%s/%s", folder, name);
    FILE *from = fopen(path, "rb");
    if (from == NULL) {
        fprintf(stderr, "fixed: %s cannot be read\n", path);
        exit(2);
    }
    size_t length = fread(bytes, 1, sizeof bytes, from);
    fclose(from);
    return copy(bytes, length);
}

static size_t call(const struct row *row, struct lent *p, struct lent *q, struct lent *t, struct lent *a, struct lent *d) {
    switch (row->call) {
    case DECIDE:
        return culvertecho_decide(p->bytes, p->length, q->bytes, q->length, a->bytes, a->length, d->bytes, d->length);
    case PROOF:
        return culvertecho_check_proof(p->bytes, p->length, q->bytes, q->length, t->bytes, t->length, d->bytes, d->length);
    default:
        return culvertecho_check_counterexample(p->bytes, p->length, q->bytes, q->length, t->bytes, t->length, d->bytes, d->length);
    }
}

/* Whether the call comes to what is wanted, and changes nothing else. */
static int is_right(const struct row *row, const struct wanted *wanted) {
    struct lent p = lend(row->profile.at, row->profile.length);
    struct lent q = lend(row->question.at, row->question.length);
    struct lent t = lend(row->third.at, row->third.length);
    struct lent a = lend(NULL, row->answer_length);
    struct lent d = lend(NULL, row->detail_length);
    size_t returned = call(row, &p, &q, &t, &a, &d);
    int told = wanted->returned != CULVERTECHO_SHORT_DETAIL;
    int right = returned == wanted->returned && stays(&p, 0) && stays(&q, 0) && stays(&t, 0) && stays(&a, wanted->used)
        && stays(&d, told ? DETAIL : 0) && (!told || memcmp(d.bytes, wanted->detail, DETAIL) == 0);
    if (right && wanted->used > 0) {
        evidence = copy(a.bytes, wanted->used);
    }
    take_back(&p);
    take_back(&q);
    take_back(&t);
    take_back(&a);
    take_back(&d);
    return right;
}

static int rows, wrong_ones, faults;

static void fault(const char *name, const char *what) {
    fprintf(stderr, "fixed: %s: %s\n", name, what);
    faults++;
}

/* The row, then each wrong expectation of it. With 19 there are no details to be wrong. */
static void hold(struct row row) {
    int told = row.wanted.returned != CULVERTECHO_SHORT_DETAIL;
    rows++;
    if (!is_right(&row, &row.wanted)) {
        fault(row.name, "differs");
    }
    for (int at = -2; at < (told ? DETAIL : -1); at++) {
        struct wanted wrong = row.wanted;
        if (at == -2) {
            wrong.returned++;
        } else if (at == -1 && wrong.used > 0) {
            wrong.used--;
        } else if (at == -1) {
            continue;
        } else {
            wrong.detail[at] ^= 1;
        }
        wrong_ones++;
        if (is_right(&row, &wrong)) {
            fault(row.name, "a wrong expectation is not seen");
        }
    }
}

/* Each byte of a lent slice and of its guards is looked at, but for those that may change. */
static void hold_guards(void) {
    const size_t length = 32, may_change = 5;
    struct lent slice = lend(NULL, length);
    for (size_t at = 0; at < length + 2 * GUARD_BYTES; at++) {
        int free_one = at >= GUARD_BYTES && at < GUARD_BYTES + may_change;
        slice.whole[at] ^= 1;
        if (stays(&slice, may_change) != free_one) {
            fault("guards", "a changed byte is not seen, or one that may change is");
        }
        slice.whole[at] ^= 1;
    }
    take_back(&slice);
}

int main(int count, char **words) {
    const char *folder = count > 1 ? words[1] : "examples";
    struct bytes a = file(folder, "a.profile"), asked_a = file(folder, "a.question");
    struct bytes b = file(folder, "b.profile"), asked_b = file(folder, "b.question");
    struct bytes none = copy((const uint8_t *)"", 0), cut = copy((const uint8_t *)"\5\0\3\0\1", 5);
    const size_t whole = CULVERTECHO_ANSWER_BYTES;
    hold_guards();

    hold((struct row){"decide b", DECIDE, b, asked_b, none, whole, 20, {0, {2, 0, 0, 0, 0, 0, 0, 0, 132}, 132}});
    struct bytes tree = evidence;
    hold((struct row){"decide a", DECIDE, a, asked_a, none, whole, 16, {0, {1, 0, 0, 0, 0, 0, 0, 0, 144}, 144}});
    struct bytes proof = evidence;
    hold((struct row){"decide b, a larger answer", DECIDE, b, asked_b, none, whole + 1, 64, {0, {2, 0, 0, 0, 0, 0, 0, 0, 132}, 132}});

    hold((struct row){"b's tree", COUNTEREXAMPLE, b, asked_b, tree, 0, 16, {0, {1}, 0}});
    hold((struct row){"a's proof", PROOF, a, asked_a, proof, 0, 17, {0, {1}, 0}});

    hold((struct row){"decide, detail of 15", DECIDE, b, asked_b, none, whole, 15, {19, {0}, 0}});
    hold((struct row){"decide, detail of 15 and answer of 0", DECIDE, b, asked_b, none, 0, 15, {19, {0}, 0}});
    hold((struct row){"decide, detail of 0", DECIDE, none, none, none, 0, 0, {19, {0}, 0}});
    hold((struct row){"proof, detail of 15", PROOF, a, asked_a, proof, 0, 15, {19, {0}, 0}});
    hold((struct row){"tree, detail of 15", COUNTEREXAMPLE, b, asked_b, tree, 0, 15, {19, {0}, 0}});

    hold((struct row){"decide, answer of 0", DECIDE, b, asked_b, none, 0, 16, {14, {0, 0, 14, 0, 4}, 0}});
    hold((struct row){"decide, answer of 65,535", DECIDE, b, asked_b, none, whole - 1, 16, {14, {0, 0, 14, 0, 4}, 0}});
    hold((struct row){"decide, 14 before the profile", DECIDE, cut, none, none, whole - 1, 16, {14, {0, 0, 14, 0, 4}, 0}});
    hold((struct row){"decide, a cut profile", DECIDE, cut, asked_b, none, whole, 16, {1, {0, 0, 1, 0, 1}, 0}});
    hold((struct row){"decide, no question", DECIDE, b, none, none, whole, 16, {1, {0, 0, 1, 0, 2}, 0}});
    hold((struct row){"decide, a key without labels", DECIDE, asked_a, asked_a, none, whole, 16, {4, {0, 0, 4, 0, 1}, 0}});

    hold((struct row){"proof, empty", PROOF, a, asked_a, none, 0, 16, {10, {0, 0, 10, 0, 3}, 0}});
    hold((struct row){"proof, a tree", PROOF, a, asked_a, tree, 0, 16, {2, {0, 0, 2, 0, 3}, 0}});
    hold((struct row){"b's tree against a's profile", COUNTEREXAMPLE, a, asked_b, tree, 0, 16, {12, {0, 0, 12, 0, 1}, 0}});
    hold((struct row){"b's tree keeps a's question", COUNTEREXAMPLE, b, asked_a, tree, 0, 16, {13, {0, 0, 13, 0, 3}, 0}});

    /* records that are not 0, so that fields are told apart */
    struct bytes cut_tree = {tree.at, tree.length - 1};
    hold((struct row){"tree, cut", COUNTEREXAMPLE, b, asked_b, cut_tree, 0, 16, {1, {0, 0, 1, 0, 3, 0, 11}, 0}});
    struct bytes twice = {need(b.length + asked_a.length), b.length + asked_a.length};
    memcpy(twice.at, b.at, b.length);
    memcpy(twice.at + b.length, asked_a.at, asked_a.length);
    hold((struct row){"a doubled key", DECIDE, twice, asked_b, none, whole, 16, {15, {0, 0, 15, 0, 1, 0, 7}, 0}});

    printf("fixed: %d rows, %d wrong expectations, %d faults\n", rows, wrong_ones, faults);
    return faults == 0 ? 0 : 1;
}
