/*
** stream [exchanged]: answers the cases of tests/reference/stream.rs through the three calls. An answer's line is made from the 16 bytes of
** details alone; behind it stand the bytes used. Every slice stands between guard bytes, and each call is tried with a detail slice that is
** too short first. The line is `changed`, which no case wants, where a call changes a byte that it must not change, or returns another
** number than it tells. With the word `exchanged` input and record of a refusal change places: that has to be seen.
**
** Each call runs on a stack of its own that was painted before; what is no longer painted in the end was used. That is printed on standard
** error, beside what culvertecho.h says, and more than that fails.
*/
#define _XOPEN_SOURCE 700
#include "culvertecho.h"
#include "lent.h"
#include <ucontext.h>

#define STACK_BYTES (1 << 20)
#define PAINT 0xa5
#define HEAD_BYTES 21
#define INPUTS 3

/* The operations of the stream that are calls, and none, to see what a stack takes of itself. */
enum { NOTHING, PROOF, TREE, DECIDE, STACKS };
static const struct {
    const char *name;
    int operation;
    size_t says;
} calls[STACKS] = {
    {"nothing", 0, 0},
    {"culvertecho_check_proof", 5, CULVERTECHO_CHECK_PROOF_STACK},
    {"culvertecho_check_counterexample", 6, CULVERTECHO_CHECK_COUNTEREXAMPLE_STACK},
    {"culvertecho_decide", 7, CULVERTECHO_DECIDE_STACK},
};

static uint8_t *stacks[STACKS];
static ucontext_t caller, callee;
static struct lent inputs[INPUTS], answer, detail;
static int called;
static size_t returned;

static void run(void) {
    const struct lent *p = &inputs[0], *q = &inputs[1], *t = &inputs[2], *a = &answer, *d = &detail;
    switch (called) {
    case PROOF:
        returned = culvertecho_check_proof(p->bytes, p->length, q->bytes, q->length, t->bytes, t->length, d->bytes, d->length);
        break;
    case TREE:
        returned = culvertecho_check_counterexample(p->bytes, p->length, q->bytes, q->length, t->bytes, t->length, d->bytes, d->length);
        break;
    case DECIDE:
        returned = culvertecho_decide(p->bytes, p->length, q->bytes, q->length, a->bytes, a->length, d->bytes, d->length);
        break;
    }
}

/* The call on its own stack. */
static void run_apart(void) {
    getcontext(&callee);
    callee.uc_stack.ss_sp = stacks[called];
    callee.uc_stack.ss_size = STACK_BYTES;
    callee.uc_link = &caller;
    makecontext(&callee, run, 0);
    swapcontext(&caller, &callee);
}

static size_t stack_used(int call) {
    size_t unused = 0;
    while (unused < STACK_BYTES && stacks[call][unused] == PAINT) {
        unused++;
    }
    return STACK_BYTES - unused;
}

static int all_stay(size_t of_answer, size_t of_detail) {
    int stay = stays(&answer, of_answer) && stays(&detail, of_detail);
    for (int i = 0; i < INPUTS; i++) {
        stay = stay && stays(&inputs[i], 0);
    }
    return stay;
}

/* 19, and nothing is written. */
static int refuses_short(size_t length) {
    detail = lend(NULL, length);
    run_apart();
    int right = returned == CULVERTECHO_SHORT_DETAIL && all_stay(0, 0);
    take_back(&detail);
    return right;
}

static void say(int exchanged) {
    const uint8_t *told = detail.bytes;
    unsigned verdict = culvertecho_verdict(told), used = culvertecho_used(told);
    unsigned input = culvertecho_input(told), record = culvertecho_record(told);
    int zeros = told[12] == 0 && told[13] == 0 && told[14] == 0 && told[15] == 0;
    int fields = verdict == CULVERTECHO_REFUSED ? used == 0 : culvertecho_number(told) == 0 && input == 0 && record == 0;
    if (returned != culvertecho_number(told) || !zeros || !fields || !all_stay(used, CULVERTECHO_DETAIL_BYTES)) {
        printf("changed\n");
    } else if (verdict == CULVERTECHO_REFUSED) {
        printf("refused %u %u %u\n", culvertecho_number(told), exchanged ? record : input, exchanged ? input : record);
    } else if (called != DECIDE) {
        printf(verdict == CULVERTECHO_ACCEPTED && used == 0 ? "accepted\n" : "changed\n");
    } else {
        printf("%s %u\n", verdict == CULVERTECHO_IMPLIED ? "implied" : verdict == CULVERTECHO_NOT_IMPLIED ? "not implied" : "changed", used);
        fwrite(answer.bytes, 1, used, stdout);
    }
}

static size_t four(const uint8_t *at) {
    return at[0] | (size_t)at[1] << 8 | (size_t)at[2] << 16 | (size_t)at[3] << 24;
}

/* A case into the slices; false where the stream ends. */
static int next_case(void) {
    uint8_t head[HEAD_BYTES];
    size_t found = fread(head, 1, HEAD_BYTES, stdin);
    if (found == 0) {
        return 0;
    }
    called = NOTHING;
    for (int i = 1; i < STACKS; i++) {
        called = calls[i].operation == head[0] ? i : called;
    }
    int whole = found == HEAD_BYTES && called != NOTHING;
    for (int i = 0; whole && i < INPUTS; i++) {
        size_t length = four(head + 9 + 4 * i);
        uint8_t *bytes = need(length + 1);
        whole = fread(bytes, 1, length, stdin) == length;
        inputs[i] = lend(bytes, length);
        free(bytes);
    }
    if (!whole) {
        fprintf(stderr, "stream: a case is cut or is none of the three calls\n");
        exit(2);
    }
    answer = lend(NULL, four(head + 5));
    return 1;
}

static void answer_case(size_t number, int exchanged) {
    int refuses = refuses_short(number % CULVERTECHO_DETAIL_BYTES);
    detail = lend(NULL, CULVERTECHO_DETAIL_BYTES + number % 2 * 4);
    run_apart();
    if (refuses) {
        say(exchanged);
    } else {
        printf("changed\n");
    }
    for (int i = 0; i < INPUTS; i++) {
        take_back(&inputs[i]);
    }
    take_back(&answer);
    take_back(&detail);
}

int main(int count, char **words) {
    int exchanged = count > 1 && strcmp(words[1], "exchanged") == 0, status = 0;
    for (int i = 0; i < STACKS; i++) {
        stacks[i] = need(STACK_BYTES);
        memset(stacks[i], PAINT, STACK_BYTES);
    }
    called = NOTHING;
    run_apart();
    for (size_t number = 0; next_case(); number++) {
        answer_case(number, exchanged);
    }
    for (int i = 1; i < STACKS; i++) {
        size_t used = stack_used(i) - stack_used(NOTHING);
        fprintf(stderr, "stack: %s took %zu bytes, culvertecho.h says %zu\n", calls[i].name, used, calls[i].says);
        status |= used > calls[i].says;
    }
    return status;
}
