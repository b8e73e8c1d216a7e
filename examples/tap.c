/*
** examples/tap.c: how a tap's firmware asks. Does a key follow from the keys that the exporter checks? The evidence is checked before it is
** believed. No file system, no heap; everything is lent.
**
** Build it with the static library of crate tap: see "From C" in README.md.
*/
#include "culvertecho.h"

#include <stdio.h> /* for printf alone */

/* Labels: 3 port, 4 frame (elements), 7 seq (an attribute); then the one key that is checked, (., (port.frame, {@seq})). */
static const uint8_t profile[] = {
    10, 0, 1, 0, 3, 1, 'p', 'o', 'r', 't',
    11, 0, 1, 0, 4, 1, 'f', 'r', 'a', 'm', 'e',
    9, 0, 1, 0, 7, 2, 's', 'e', 'q',
    11, 0, 2, 0, 0, 2, 3, 4, 1, 1, 7,
};

/* (port, (frame, {@seq})): is `seq` unique below each port? */
static const uint8_t in_a_port[] = {11, 0, 2, 0, 1, 3, 1, 4, 1, 1, 7};

/* (., (_*.frame, {@seq})): is it unique among all frames, wherever they stand? */
static const uint8_t anywhere[] = {11, 0, 2, 0, 0, 2, 0, 4, 1, 1, 7};

/* Lent to the calls. They are too large for most stacks. */
static uint8_t answer[CULVERTECHO_ANSWER_BYTES];
static uint8_t detail[CULVERTECHO_DETAIL_BYTES];

static void print_refusal(const char *call) {
    printf("%s: refused %u, input %u, record %u\n", call, culvertecho_number(detail), culvertecho_input(detail), culvertecho_record(detail));
}

/* 1 where the key may be indexed unchecked, 0 where not, -1 where there is no answer. */
static int follows(const uint8_t *question, size_t question_length) {
    if (culvertecho_decide(profile, sizeof profile, question, question_length, answer, sizeof answer, detail, sizeof detail) != 0) {
        print_refusal("decide");
        return -1;
    }
    const int implied = culvertecho_verdict(detail) == CULVERTECHO_IMPLIED;
    const size_t used = culvertecho_used(detail);
    /* The next call writes `detail` anew, and only reads `answer`. */
    const size_t refusal = implied
        ? culvertecho_check_proof(profile, sizeof profile, question, question_length, answer, used, detail, sizeof detail)
        : culvertecho_check_counterexample(profile, sizeof profile, question, question_length, answer, used, detail, sizeof detail);
    if (refusal != 0) {
        print_refusal("check");
        return -1;
    }
    printf("%s, %s of %lu bytes, accepted\n", implied ? "implied" : "not implied", implied ? "a proof" : "a tree", (unsigned long)used);
    return implied;
}

int main(void) {
    const int port = follows(in_a_port, sizeof in_a_port);
    const int all = follows(anywhere, sizeof anywhere);
    /* What goes wrong: a question that is cut off. */
    const int cut = follows(in_a_port, sizeof in_a_port - 1);
    return port == 1 && all == 0 && cut == -1 ? 0 : 1;
}
