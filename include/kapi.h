/* kapi.h: Kapi's decisions, for C and C++.
 *
 * A policy is a file of objects, a JSON object a line (docs/AUDIT.md). It is loaded once, and then asked. What is asked
 * and what is answered is proved down to the definitions that docs/LIBRARY.md names; what a caller does is not.
 *
 * DUTIES. Nothing checks them, and a call that breaks one may do anything.
 *   - A pointer with a length points to that many items, which nobody writes during the call. Null will do for no items.
 *     A length in bytes is below 2^63.
 *   - A policy is a handle that kapi_load or kapi_share gave, and that was not freed since. No call takes a null policy but
 *     kapi_free.
 *   - Where an answer goes there is room for it, apart from all that the call reads.
 *   - A handle of a policy serves one call at a time. It may go to another thread: only once its call has ended, and only if
 *     that is ordered, as by a lock. Threads that ask side by side have a handle each, by kapi_share.
 *   - malloc, realloc and free are of one allocator, and align a block of n bytes to each power of two up to 16 that
 *     divides n. No call is made in a signal handler, or in a forked child of a program with threads.
 *
 * TEXT is UTF-8 with a length. No NUL ends it, and a NUL in it is a byte like any other.
 *
 * STATUSES. A call returns a status. KAPI_OK is the only one at which an answer was written. At any other nothing was,
 * but the line of KAPI_BAD_LINE and the length of KAPI_NO_ROOM, and the policy is as it was. No status is a decision: a
 * decision is written out, and 0 denies. Set it to 0 before the call, and no fault can be read as leave.
 *
 * OWNERSHIP. What is passed stays the caller's, and no call keeps a pointer to it. A handle is the caller's from KAPI_OK of
 * kapi_load or kapi_share to kapi_free. A policy never changes: load the changed objects, and free the old handles. Its
 * memory goes with the last.
 *
 * No call prints, waits, starts a thread, reads a file or ends the process.
 */
#ifndef KAPI_H
#define KAPI_H

#include <stddef.h>
#include <stdint.h>

#ifdef __cplusplus
extern "C" {
#define KAPI_ASSERT(holds) static_assert(holds, #holds)
#else
#define KAPI_ASSERT(holds) _Static_assert(holds, #holds)
#endif

/* The number of this interface. It is raised with each change of a layout, a number or a meaning. */
#define KAPI_ABI 2u

typedef uint32_t kapi_status;
#define KAPI_OK 0u
#define KAPI_NO_MEMORY 1u   /* memory ran out */
#define KAPI_BAD_LINE 2u    /* a line holds no object that can be created */
#define KAPI_NOT_TEXT 3u    /* a text is no UTF-8 */
#define KAPI_NO_QUESTION 4u /* no such question: a resource with two slashes, a role or a kind that is not there, an unknown number */
#define KAPI_NO_ROOM 5u     /* the text does not fit, and its length was written; or there is not a decision for each question */

typedef uint32_t kapi_decision;
#define KAPI_DENIED 0u
#define KAPI_ALLOWED 1u /* a rule that a binding gives allows it */
#define KAPI_MASTERS 2u /* a member of system:masters may do everything */

typedef struct kapi_policy kapi_policy;

typedef struct kapi_text {
    const char *bytes;
    size_t length;
} kapi_text;

typedef struct kapi_texts {
    const kapi_text *texts;
    size_t length;
} kapi_texts;

/* Whether a user may do something, with what a SubjectAccessReview has. No group is added: name system:authenticated
 * too. Where `path` is not empty, it is asked about that path, and only user, groups and verb are read beside it. */
typedef struct kapi_question {
    kapi_text user;
    kapi_texts groups;
    kapi_text name_space;  /* empty: cluster-wide */
    kapi_text verb;
    kapi_text group;       /* empty: the core group */
    kapi_text resource;    /* "pods/log" is resource "pods" with subresource "log" */
    kapi_text subresource;
    kapi_text name;        /* empty: no name */
    kapi_text path;
} kapi_question;

/* What a call wants, and the number that goes out. A settled policy has the union of each aggregated role. */
#define KAPI_WANTS_SETTLED 0u  /* 1 if the policy is settled, else 0 */
#define KAPI_WANTS_DECISION 1u
#define KAPI_WANTS_LINE 2u     /* the decision, and its line as `kapi audit` writes it */
/* A text in a form, and as the number whether the policy is settled. */
#define KAPI_WANTS_WHO 3u          /* who may do what is asked, whoever the user is */
#define KAPI_WANTS_WHO_ANYWHERE 4u /* the same in each namespace that has bindings, and cluster-wide */
#define KAPI_WANTS_WHAT 5u         /* what the user with the groups has in the namespace, or everywhere if that is empty */
#define KAPI_WANTS_RISKS 6u        /* who may gain more than the policy gives */
#define KAPI_WANTS_PATHS 7u        /* who can become whom: only `other`, if that is not empty, and `without` some kinds of rights */
/* What the user with the groups lacks of a role: `resource` is "Role" or "ClusterRole", `name` its name. A JSON list a line:
 * verb, group, resource and a name if it has one; or verb and path. The number is 1 if nothing is missing, else 0. */
#define KAPI_WANTS_MISSING 8u
/* What the policy of the objects `other` gives that this one does not. The number is 1 if nobody gains and both are settled,
 * else 0. At KAPI_BAD_LINE `length` is the first line that is not loaded. */
#define KAPI_WANTS_GAINS 9u

/* How a text is printed. */
#define KAPI_FORM_TABLE 0u
#define KAPI_FORM_MARKDOWN 1u
#define KAPI_FORM_JSON 2u /* an object a line */

typedef struct kapi_call {
    uint32_t wants;
    uint32_t form;          /* read from KAPI_WANTS_WHO on */
    kapi_question question; /* there also if it is not read */
    kapi_text other;
    kapi_texts without;
} kapi_call;

typedef struct kapi_answer {
    uint32_t decision; /* or another number */
    size_t length;     /* of the text; at KAPI_NO_ROOM what it needs */
} kapi_answer;

/* ---- calls */

/* The number of the library that is linked. It has to be KAPI_ABI. */
uint32_t kapi_abi(void);

/* Loads a policy. At KAPI_BAD_LINE *line is the first line that is not loaded, counted from 1. */
kapi_status kapi_load(const char *objects, size_t length, size_t *line, kapi_policy **policy);

/* Answers a call. The text goes to the front of `room`, which has `size` bytes, with no NUL behind it. */
kapi_status kapi_ask(const kapi_policy *policy, const kapi_call *call, kapi_answer *answer, char *room, size_t size);

/* Gives one more handle of a policy, for another thread: no copy. Each is freed on its own. */
kapi_status kapi_share(const kapi_policy *policy, kapi_policy **other);

/* Frees a handle, which is not null. */
void kapi_drop(kapi_policy *policy);

/* Loads a policy, decides each of `count` questions by it, and frees it: decisions[n] is that of questions[n]. `room` has to be
 * `count`, or the status is KAPI_NO_ROOM. At KAPI_BAD_LINE *line is the first line that is not loaded. */
kapi_status kapi_decide(const char *objects, size_t length, const kapi_question *questions, size_t count,
                        kapi_decision *decisions, size_t room, size_t *line);

/* ---- calls that are made of these */

/* Frees a handle. Null is none. */
static inline void kapi_free(kapi_policy *policy) {
    if (policy != NULL) {
        kapi_drop(policy);
    }
}

static inline kapi_call kapi_call_of(uint32_t wants) {
    kapi_call call;
    unsigned char *byte = (unsigned char *)&call;
    for (size_t at = 0; at < sizeof call; at++) {
        byte[at] = 0;
    }
    call.wants = wants;
    return call;
}

/* Whether the question is answered by yes: *decision is written at KAPI_OK alone. */
static inline kapi_status kapi_may(const kapi_policy *policy, const kapi_question *question, kapi_decision *decision) {
    kapi_call call = kapi_call_of(KAPI_WANTS_DECISION);
    kapi_answer answer = {KAPI_DENIED, 0};
    call.question = *question;
    kapi_status status = kapi_ask(policy, &call, &answer, NULL, 0);
    if (status == KAPI_OK) {
        *decision = answer.decision;
    }
    return status;
}

/* The decision, and its line as `kapi audit` writes it: "denied", or "allowed" and the reason, and a line's end. */
static inline kapi_status kapi_why(const kapi_policy *policy, const kapi_question *question, kapi_answer *answer, char *room,
                                   size_t size) {
    kapi_call call = kapi_call_of(KAPI_WANTS_LINE);
    call.question = *question;
    return kapi_ask(policy, &call, answer, room, size);
}

/* *settled is 1 if each aggregated cluster role has all that it takes from others, and 0 after 64 turns that did not do. */
static inline kapi_status kapi_settled(const kapi_policy *policy, uint32_t *settled) {
    kapi_call call = kapi_call_of(KAPI_WANTS_SETTLED);
    kapi_answer answer = {0, 0};
    kapi_status status = kapi_ask(policy, &call, &answer, NULL, 0);
    if (status == KAPI_OK) {
        *settled = answer.decision;
    }
    return status;
}

/* ---- the layout that the library reads */

KAPI_ASSERT(sizeof(void *) == 8 && sizeof(size_t) == 8);
KAPI_ASSERT(sizeof(kapi_text) == 16 && offsetof(kapi_text, length) == 8);
KAPI_ASSERT(sizeof(kapi_texts) == 16 && offsetof(kapi_texts, length) == 8);
KAPI_ASSERT(sizeof(kapi_question) == 144);
KAPI_ASSERT(offsetof(kapi_question, groups) == 16 && offsetof(kapi_question, name_space) == 32);
KAPI_ASSERT(offsetof(kapi_question, verb) == 48 && offsetof(kapi_question, group) == 64);
KAPI_ASSERT(offsetof(kapi_question, resource) == 80 && offsetof(kapi_question, subresource) == 96);
KAPI_ASSERT(offsetof(kapi_question, name) == 112 && offsetof(kapi_question, path) == 128);
KAPI_ASSERT(sizeof(kapi_call) == 184 && offsetof(kapi_call, form) == 4 && offsetof(kapi_call, question) == 8);
KAPI_ASSERT(offsetof(kapi_call, other) == 152 && offsetof(kapi_call, without) == 168);
KAPI_ASSERT(sizeof(kapi_answer) == 16 && offsetof(kapi_answer, length) == 8);

#ifdef __cplusplus
}
#endif

#endif
