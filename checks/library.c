/* Each export of the library, from C. usage: library OBJECTS: of a policy in which ann may get the log of pods of web. */
#include <stdio.h>
#include <stdlib.h>
#include <string.h>

#include "kapi.h"

static size_t calls, fails_at, held;

void *__real_malloc(size_t size);
void *__real_realloc(void *old, size_t size);
void __real_free(void *old);

static int fails(void) { return ++calls == fails_at; }

void *__wrap_malloc(size_t size) {
    void *made = fails() ? NULL : __real_malloc(size);
    held += made != NULL;
    return made;
}

void *__wrap_realloc(void *old, size_t size) {
    void *made = fails() ? NULL : __real_realloc(old, size);
    held += old == NULL && made != NULL;
    return made;
}

void __wrap_free(void *old) {
    held -= old != NULL;
    __real_free(old);
}

#define CHECK(holds)                                                              \
    do {                                                                          \
        if (!(holds)) {                                                           \
            fprintf(stderr, "library.c:%d: %s does not hold\n", __LINE__, #holds); \
            exit(1);                                                              \
        }                                                                         \
    } while (0)

static kapi_text text(const char *from) {
    kapi_text made = {from, strlen(from)};
    return made;
}

static kapi_question logs(const char *user) {
    kapi_call empty = kapi_call_of(0);
    kapi_question asked = empty.question;
    asked.user = text(user);
    asked.name_space = text("web");
    asked.verb = text("get");
    asked.resource = text("pods/log");
    return asked;
}

static char *read_file(const char *name, size_t *length) {
    FILE *from = fopen(name, "rb");
    CHECK(from != NULL);
    char *all = __real_malloc(1 << 24);
    *length = fread(all, 1, 1 << 24, from);
    fclose(from);
    return all;
}

static void asks(const kapi_policy *policy) {
    kapi_decision decision = 7;
    kapi_answer answer = {7, 7};
    char room[4096];
    uint32_t settled = 7;
    kapi_question asked = logs("ann");
    CHECK(kapi_may(policy, &asked, &decision) == KAPI_OK && decision == KAPI_ALLOWED);
    CHECK(kapi_why(policy, &asked, &answer, room, 0) == KAPI_NO_ROOM && answer.decision == 7 && answer.length > 8);
    size_t wanted = answer.length;
    memset(room, '!', sizeof room);
    CHECK(kapi_why(policy, &asked, &answer, room, wanted - 1) == KAPI_NO_ROOM && room[0] == '!');
    CHECK(kapi_why(policy, &asked, &answer, room, sizeof room) == KAPI_OK && answer.decision == KAPI_ALLOWED);
    CHECK(answer.length == wanted && memcmp(room, "allowed ", 8) == 0 && room[wanted] == '!');
    CHECK(kapi_settled(policy, &settled) == KAPI_OK && settled == 1);
    asked.resource = text("pods");
    CHECK(kapi_may(policy, &asked, &decision) == KAPI_OK && decision == KAPI_DENIED);
    asked.subresource = text("log");
    CHECK(kapi_may(policy, &asked, &decision) == KAPI_OK && decision == KAPI_ALLOWED);
    asked.path = text("/healthz");
    CHECK(kapi_may(policy, &asked, &decision) == KAPI_OK && decision == KAPI_DENIED);
    asked = logs("bob");
    CHECK(kapi_may(policy, &asked, &decision) == KAPI_OK && decision == KAPI_DENIED);
    asked = kapi_call_of(0).question;
    CHECK(kapi_may(policy, &asked, &decision) == KAPI_OK && decision == KAPI_DENIED);
    asked = logs("bob");
    kapi_text groups[1000];
    for (size_t at = 0; at < 1000; at++) {
        groups[at] = text(at == 999 ? "system:masters" : "a");
    }
    asked.groups.texts = groups;
    asked.groups.length = 1000;
    CHECK(kapi_may(policy, &asked, &decision) == KAPI_OK && decision == KAPI_MASTERS);
}

/* The text of an answer has that part, and its number is that. */
static void tells(const kapi_policy *policy, const kapi_call *call, uint32_t number, const char *part) {
    static char room[1 << 16];
    kapi_answer answer = {7, 7};
    CHECK(kapi_ask(policy, call, &answer, room, 8) == KAPI_NO_ROOM && answer.decision == 7 && answer.length < sizeof room);
    CHECK(kapi_ask(policy, call, &answer, room, sizeof room) == KAPI_OK && answer.decision == number);
    room[answer.length] = 0;
    CHECK(strstr(room, part) != NULL);
}

static const char *const LATER =
    "{\"apiVersion\":\"rbac.authorization.k8s.io/v1\",\"kind\":\"ClusterRole\",\"metadata\":{\"name\":\"all\"},\"rules\":[{\"apiGroups\":[\"\"],"
    "\"resources\":[\"pods\"],\"verbs\":[\"list\"]}]}\n{\"apiVersion\":\"rbac.authorization.k8s.io/v1\",\"kind\":\"ClusterRoleBinding\",\"metadata\":"
    "{\"name\":\"all\"},\"subjects\":[{\"apiGroup\":\"rbac.authorization.k8s.io\",\"kind\":\"User\",\"name\":\"cy\"}],\"roleRef\":{\"apiGroup\":"
    "\"rbac.authorization.k8s.io\",\"kind\":\"ClusterRole\",\"name\":\"all\"}}\n";

/* The call that wants this, of which each text is there. */
static kapi_call wanting(uint32_t wants) {
    kapi_call call = kapi_call_of(wants);
    call.form = KAPI_FORM_JSON;
    call.question = logs("ann");
    if (wants == KAPI_WANTS_MISSING) {
        call.question.user = text("bob");
        call.question.resource = text("Role");
        call.question.name = text("logs");
    }
    if (wants == KAPI_WANTS_GAINS) {
        call.other = text(LATER);
    }
    return call;
}

static void lists(const kapi_policy *policy, const char *objects, size_t length) {
    kapi_call call = wanting(KAPI_WANTS_WHO);
    kapi_answer answer = {7, 7};
    tells(policy, &call, 1, "\"subject\":\"ann\"");
    call.form = KAPI_FORM_TABLE;
    tells(policy, &call, 1, "User ann");
    call.form = KAPI_FORM_MARKDOWN;
    tells(policy, &call, 1, "| User ann ");
    call.form = 3;
    CHECK(kapi_ask(policy, &call, &answer, NULL, 0) == KAPI_NO_QUESTION && answer.decision == 7 && answer.length == 7);
    call = wanting(KAPI_WANTS_WHO_ANYWHERE);
    call.question.name_space = text("");
    tells(policy, &call, 1, "\"subject\":\"ann\"");
    call = wanting(KAPI_WANTS_WHAT);
    tells(policy, &call, 1, "pods/log");
    call = wanting(KAPI_WANTS_RISKS);
    tells(policy, &call, 1, "{\"settled\":true}\n");
    kapi_text escalate = text("escalate");
    call = wanting(KAPI_WANTS_PATHS);
    call.without.texts = &escalate;
    call.without.length = 1;
    tells(policy, &call, 1, "{\"settled\":true}\n");
    escalate = text("escalation");
    CHECK(kapi_ask(policy, &call, &answer, NULL, 0) == KAPI_NO_QUESTION);
    call = wanting(KAPI_WANTS_MISSING);
    tells(policy, &call, 0, "[\"get\",\"\",\"pods/log\"]\n");
    call.question.user = text("ann");
    CHECK(kapi_ask(policy, &call, &answer, NULL, 0) == KAPI_OK && answer.decision == 1 && answer.length == 0);
    call.question.name = text("none");
    answer.length = 7;
    CHECK(kapi_ask(policy, &call, &answer, NULL, 0) == KAPI_NO_QUESTION && answer.length == 7);
    call = wanting(KAPI_WANTS_GAINS);
    tells(policy, &call, 0, "[\"list\",\"\",\"pods\"]");
    call.other.bytes = objects;
    call.other.length = length;
    CHECK(kapi_ask(policy, &call, &answer, NULL, 0) == KAPI_OK && answer.decision == 1 && answer.length == 0);
    call.other = text("\n\n{");
    CHECK(kapi_ask(policy, &call, &answer, NULL, 0) == KAPI_BAD_LINE && answer.decision == 1 && answer.length == 3);
}

static void faults(const kapi_policy *policy) {
    kapi_decision decision = 7;
    kapi_call call = kapi_call_of(99);
    kapi_answer answer = {7, 7};
    kapi_question asked = logs("\xff");
    CHECK(kapi_may(policy, &asked, &decision) == KAPI_NOT_TEXT && decision == 7);
    asked = logs("ann");
    asked.resource = text("pods/log/x");
    CHECK(kapi_may(policy, &asked, &decision) == KAPI_NO_QUESTION && decision == 7);
    asked.resource = text("pods/log");
    asked.subresource = text("log");
    CHECK(kapi_may(policy, &asked, &decision) == KAPI_NO_QUESTION && decision == 7);
    CHECK(kapi_ask(policy, &call, &answer, NULL, 0) == KAPI_NO_QUESTION && answer.decision == 7 && answer.length == 7);
    size_t huge = 1 << 22;
    char *many = __real_malloc(huge);
    memset(many, 'a', huge);
    asked = logs("ann");
    asked.user.bytes = many;
    asked.user.length = huge;
    CHECK(kapi_may(policy, &asked, &decision) == KAPI_OK && decision == KAPI_DENIED);
    __real_free(many);
}

static void decides_many(const char *objects, size_t length) {
    kapi_question questions[] = {logs("ann"), logs("bob"), logs("ann")};
    kapi_decision decisions[] = {7, 7, 7};
    size_t line = 7;
    CHECK(kapi_decide(objects, length, questions, 3, decisions, 2, &line) == KAPI_NO_ROOM && decisions[0] == 7);
    CHECK(kapi_decide("{", 1, questions, 3, decisions, 3, &line) == KAPI_BAD_LINE && line == 1 && decisions[0] == 7);
    CHECK(kapi_decide(objects, length, questions, 3, decisions, 3, &line) == KAPI_OK && line == 1);
    CHECK(decisions[0] == KAPI_ALLOWED && decisions[1] == KAPI_DENIED && decisions[2] == KAPI_ALLOWED);
    questions[2].verb.bytes = "\xff";
    questions[2].verb.length = 1;
    decisions[0] = 7;
    CHECK(kapi_decide(objects, length, questions, 3, decisions, 3, &line) == KAPI_NOT_TEXT && decisions[0] == 7);
    CHECK(kapi_decide(objects, length, NULL, 0, NULL, 0, &line) == KAPI_OK);
}

/* Each allocation refused in turn: a status says so, nothing is written, and nothing is kept. */
static size_t refusals(const char *objects, size_t length) {
    size_t refused = 0;
    for (fails_at = 1;; fails_at++, refused++) {
        kapi_policy *policy = (kapi_policy *)&refused;
        size_t line = 7, before = held;
        calls = 0;
        kapi_status status = kapi_load(objects, length, &line, &policy);
        if (status == KAPI_OK) {
            fails_at = 0;
            kapi_free(policy);
            CHECK(held == before);
            return refused;
        }
        CHECK(status == KAPI_NO_MEMORY && line == 7 && policy == (kapi_policy *)&refused && held == before);
    }
}

static size_t refused_questions(const kapi_policy *policy) {
    size_t refused = 0;
    for (fails_at = 1;; fails_at++, refused++) {
        kapi_question asked = logs("a user with a name that is longer than sixteen bytes");
        kapi_text group = text("a group with a name that is longer than sixteen bytes");
        kapi_answer answer = {7, 7};
        char room[64];
        size_t before = held;
        asked.groups.texts = &group;
        asked.groups.length = 1;
        calls = 0;
        kapi_status status = kapi_why(policy, &asked, &answer, room, sizeof room);
        CHECK(held == before);
        if (status == KAPI_OK) {
            fails_at = 0;
            CHECK(answer.decision == KAPI_DENIED && answer.length == 7 && memcmp(room, "denied\n", 7) == 0);
            return refused;
        }
        CHECK(status == KAPI_NO_MEMORY && answer.decision == 7 && answer.length == 7);
    }
}

/* Handles of one policy, which are freed in any order: the last answers when the first is freed. */
static size_t shares(const char *objects, size_t length) {
    kapi_policy *first = NULL, *second = NULL;
    kapi_decision decision = 7;
    kapi_question asked = logs("ann");
    size_t line = 0, before = held, refused = 0;
    CHECK(kapi_load(objects, length, &line, &first) == KAPI_OK);
    for (fails_at = 1;; fails_at++, refused++) {
        size_t kept = held;
        calls = 0;
        if (kapi_share(first, &second) == KAPI_OK) {
            break;
        }
        CHECK(second == NULL && held == kept);
    }
    fails_at = 0;
    CHECK(second != NULL && second != first);
    kapi_free(first);
    CHECK(kapi_may(second, &asked, &decision) == KAPI_OK && decision == KAPI_ALLOWED);
    kapi_free(second);
    CHECK(held == before);
    return refused;
}

static size_t refused_lists(const kapi_policy *policy) {
    static char room[1 << 16];
    size_t refused = 0;
    for (uint32_t wants = KAPI_WANTS_WHO; wants <= KAPI_WANTS_GAINS; wants++) {
        kapi_call call = wanting(wants);
        kapi_status status = KAPI_NO_MEMORY;
        for (fails_at = 1; status == KAPI_NO_MEMORY; fails_at++, refused++) {
            kapi_answer answer = {7, 7};
            size_t before = held;
            calls = 0;
            room[0] = '!';
            status = kapi_ask(policy, &call, &answer, room, sizeof room);
            CHECK(held == before && (status == KAPI_OK || (answer.decision == 7 && answer.length == 7 && room[0] == '!')));
        }
        CHECK(status == KAPI_OK);
    }
    fails_at = 0;
    return refused - (KAPI_WANTS_GAINS - KAPI_WANTS_WHO + 1);
}

int main(int count, char **words) {
    CHECK(count == 2 && kapi_abi() == KAPI_ABI);
    size_t length, line = 7;
    char *objects = read_file(words[1], &length);
    kapi_policy *policy = NULL, *none = NULL;
    CHECK(kapi_load(objects, length, &line, &policy) == KAPI_OK && policy != NULL && line == 7);
    CHECK(kapi_load("\n#\n{", 4, &line, &none) == KAPI_BAD_LINE && none == NULL && line == 3);
    asks(policy);
    lists(policy, objects, length);
    faults(policy);
    decides_many(objects, length);
    size_t loads = refusals(objects, length), questions = refused_questions(policy), listed = refused_lists(policy);
    size_t shared = shares(objects, length);
    kapi_free(policy);
    kapi_free(NULL);
    CHECK(held == 0);
    __real_free(objects);
    printf("C: all as it should be; %zu refused allocations of a load, %zu of a question, %zu of lists and %zu of a share are a status\n", loads, questions, listed, shared);
    return 0;
}
