/* A load, and decisions. usage: library OBJECTS QUESTIONS SECONDS
 *
 * QUESTIONS has a question a line, with tabs between user, groups (commas between them), namespace, verb, API group, resource,
 * subresource, name and path. All are asked once, and then over and over for so many seconds. Printed are the processor time of a
 * decision, in us, and of the load, in ms, and the most memory until it ended, in MB, with the files' text; and a line with 1 for each
 * question that is allowed, and 0 for each other. */
#include <stdio.h>
#include <stdlib.h>
#include <string.h>
#include <time.h>

#include "kapi.h"

enum { FIELDS = 9 };

static char *read_file(const char *name, size_t *length) {
    FILE *from = fopen(name, "rb");
    if (from == NULL || fseek(from, 0, SEEK_END) != 0) exit(2);
    *length = (size_t)ftell(from);
    char *all = malloc(*length + 1);
    rewind(from);
    if (all == NULL || fread(all, 1, *length, from) != *length) exit(2);
    fclose(from);
    return all;
}

/* The most memory so far, in kB: of this program, and not of the one that started it. */
static double most(void) {
    char line[256];
    double kb = 0;
    FILE *from = fopen("/proc/self/status", "r");
    while (from != NULL && fgets(line, sizeof line, from) != NULL && sscanf(line, "VmHWM: %lf", &kb) != 1) {
    }
    if (from != NULL) fclose(from);
    return kb;
}

static double processor(void) { return (double)clock() / CLOCKS_PER_SEC; }

/* The text up to a byte, which is passed over. */
static kapi_text until(char **at, char byte) {
    char *end = strchr(*at, byte);
    if (end == NULL) exit(2);
    kapi_text made = {*at, (size_t)(end - *at)};
    *at = end + 1;
    return made;
}

static kapi_texts groups_of(kapi_text listed) {
    const char *at = listed.bytes, *end = listed.bytes + listed.length;
    size_t most = 1;
    for (const char *byte = at; byte < end; byte++) most += *byte == ',';
    kapi_text *groups = calloc(most, sizeof *groups);
    if (groups == NULL) exit(2);
    kapi_texts made = {groups, 0};
    while (at < end) {
        const char *comma = memchr(at, ',', (size_t)(end - at));
        const char *stop = comma == NULL ? end : comma;
        groups[made.length++] = (kapi_text){at, (size_t)(stop - at)};
        at = stop + 1;
    }
    return made;
}

static kapi_question question_in(char **at) {
    kapi_text fields[FIELDS];
    for (int field = 0; field < FIELDS; field++) {
        fields[field] = until(at, field == FIELDS - 1 ? '\n' : '\t');
    }
    kapi_question made = {fields[0], groups_of(fields[1]), fields[2], fields[3], fields[4], fields[5], fields[6], fields[7], fields[8]};
    return made;
}

static char answer(const kapi_policy *policy, const kapi_question *asked) {
    kapi_decision decision = KAPI_DENIED;
    if (kapi_may(policy, asked, &decision) != KAPI_OK) exit(1);
    return decision == KAPI_DENIED ? '0' : '1';
}

int main(int count, char **words) {
    if (count != 4) return 2;
    size_t length, asked_length, line = 0, questions = 0, asked = 0;
    char *objects = read_file(words[1], &length), *text = read_file(words[2], &asked_length), *at = text;
    double seconds = atof(words[3]);
    text[asked_length] = 0;
    for (size_t byte = 0; byte < asked_length; byte++) {
        questions += text[byte] == '\n';
    }
    kapi_question *all = calloc(questions, sizeof *all);
    char *said = calloc(questions + 1, 1);
    if (all == NULL || said == NULL) return 2;
    for (size_t number = 0; number < questions; number++) {
        all[number] = question_in(&at);
    }
    kapi_policy *policy = NULL;
    double begun = processor();
    if (kapi_load(objects, length, &line, &policy) != KAPI_OK) return 1;
    double loaded = processor(), memory = most();
    for (size_t number = 0; number < questions; number++) {
        said[number] = answer(policy, &all[number]);
    }
    double first = processor(), used = 0;
    for (; used < seconds; used = processor() - first) {
        for (int next = 0; next < 1000; next++, asked++) {
            answer(policy, &all[asked % questions]);
        }
    }
    kapi_free(policy);
    printf("%.4f %.2f %.1f\n%s\n", used * 1e6 / (double)asked, (loaded - begun) * 1e3, memory / 1e3, said);
    return 0;
}
