#include "names.h"
#include "ptpm.h"
#include <stdio.h>
#include <string.h>

long id_named(const char *text) {
    uint32_t id = ptpm_id_parse(text, strlen(text));
    return id != PTPM_NO_ID ? (long)id : -1;
}

const char *id_name(uint16_t id) {
    static char name[PTPM_MOST_NAME + 1];
    name[ptpm_id_name(id, name, PTPM_MOST_NAME)] = '\0';
    return *name != '\0' ? name : NULL;
}

long read_id_named(const char *text) {
    uint32_t id = ptpm_other_id_named(text, strlen(text));
    return id != PTPM_NO_ID ? (long)id : id_named(text);
}

const char *read_id_name(uint16_t id) {
    static char name[PTPM_MOST_NAME + 1];
    name[ptpm_other_id_name(id, name, PTPM_MOST_NAME)] = '\0';
    return *name != '\0' ? name : id_name(id);
}

const char *error_name(uint16_t error) {
    static char name[PTPM_MOST_NAME + 1];
    name[ptpm_error_name(error, name, PTPM_MOST_NAME)] = '\0';
    return *name != '\0' ? name : NULL;
}

const char *error_text(uint16_t error) {
    static char number[sizeof "0xffff"];
    const char *name = error_name(error);
    snprintf(number, sizeof number, "0x%04x", error);
    return name != NULL ? name : number;
}

const char *answer_name(uint32_t answer) {
    static char name[PTPM_MOST_NAME + 1];
    name[ptpm_answer_name(answer, name, PTPM_MOST_NAME)] = '\0';
    return *name != '\0' ? name : "an answer without a name";
}

const char *refused_member(uint32_t answer) {
    static const char lead[] = "BAD_";
    const char *name = answer_name(answer);
    return strncmp(name, lead, sizeof lead - 1) == 0 ? name + sizeof lead - 1 : name;
}
