/* A host in C that keeps vCPU records in a list of its own, apart from any session: marks a record ready, and switches CR3. */
#include <stdio.h>

#include "semblurick.h"

int main(void) {
    struct semblurick_vcpu vcpus[2] = {{0, 0, 0, 0, 0, 0, 0}, {0, 0, 0, 0, 0, 0, 0}};
    for (size_t i = 0; i < 3; i++) { /* the list has no record 2 */
        printf("record %zu, CR3: %s\n", i, semblurick_answer_text(semblurick_list_cr(vcpus, 2, i, 3, 1)));
        printf("record %zu, ready: %s\n", i, semblurick_answer_text(semblurick_list_ready(vcpus, 2, i)));
        printf("record %zu, CR3: %s\n", i, semblurick_answer_text(semblurick_list_cr(vcpus, 2, i, 3, 1)));
    }
    for (size_t i = 0; i < 2; i++) printf("record %zu: ready %d, CR bits %d\n", i, (int)vcpus[i].ready, (int)vcpus[i].crs);
    return 0;
}
