/* What the compiler has to refuse with -Werror=unused-result, for each CASE from 1 to 19; CASE 0 is taken. */
#include "semblurick.h"

void use(struct semblurick *guest, uint8_t *bytes, size_t size, struct semblurick_vcpu *list, struct semblurick_result *r,
         struct semblurick_batch_result *b);
void use(struct semblurick *guest, uint8_t *bytes, size_t size, struct semblurick_vcpu *list, struct semblurick_result *r,
         struct semblurick_batch_result *b) {
    struct semblurick_settings s = SEMBLURICK_SETTINGS;
    struct semblurick_output out = semblurick_output_of(bytes, size);
    struct semblurick_memory memory = semblurick_memory_of(bytes, size);
    uint32_t codes[1];
    struct semblurick_signals signals = semblurick_signals_of(codes, 1);
    if (semblurick_fresh(guest, &s) || semblurick_message(guest, bytes, size, out, memory, r)) return;
    if (semblurick_batch(guest, bytes, size, out, signals, memory, b)) return;
    if (semblurick_fed(bytes, memory, r) || semblurick_batch_fed(bytes, memory, b)) return;
    (void)list;
    /* an answer is dropped */
#if CASE == 1
    semblurick_fresh(guest, &s);
#elif CASE == 2
    semblurick_ready(guest, 0);
#elif CASE == 3
    semblurick_message(guest, bytes, size, out, memory, r);
#elif CASE == 4
    semblurick_enter(guest, 0, bytes, size, out, r);
#elif CASE == 5
    semblurick_enter_event(guest, 0, bytes, size, 3, bytes, 0, out, r);
#elif CASE == 6
    semblurick_image_write(guest, out, r);
#elif CASE == 7
    semblurick_image_read(guest, &s, bytes, size, r);
#elif CASE == 8
    semblurick_list_ready(list, 1, 0);
#elif CASE == 9
    semblurick_list_cr(list, 1, 0, 3, 1);
#elif CASE == 10
    semblurick_raw_ready(&guest->session, 0, r);
    /* output and guest memory are exchanged, or memory stands where an output should */
#elif CASE == 11
    if (semblurick_message(guest, bytes, size, memory, out, r)) return;
#elif CASE == 12
    if (semblurick_image_write(guest, memory, r)) return;
#elif CASE == 13
    if (semblurick_message(guest, bytes, size, bytes, size, bytes, size, r)) return;
    /* a batch: the answer is dropped, output and list are exchanged, bytes stand where the list should, memory is forgotten */
#elif CASE == 14
    semblurick_batch(guest, bytes, size, out, signals, memory, b);
#elif CASE == 15
    if (semblurick_batch(guest, bytes, size, signals, out, memory, b)) return;
#elif CASE == 16
    if (semblurick_batch(guest, bytes, size, out, out, memory, b)) return;
#elif CASE == 17
    if (semblurick_batch(guest, bytes, size, out, signals, b)) return;
    /* what an instruction reads: the output stands where memory should */
#elif CASE == 18
    if (semblurick_fed(bytes, out, r)) return;
#elif CASE == 19
    if (semblurick_batch_fed(bytes, out, b)) return;
#endif
}
