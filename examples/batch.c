/* A host in C that takes messages as they come off a connection, several at once. The tool switches replies off, guards a hundred pages
 * and switches replies on in one write; its second write comes in two parts, its third resumes a vCPU, its fourth pauses a vCPU and then
 * reads guest memory, its fifth asks about reads of a page and its sixth says what a vCPU reads there, and its last one crashes a vCPU and is
 * cut, while another waits. */
#include <stdio.h>
#include <stdlib.h>
#include <string.h>

#include "semblurick.h"

enum { VCPUS = 2, GUEST_PAGES = 512, FIRST = 0x80, GUARDED = 100, RWX = 7, READ_MAX = 65536 };

static struct semblurick guest;
static uint8_t memory[(size_t)GUEST_PAGES * SEMBLURICK_PAGE_BYTES];
static uint8_t rights[GUEST_PAGES];                  /* what this host has programmed; a real one writes page tables here */
static bool crashed[VCPUS];                          /* a real host stops the whole guest */
static uint8_t held[(size_t)SEMBLURICK_MESSAGE_MAX + READ_MAX]; /* what was read and not used yet: a cut message, and a read behind it */
static size_t held_size;
static uint8_t out[2 * SEMBLURICK_MESSAGE_OUT];      /* a batch goes on while SEMBLURICK_MESSAGE_OUT bytes of it are left */
static uint32_t codes[16];                           /* and while a place of this list is */
static const uint8_t state[SEMBLURICK_STATE_BYTES] = {0}; /* a vCPU's registers */

static void fail(const char *what, uint32_t answer) {
    fprintf(stderr, "batch: %s: answer %u, %s\n", what, answer, semblurick_answer_text(answer));
    exit(1);
}

/* ---- the host */

static void send_to_tool(uint64_t bytes) { (void)bytes; /* the first `bytes` bytes of out */ }

/* The vCPU leaves the guest. With wait set this returns when it is out. */
static void kick(uint32_t vcpu, bool wait) { printf("vCPU %u is out%s\n", vcpu, wait ? ", and the tool waits for it" : ""); }

/* The vCPU is about to enter the guest, with an event that it offers, or 0; one that is to be crashed never is. Answer 2: there is no tool
 * any more, and it runs. */
static void enter(uint32_t vcpu, uint32_t event, const void *own, size_t own_size) {
    struct semblurick_result r;
    if (crashed[vcpu]) return;
    uint32_t answer = semblurick_enter_event(&guest, vcpu, state, sizeof state, event, own, own_size, semblurick_output_of(out, sizeof out), &r);
    printf("vCPU %u enters: answer %u, %llu bytes\n", vcpu, answer, (unsigned long long)r.count);
    send_to_tool(r.count);
}

/* How many of these bytes are whole messages. */
static size_t whole(const uint8_t *bytes, size_t size) {
    struct kvmi_msg_hdr header;
    size_t at = 0;
    while (size - at >= sizeof header) {
        memcpy(&header, bytes + at, sizeof header);
        if (size - at - sizeof header < header.size) break;
        at += sizeof header + header.size;
    }
    return at;
}

/* How many of these bytes go into one call. The guest runs meanwhile, and so a message that reads or writes its memory begins a call of
 * its own: by then the guards of those before it are in hardware, and the vCPUs that they pause are out. */
static size_t at_once(const uint8_t *bytes, size_t size) {
    struct kvmi_msg_hdr header;
    for (size_t at = 0; at < size && size - at >= sizeof header; at += sizeof header + header.size) {
        memcpy(&header, bytes + at, sizeof header);
        if (at > 0 && (header.id == KVMI_VM_READ_PHYSICAL || header.id == KVMI_VM_WRITE_PHYSICAL)) return at;
    }
    return size;
}

/* After a batch: the pages that its messages name, as they stand now; examples/host.c has the switches, too. */
static void program(const uint8_t *used, size_t size) {
    struct kvmi_msg_hdr header;
    struct kvmi_vm_set_page_access set;
    struct kvmi_page_access_entry entry;
    for (size_t at = 0; at + sizeof header <= size; at += sizeof header + header.size) {
        memcpy(&header, used + at, sizeof header);
        if (header.id != KVMI_VM_SET_PAGE_ACCESS || header.size < sizeof set) continue;
        memcpy(&set, used + at + sizeof header, sizeof set);
        for (size_t i = sizeof set; i + sizeof entry <= header.size; i += sizeof entry) {
            memcpy(&entry, used + at + sizeof header + i, sizeof entry);
            uint64_t page = entry.gpa / SEMBLURICK_PAGE_BYTES;
            if (page < GUEST_PAGES) rights[page] = (uint8_t)semblurick_access(&guest, set.view, page);
        }
    }
}

/* The vCPU goes on from its event; examples/host.c has more of what it may do then. From a read that faulted it is fed: by the tool, with
 * bytes of the input, or from memory; with answer 12 there is no memory, and a real host asks the device that is there. */
static void go_on(uint32_t answer, const struct semblurick_batch_result *r, const uint8_t *fed) {
    printf("vCPU %llu goes on from its event", (unsigned long long)r->vcpu);
    if (fed) printf(", and reads '%.*s' of %s", (int)r->length, (const char *)fed, r->source == SEMBLURICK_FED_MESSAGE ? "the input" : "memory");
    if (answer == SEMBLURICK_NO_PAGE) printf(", and reads from a device");
    printf("\n");
}

/* One batch. Gives how many bytes it used. */
static size_t take(const uint8_t *input, size_t size) {
    struct semblurick_batch_result r;
    bool waited[VCPUS]; /* with an event, a pause or another: a closed session tells it no more */
    for (uint32_t v = 0; v < VCPUS; v++) waited[v] = semblurick_awaited(&guest, v) != 0;
    uint32_t answer = semblurick_batch(&guest, input, size, semblurick_output_of(out, sizeof out), semblurick_signals_of(codes, 16),
                                       semblurick_memory_of(memory, sizeof memory), &r);
    printf("batch of %zu bytes: answer %u, %llu used, %llu to send\n", size, answer, (unsigned long long)r.used, (unsigned long long)r.count);
    if (answer > SEMBLURICK_CLOSING && answer != SEMBLURICK_NO_PAGE) fail("batch", answer);

    /* what the tool reads is so by then: first the hardware, then the vCPUs that it wants out, then the bytes */
    if (answer == SEMBLURICK_CLOSING) {
        memset(rights, RWX, sizeof rights); /* every guard is off */
    } else {
        program(input, r.used);
    }
    for (size_t i = 0; i < r.listed; i++) {
        uint32_t vcpu = semblurick_listed_vcpu(codes[i]);
        if (semblurick_listed_signal(codes[i]) == SEMBLURICK_KICK) kick(vcpu, semblurick_listed_wait(codes[i]));
        if (semblurick_listed_signal(codes[i]) == SEMBLURICK_CRASH) {
            printf("vCPU %u is to be crashed\n", vcpu);
            crashed[vcpu] = true;
        }
    }
    send_to_tool(r.count);
    if (answer == SEMBLURICK_CLOSING) printf("the connection ends\n");

    /* last, and before the rest of the input, the vCPUs that go on, which may write their next event, here into the same output */
    if (r.signal == SEMBLURICK_RESUME) go_on(answer, &r, semblurick_batch_fed(input, semblurick_memory_of(memory, sizeof memory), &r));
    for (uint32_t v = 0; v < VCPUS; v++) /* by the resume; from a pause without a signal; with answer 1 all, as if there were no tool */
        if (waited[v] && !semblurick_awaited(&guest, v)) enter(v, 0, NULL, 0);
    for (size_t i = 0; i < r.listed; i++)
        if (semblurick_listed_signal(codes[i]) == SEMBLURICK_KICK) enter(semblurick_listed_vcpu(codes[i]), 0, NULL, 0);
    return r.used;
}

/* What came off the connection, at most READ_MAX bytes. The whole messages are handed over; one that is cut would close the session, and
 * so it is kept until the rest of it has come, unless the tool is gone. */
static void receive(const uint8_t *bytes, size_t size, bool is_end) {
    if (size > sizeof held - held_size) {
        fprintf(stderr, "batch: %zu bytes in one read; this host takes %d\n", size, READ_MAX);
        exit(1);
    }
    memcpy(held + held_size, bytes, size);
    held_size += size;
    size_t at = 0, ready = is_end ? held_size : whole(held, held_size);
    printf("read %zu bytes, %zu are kept\n", size, held_size - ready);
    while (at < ready && semblurick_is_open(&guest)) at += take(held + at, at_once(held + at, ready - at));
    memmove(held, held + ready, held_size -= ready);
}

static void count(void) {
    unsigned guarded = 0;
    for (size_t i = 0; i < GUEST_PAGES; i++) guarded += rights[i] != RWX;
    printf("%u pages are guarded\n", guarded);
}

/* ---- the tool */

static uint8_t wire[8192];
static size_t wire_size;

static void say(uint16_t id, uint32_t seq, const void *data, size_t size) {
    struct kvmi_msg_hdr header;
    header.id = id, header.size = (uint16_t)size, header.seq = seq;
    memcpy(wire + wire_size, &header, sizeof header);
    memcpy(wire + wire_size + sizeof header, data, size);
    wire_size += sizeof header + size;
}

/* Replies on or off, from this message on. */
static void say_replies(uint32_t seq, uint8_t enable) {
    struct kvmi_vm_control_cmd_response its = {enable, 1, 0, 0, 0};
    say(KVMI_VM_CONTROL_CMD_RESPONSE, seq, &its, sizeof its);
}

/* A hundred pages, or fewer, from one on. */
static void say_guards(uint32_t seq, unsigned first, uint16_t pages, uint8_t access) {
    struct { struct kvmi_vm_set_page_access set; struct kvmi_page_access_entry entry[GUARDED]; } its;
    memset(&its, 0, sizeof its);
    its.set.count = pages;
    for (unsigned i = 0; i < pages; i++) {
        its.entry[i].gpa = (uint64_t)(first + i) * SEMBLURICK_PAGE_BYTES;
        its.entry[i].access = access;
    }
    say(KVMI_VM_SET_PAGE_ACCESS, seq, &its, sizeof its.set + pages * sizeof its.entry[0]);
}

static void say_event_on(uint32_t seq, uint16_t vcpu, uint16_t event) {
    struct { struct kvmi_vcpu_hdr of; struct kvmi_vcpu_control_events its; } e = {{vcpu, 0, 0}, {event, 1, 0, 0}};
    say(KVMI_VCPU_CONTROL_EVENTS, seq, &e, sizeof e);
}

static void say_pause(uint32_t seq, uint16_t vcpu, uint8_t wait) {
    struct { struct kvmi_vcpu_hdr of; struct kvmi_vcpu_pause its; } p = {{vcpu, 0, 0}, {wait, 0, 0, 0}};
    say(KVMI_VCPU_PAUSE, seq, &p, sizeof p);
}

static void say_read(uint32_t seq, uint64_t gpa, uint64_t size) {
    struct kvmi_vm_read_physical its = {gpa, size};
    say(KVMI_VM_READ_PHYSICAL, seq, &its, sizeof its);
}

/* To the event with this seq. */
static void say_reply(uint32_t seq, uint16_t vcpu, uint8_t action, uint8_t event) {
    struct { struct kvmi_vcpu_hdr of; struct kvmi_event_reply its; } r = {{vcpu, 0, 0}, {action, event, 0, 0}};
    say(KVMI_EVENT_REPLY, seq, &r, sizeof r);
}

/* To a page fault: the vCPU continues, and reads this text from the address on. */
static void say_supplied(uint32_t seq, uint16_t vcpu, uint64_t address, const char *text) {
    struct { struct kvmi_vcpu_hdr of; struct kvmi_event_reply its; struct kvmi_event_pf_reply context; } r;
    memset(&r, 0, sizeof r);
    r.of.vcpu = vcpu, r.its.action = KVMI_EVENT_ACTION_CONTINUE, r.its.event = KVMI_EVENT_PF;
    r.context.ctx_addr = address, r.context.ctx_size = (uint32_t)strlen(text);
    memcpy(r.context.ctx_data, text, r.context.ctx_size);
    say(KVMI_EVENT_REPLY, seq, &r, sizeof r);
}

int main(void) {
    struct semblurick_settings settings = SEMBLURICK_SETTINGS;
    settings.vcpus = VCPUS;
    settings.commands = settings.events = SEMBLURICK_ALL;
    uint32_t answer = semblurick_fresh(&guest, &settings);
    if (answer) fail("fresh", answer);
    for (uint32_t v = 0; v < VCPUS; v++)
        if ((answer = semblurick_ready(&guest, v))) fail("ready", answer);
    memset(rights, RWX, sizeof rights);

    say_replies(1, 0);
    say_guards(2, FIRST, GUARDED, KVMI_PAGE_ACCESS_R | KVMI_PAGE_ACCESS_X);
    say_replies(3, 1);
    receive(wire, wire_size, false);
    count();

    /* a read may end in a message, here after 30 bytes of 48 */
    wire_size = 0;
    say_event_on(4, 0, KVMI_EVENT_XSETBV);
    say_pause(5, 1, 1);
    receive(wire, 30, false);
    receive(wire + 30, wire_size - 30, false);

    /* vCPU 0 executes XSETBV, and waits; then the tool answers both events */
    enter(0, KVMI_EVENT_XSETBV, NULL, 0);
    wire_size = 0;
    say_reply(0, 1, KVMI_EVENT_ACTION_CONTINUE, KVMI_EVENT_PAUSE_VCPU);
    say_reply(1, 0, KVMI_EVENT_ACTION_CONTINUE, KVMI_EVENT_XSETBV);
    say(KVMI_GET_VERSION, 6, wire, 0);
    receive(wire, wire_size, false);

    /* the read is of a guest whose vCPU 1 is out */
    wire_size = 0;
    say_pause(7, 1, 1);
    say_read(8, (uint64_t)FIRST * SEMBLURICK_PAGE_BYTES, 64);
    receive(wire, wire_size, false);

    /* the tool guards a page against all access, and vCPU 0 reads there, at 0x405004: it sees what the tool says, from its address on */
    wire_size = 0;
    say_event_on(9, 0, KVMI_EVENT_PF);
    say_guards(10, 5, 1, 0);
    receive(wire, wire_size, false);
    struct kvmi_event_pf fault = {0x405004, 0x5004, KVMI_PAGE_ACCESS_R, 0, 0, 0};
    enter(0, KVMI_EVENT_PF, &fault, sizeof fault);
    wire_size = 0;
    say(KVMI_GET_VERSION, 11, wire, 0);
    say_supplied(3, 0, 0x405000, "the tool's words");
    say(KVMI_GET_VERSION, 12, wire, 0);
    receive(wire, wire_size, false);

    /* vCPU 0 executes XSETBV once more, and waits; the tool crashes vCPU 1, and is gone in the middle of the next message */
    enter(0, KVMI_EVENT_XSETBV, NULL, 0);
    wire_size = 0;
    say_reply(2, 1, KVMI_EVENT_ACTION_CRASH, KVMI_EVENT_PAUSE_VCPU);
    say(KVMI_GET_VERSION, 13, wire, 0);
    receive(wire, wire_size - 5, true);
    count();
    return 0;
}
