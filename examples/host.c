/* A host in C: takes the messages that stand end to end in a file, answers them, programs what they switch, lets a kicked vCPU enter
 * the guest, asks the tool about the guest's writes to CR3 and its reads of guarded pages, and hands the session over by an image. Its log
 * has a line for each, and names the padding byte that a command failed for. Usage: host FILE */
#include <stdio.h>
#include <stdlib.h>
#include <string.h>

#include "semblurick.h"

enum { VCPUS = 2, VIEWS = 1, EVENTS = 16, CRS = 5, MSRS = 0x2000, READ = 16 };

/* What this host has programmed, brought up to date by lookups; a real one writes page tables and a VMCS here. */
struct hardware {
    size_t pages;                                          /* below rwx: by view, then page */
    struct semblurick_page page[SEMBLURICK_PAGE_LIMIT];
    bool vm_event[EVENTS];
    struct {
        bool event[EVENTS], cr[CRS], singlestep;
        bool msr[2][MSRS];                                 /* from 0 and from 0xC0000000 on */
    } vcpu[VCPUS];
};

static struct semblurick here, there;             /* this host's session, and the new host's */
static struct hardware programmed, stated;        /* what stands in hardware, and what an image states */
static uint64_t cr3[VCPUS], written[VCPUS];       /* what CR3 holds, and what the guest wrote last: another value while the tool is asked */
static bool reads[VCPUS];                         /* whether a read waits, while the tool is asked */
static uint64_t read_gpa[VCPUS];                  /* where it is */
static size_t next_read;                          /* of those that vCPU 0 makes */
static uint8_t msg[SEMBLURICK_MESSAGE_MAX], out[SEMBLURICK_MESSAGE_OUT], memory[4 * SEMBLURICK_PAGE_BYTES], image[2][SEMBLURICK_IMAGE_MAX];

static void fail(const char *what, uint32_t answer) {
    fprintf(stderr, "host: %s: answer %u, %s\n", what, answer, semblurick_answer_text(answer));
    exit(1);
}

/* ---- the hardware */

/* Whether the processor has execute-only pages, access 4; a real host reads bit 0 of IA32_VMX_EPT_VPID_CAP, MSR 0x48C. */
static bool has_execute_only(void) { return true; }

static void set_page(struct hardware *h, uint32_t view, uint64_t page, uint32_t access) {
    size_t i = 0;
    while (i < h->pages && (h->page[i].view < view || (h->page[i].view == view && h->page[i].page < page))) i++;
    struct semblurick_page *at = &h->page[i];
    bool is_there = i < h->pages && at->view == view && at->page == page;
    if (is_there && access == 7) memmove(at, at + 1, (--h->pages - i) * sizeof *at);
    if (!is_there && access != 7) memmove(at + 1, at, (h->pages++ - i) * sizeof *at);
    if (access != 7) at->view = view, at->page = page, at->access = access;
}

static uint32_t access_of(const struct hardware *h, uint32_t view, uint64_t page) {
    for (size_t i = 0; i < h->pages; i++)
        if (h->page[i].view == view && h->page[i].page == page) return h->page[i].access;
    return 7;
}

static void set_msr(struct hardware *h, uint32_t vcpu, uint32_t msr, bool on) {
    if (msr % 0xC0000000 < MSRS) h->vcpu[vcpu].msr[msr / 0xC0000000][msr % 0xC0000000] = on;
}

/* The first `count` bytes of a message's data, if it has as many. */
static bool get(void *to, size_t count, const uint8_t *data, size_t size) {
    if (size >= count) memcpy(to, data, count);
    return size >= count;
}

/* After a message: what it names, as it stands now. A message that was refused has changed nothing, and so does this. */
static void program(struct hardware *h, const struct semblurick *s, size_t size) {
    struct kvmi_msg_hdr header;
    memcpy(&header, msg, sizeof header);
    const uint8_t *data = msg + sizeof header;
    size -= sizeof header;

    switch (header.id) {
    case KVMI_VM_CONTROL_EVENTS: {
        struct kvmi_vm_control_events e;
        if (get(&e, sizeof e, data, size) && e.event_id < EVENTS) h->vm_event[e.event_id] = semblurick_vm_event(s, e.event_id);
        break;
    }
    case KVMI_VCPU_CONTROL_EVENTS: {
        struct { struct kvmi_vcpu_hdr of; struct kvmi_vcpu_control_events its; } e;
        if (get(&e, sizeof e, data, size) && e.of.vcpu < VCPUS && e.its.event_id < EVENTS)
            h->vcpu[e.of.vcpu].event[e.its.event_id] = semblurick_vcpu_event(s, e.of.vcpu, e.its.event_id);
        break;
    }
    case KVMI_VCPU_CONTROL_CR: {
        struct { struct kvmi_vcpu_hdr of; struct kvmi_vcpu_control_cr its; } c;
        if (get(&c, sizeof c, data, size) && c.of.vcpu < VCPUS && c.its.cr < CRS)
            h->vcpu[c.of.vcpu].cr[c.its.cr] = semblurick_cr(s, c.of.vcpu, c.its.cr);
        break;
    }
    case KVMI_VCPU_CONTROL_MSR: {
        struct { struct kvmi_vcpu_hdr of; struct kvmi_vcpu_control_msr its; } m;
        if (get(&m, sizeof m, data, size) && m.of.vcpu < VCPUS)
            set_msr(h, m.of.vcpu, m.its.msr, semblurick_msr(s, m.of.vcpu, m.its.msr));
        break;
    }
    case KVMI_VCPU_CONTROL_SINGLESTEP: {
        struct kvmi_vcpu_hdr of;
        if (get(&of, sizeof of, data, size) && of.vcpu < VCPUS) h->vcpu[of.vcpu].singlestep = semblurick_singlestep(s, of.vcpu);
        break;
    }
    case KVMI_VM_SET_PAGE_ACCESS: {
        struct kvmi_vm_set_page_access p;
        struct kvmi_page_access_entry e;
        if (!get(&p, sizeof p, data, size)) break;
        /* first the pages that are at rwx again, so that there is room for the others */
        for (int round = 0; round < 2; round++)
            for (size_t at = sizeof p; get(&e, sizeof e, data + at, size - at); at += sizeof e) {
                uint64_t page = e.gpa / SEMBLURICK_PAGE_BYTES;
                uint32_t access = semblurick_access(s, p.view, page);
                if ((access == 7) == (round == 0)) set_page(h, p.view, page, access);
            }
        break;
    }
    }
}

/* After a session began: everything. */
static void program_all(struct hardware *h, const struct semblurick *s) {
    memset(h, 0, sizeof *h);
    for (uint32_t e = 0; e < EVENTS; e++) h->vm_event[e] = semblurick_vm_event(s, e);
    for (uint32_t v = 0; v < VCPUS; v++) {
        for (uint32_t e = 0; e < EVENTS; e++) h->vcpu[v].event[e] = semblurick_vcpu_event(s, v, e);
        for (uint32_t c = 0; c < CRS; c++) h->vcpu[v].cr[c] = semblurick_cr(s, v, c);
        for (uint32_t m = 0; m < MSRS; m++) {
            h->vcpu[v].msr[0][m] = semblurick_msr(s, v, m);
            h->vcpu[v].msr[1][m] = semblurick_msr(s, v, 0xC0000000 + m);
        }
        h->vcpu[v].singlestep = semblurick_singlestep(s, v);
    }
    for (size_t i = 0; i < semblurick_page_count(s); i++) {
        struct semblurick_page p = semblurick_page_at(s, i);
        set_page(h, p.view, p.page, p.access);
    }
}

/* ---- the same, read off an image, to see that both agree */

static uint64_t number(const uint8_t *bytes, int count) {
    uint64_t n = 0;
    while (count--) n = n << 8 | bytes[count];
    return n;
}

static void read_records(struct hardware *h, const uint8_t *at) {
    memset(h, 0, sizeof *h);
    while (memcmp(at, "EN", 2)) {
        uint32_t v = (uint32_t)number(at + 2, 2); /* a vCPU or a view; in VM the version */
        if (!memcmp(at, "VM", 2)) {
            for (int e = 0; e < EVENTS; e++) h->vm_event[e] = number(at + 6, 2) >> e & 1;
            at += 8;
        } else if (!memcmp(at, "VC", 2)) {
            h->vcpu[v].singlestep = at[4] >> 1 & 1;
            h->vcpu[v].cr[0] = at[5] & 1, h->vcpu[v].cr[3] = at[5] >> 1 & 1, h->vcpu[v].cr[4] = at[5] >> 2 & 1;
            for (int e = 0; e < EVENTS; e++) h->vcpu[v].event[e] = number(at + 6, 2) >> e & 1;
            at += 10;
        } else if (!memcmp(at, "MS", 2)) {
            set_msr(h, v, (uint32_t)number(at + 4, 4), true);
            at += 8;
        } else {
            set_page(h, v, number(at + 6, 8), at[4]);
            at += 14;
        }
    }
}

static bool is_same(const struct hardware *a, const struct hardware *b) {
    for (size_t i = 0; i < a->pages && i < b->pages; i++)
        if (a->page[i].view != b->page[i].view || a->page[i].page != b->page[i].page || a->page[i].access != b->page[i].access) return false;
    return a->pages == b->pages && !memcmp(a->vm_event, b->vm_event, sizeof a->vm_event) && !memcmp(a->vcpu, b->vcpu, sizeof a->vcpu);
}

static void check(const uint8_t *bytes) {
    read_records(&stated, bytes);
    if (is_same(&programmed, &stated)) return;
    printf("hardware: not as the image states\n");
    exit(1);
}

static void count(const struct hardware *h) {
    unsigned intercepts = 0, stepped = 0;
    for (int e = 0; e < EVENTS; e++) intercepts += h->vm_event[e];
    for (int v = 0; v < VCPUS; v++) {
        for (int e = 0; e < EVENTS; e++) intercepts += h->vcpu[v].event[e];
        for (int c = 0; c < CRS; c++) intercepts += h->vcpu[v].cr[c];
        for (int m = 0; m < MSRS; m++) intercepts += h->vcpu[v].msr[0][m] + h->vcpu[v].msr[1][m];
        stepped += h->vcpu[v].singlestep;
    }
    printf("hardware: %zu pages below rwx, %u intercepts, %u vCPUs single-stepped\n", h->pages, intercepts, stepped);
}

/* ---- the channel */

static void send_to_tool(uint64_t bytes) { (void)bytes; /* the first `bytes` bytes of out */ }

/* The vCPU leaves the guest. With wait set this returns when it is out. */
static void kick(uint64_t vcpu, bool wait) { (void)vcpu, (void)wait; }

static const uint8_t state[SEMBLURICK_STATE_BYTES] = {0}; /* a vCPU's registers */

/* The vCPU is about to enter the guest again: a queued pause is told now, and the vCPU waits for the tool's reply. One that waits
 * already is answered 6. */
static void enter(uint32_t vcpu) {
    struct semblurick_result r;
    uint32_t answer = semblurick_enter(&here, vcpu, state, sizeof state, semblurick_output_of(out, sizeof out), &r);
    printf("vCPU %u enters: answer %u, %llu bytes\n", vcpu, answer, (unsigned long long)r.count);
    send_to_tool(r.count);
}

static void set_cr3(uint32_t vcpu, uint64_t value) {
    cr3[vcpu] = written[vcpu] = value;
    printf("vCPU %u: CR3 is %#llx\n", vcpu, (unsigned long long)value);
}

/* The guest writes CR3. Where the tool watches it, it is asked first, and the vCPU waits; else the write is carried out. */
static void write_cr3(uint32_t vcpu, uint64_t value) {
    struct kvmi_event_cr event = {3, {0, 0, 0}, cr3[vcpu], value};
    struct semblurick_result r;
    uint32_t answer = semblurick_enter_event(&here, vcpu, state, sizeof state, KVMI_EVENT_CR, &event, sizeof event,
                                             semblurick_output_of(out, sizeof out), &r);
    printf("vCPU %u writes CR3: answer %u, %llu bytes\n", vcpu, answer, (unsigned long long)r.count);
    if (answer != SEMBLURICK_HANDLED && answer != SEMBLURICK_CLOSED) fail("write to CR3", answer);
    send_to_tool(r.count);
    written[vcpu] = value;
    if (semblurick_awaited(&here, vcpu) != KVMI_EVENT_CR) set_cr3(vcpu, value); /* what was sent, if anything, is a pause */
}

/* The instruction reads READ bytes, of those that it is fed; where these are fewer, a real host reads the rest at the next address, as any
 * other. */
static void read_from(uint32_t vcpu, const char *where, const uint8_t *bytes, uint64_t length) {
    reads[vcpu] = false;
    int count = length < READ ? (int)length : READ;
    printf("vCPU %u reads '%.*s' from %s\n", vcpu, count, (const char *)bytes, where);
}

/* As if there were no tool: what is no memory is a device. */
static void read_as_ever(uint32_t vcpu) {
    static const uint8_t device[] = "a device's bytes";
    uint64_t gpa = read_gpa[vcpu];
    if (gpa < sizeof memory) {
        read_from(vcpu, "memory", memory + gpa, SEMBLURICK_PAGE_BYTES - gpa % SEMBLURICK_PAGE_BYTES);
    } else {
        read_from(vcpu, "a device", device, sizeof device - 1);
    }
}

/* The guest reads. Where a guard is in its way the tool is asked, if it wants to be, and the vCPU waits; else the read is carried out. */
static void read_memory(uint32_t vcpu, uint64_t gva, uint64_t gpa) {
    read_gpa[vcpu] = gpa;
    if (access_of(&programmed, 0, gpa / SEMBLURICK_PAGE_BYTES) & KVMI_PAGE_ACCESS_R) {
        read_as_ever(vcpu); /* without a fault, the host does not even see it */
        return;
    }
    struct kvmi_event_pf event = {gva, gpa, KVMI_PAGE_ACCESS_R, 0, 0, 0};
    struct semblurick_result r;
    uint32_t answer = semblurick_enter_event(&here, vcpu, state, sizeof state, KVMI_EVENT_PF, &event, sizeof event,
                                             semblurick_output_of(out, sizeof out), &r);
    printf("vCPU %u reads at %#llx: answer %u, %llu bytes\n", vcpu, (unsigned long long)gva, answer, (unsigned long long)r.count);
    if (answer != SEMBLURICK_HANDLED && answer != SEMBLURICK_CLOSED) fail("read", answer);
    send_to_tool(r.count);
    reads[vcpu] = semblurick_awaited(&here, vcpu) == KVMI_EVENT_PF;
    if (!reads[vcpu]) read_as_ever(vcpu); /* what was sent, if anything, is a pause */
}

/* The tool lets a vCPU go on from its page fault. What it reads then is supplied by the tool, or stands in memory; with answer 12 there is
 * no memory. To retry is to execute the instruction again, which faults or not by the guards of that time. */
static void resume_read(uint32_t answer, const struct semblurick_result *r) {
    uint32_t vcpu = (uint32_t)r->vcpu;
    const uint8_t *bytes = semblurick_fed(msg, semblurick_memory_of(memory, sizeof memory), r);
    if (r->action == KVMI_EVENT_ACTION_RETRY) {
        reads[vcpu] = false;
        next_read--;
    } else if (answer == SEMBLURICK_NO_PAGE) {
        read_as_ever(vcpu);
    } else {
        read_from(vcpu, r->source == SEMBLURICK_FED_MESSAGE ? "the tool" : "memory", bytes, r->length);
    }
}

/* What the guest does meanwhile: after two of the messages vCPU 0 writes CR3, and once its page faults are on it reads, an address after
 * the other, unless it waits. */
static void run_guest(uint16_t id) {
    static const uint64_t to_read[] = {0x2FF0, 0x2FF0, 0x5000, 0x2FF0};
    if (semblurick_awaited(&here, 0)) return;
    if (id == KVMI_GET_VERSION) write_cr3(0, 0x1000);
    if (id == KVMI_VCPU_CONTROL_CR) write_cr3(0, 0x2000);
    bool begins = id == KVMI_VCPU_CONTROL_EVENTS && semblurick_vcpu_event(&here, 0, KVMI_EVENT_PF);
    if ((begins || (id == KVMI_EVENT_REPLY && next_read > 0)) && next_read < sizeof to_read / sizeof to_read[0]) {
        uint64_t gpa = to_read[next_read++];
        read_memory(0, 0x400000 + gpa, gpa);
    }
}

static void take(size_t size) {
    struct semblurick_result r;
    uint32_t answer = semblurick_message(&here, msg, size, semblurick_output_of(out, sizeof out),
                                         semblurick_memory_of(memory, sizeof memory), &r);
    printf("message %u: answer %u, %llu bytes\n", msg[0], answer, (unsigned long long)r.count);
    /* of which the tool reads that it is EINVAL, and with replies off not even that */
    if (r.padding) printf("message %u: byte %llu, padding, is not zero\n", msg[0], (unsigned long long)r.padding);
    if (answer == SEMBLURICK_CLOSING) {
        program_all(&programmed, &here); /* everything is off */
        for (uint32_t v = 0; v < VCPUS; v++) { /* no reply comes any more */
            if (written[v] != cr3[v]) set_cr3(v, written[v]);
            if (reads[v]) read_as_ever(v);
        }
    }
    if (answer != SEMBLURICK_HANDLED && answer != SEMBLURICK_NO_PAGE) return;
    program(&programmed, &here, size);
    /* the reply says that it is done, and so it is: it goes out last, after the vCPU if the tool waits for that */
    if (r.signal == SEMBLURICK_KICK) kick(r.vcpu, r.wait != 0);
    send_to_tool(r.count);
    switch (r.signal) {
    case SEMBLURICK_NONE: { /* a vCPU goes on from a pause; another may be queued */
        struct { struct kvmi_msg_hdr header; struct kvmi_vcpu_hdr of; } reply;
        if (get(&reply, sizeof reply, msg, size) && reply.header.id == KVMI_EVENT_REPLY) enter(reply.of.vcpu);
        break;
    }
    case SEMBLURICK_KICK:
        enter((uint32_t)r.vcpu);
        break;
    case SEMBLURICK_CRASH:
        printf("vCPU %llu is to be crashed\n", (unsigned long long)r.vcpu);
        written[r.vcpu] = cr3[r.vcpu]; /* the write or the read that waited is dropped */
        reads[r.vcpu] = false;
        break;
    case SEMBLURICK_RESUME:
        if (reads[r.vcpu]) resume_read(answer, &r);
        else set_cr3((uint32_t)r.vcpu, r.value); /* this host asks about nothing else */
        enter((uint32_t)r.vcpu);
        break;
    }
}

int main(int argc, char **argv) {
    FILE *file = argc == 2 ? fopen(argv[1], "rb") : NULL;
    if (!file) return fprintf(stderr, "usage: host FILE\n"), 2;

    struct semblurick_settings settings = SEMBLURICK_SETTINGS;
    settings.vcpus = VCPUS;
    settings.views = VIEWS;
    settings.commands = settings.events = SEMBLURICK_ALL;
    settings.singlestep = settings.descriptors = 1;
    settings.execute_only = has_execute_only();
    settings.revision = 1; /* 2 where the tool's vendor speaks revision 2: page access all or nothing */
    uint32_t answer = semblurick_fresh(&here, &settings);
    if (answer) fail("fresh", answer);
    for (uint32_t i = 0; i < VCPUS; i++)
        if ((answer = semblurick_ready(&here, i))) fail("ready", answer);

    for (size_t n; (n = fread(msg, 1, sizeof(struct kvmi_msg_hdr), file)) > 0;) {
        struct kvmi_msg_hdr header;
        memcpy(&header, msg, sizeof header);
        if (n == sizeof header) n += fread(msg + n, 1, header.size, file);
        take(n); /* a cut one closes the session */
        if (n >= sizeof header) run_guest(header.id);
    }
    fclose(file);

    struct semblurick_result r;
    answer = semblurick_image_write(&here, semblurick_output_of(image[0], sizeof image[0]), &r);
    printf("image: answer %u, %llu bytes\n", answer, (unsigned long long)r.count);
    if (answer) fail("image", answer);
    check(image[0]);

    /* on the new host, under settings of its own, here the same; answer 9: they lack what the image has */
    size_t bytes = r.count;
    answer = semblurick_image_read(&there, &settings, image[0], bytes, &r);
    printf("new host: answer %u\n", answer);
    if (answer) fail("new host", answer);
    program_all(&programmed, &there);
    answer = semblurick_image_write(&there, semblurick_output_of(image[1], sizeof image[1]), &r);
    if (answer) fail("its image", answer);
    bool same = r.count == bytes && !memcmp(image[0], image[1], bytes);
    printf("its image: %s\n", same ? "the same" : "another");
    if (!same) return 1;
    check(image[1]);
    count(&programmed);
    printf("hardware: as the image states\n");
    return 0;
}
