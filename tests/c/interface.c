/* Tests of the C header: every call, lookup and text once, and each answer that a host can get. Prints what fails; its last line is
 * 'header: N checks' where nothing does. As C11 and as C++11. The second translation unit is second.c. */
#include <stdio.h>
#include <stdlib.h>
#include <string.h>

#include "semblurick.h"

size_t second_unit(void); /* second.c's own copy of the inline calls */

static unsigned checks, failed;
#define CHECK(fact) (checks++, (fact) ? (void)0 : (void)(failed++, printf("%s:%d: not so: %s\n", __FILE__, __LINE__, #fact)))

static struct semblurick guest, other, before;
static uint8_t out[SEMBLURICK_MESSAGE_OUT], memory[2 * SEMBLURICK_PAGE_BYTES], image[SEMBLURICK_IMAGE_MAX], nowhere[1];
static uint8_t state[SEMBLURICK_STATE_BYTES], own[25]; /* a register block, and an event's own bytes */
static struct semblurick_result r;

/* ---- messages */

static uint8_t msg[SEMBLURICK_MESSAGE_MAX];
static size_t msg_size;

static void begin(uint16_t id, uint32_t seq) {
    struct kvmi_msg_hdr header;
    header.id = id, header.size = 0, header.seq = seq;
    memcpy(msg, &header, sizeof header);
    msg_size = sizeof header;
}

static void add(const void *data, size_t size) {
    struct kvmi_msg_hdr header;
    memcpy(msg + msg_size, data, size);
    msg_size += size;
    memcpy(&header, msg, sizeof header);
    header.size = (uint16_t)(msg_size - sizeof header);
    memcpy(msg, &header, sizeof header);
}

static void add_vcpu(uint16_t vcpu) {
    struct kvmi_vcpu_hdr v;
    memset(&v, 0, sizeof v);
    v.vcpu = vcpu;
    add(&v, sizeof v);
}

/* Every message but a read and a write does the same where no guest memory is lent; but that answer 12 takes the place of bytes from a
 * guest page. */
static enum semblurick_answer send(void) {
    static uint8_t twin_out[SEMBLURICK_MESSAGE_OUT];
    struct semblurick_result twin_r, should;
    memcpy(&other, &guest, sizeof other);
    memcpy(twin_out, out, sizeof out);
    memset(&r, 0xAA, sizeof r);
    enum semblurick_answer answer = semblurick_message(&guest, msg, msg_size, semblurick_output_of(out, sizeof out), semblurick_memory_of(memory, sizeof memory), &r);
    if (msg[0] != KVMI_VM_READ_PHYSICAL && msg[0] != KVMI_VM_WRITE_PHYSICAL) {
        memcpy(&should, &r, sizeof r);
        if (r.source == SEMBLURICK_FED_GUEST) should.source = should.at = should.length = 0;
        enum semblurick_answer twin = semblurick_message(&other, msg, msg_size, semblurick_output_of(twin_out, sizeof twin_out), semblurick_no_memory(), &twin_r);
        CHECK(twin == (r.source == SEMBLURICK_FED_GUEST ? SEMBLURICK_NO_PAGE : answer));
        CHECK(!memcmp(&twin_r, &should, sizeof r) && !memcmp(twin_out, out, sizeof out) && !memcmp(&other, &guest, sizeof guest));
    }
    return answer;
}

/* the error of the reply to what stands in msg */
static int32_t reply(void) {
    struct kvmi_msg_hdr asked, answered;
    struct kvmi_error_code code;
    CHECK(send() == SEMBLURICK_HANDLED);
    memcpy(&asked, msg, sizeof asked);
    memcpy(&answered, out, sizeof answered);
    memcpy(&code, out + sizeof answered, sizeof code);
    CHECK(answered.id == asked.id && answered.seq == asked.seq && sizeof answered + answered.size == r.count && code.padding == 0);
    return code.err;
}
#define REPLY_DATA (out + sizeof(struct kvmi_msg_hdr) + sizeof(struct kvmi_error_code))

static int32_t vcpu_event(uint16_t vcpu, uint16_t event, uint8_t enable) {
    struct kvmi_vcpu_control_events e;
    memset(&e, 0, sizeof e);
    e.event_id = event, e.enable = enable;
    begin(KVMI_VCPU_CONTROL_EVENTS, 10), add_vcpu(vcpu), add(&e, sizeof e);
    return reply();
}

static int32_t vm_event(uint16_t event, uint8_t enable) {
    struct kvmi_vm_control_events e;
    memset(&e, 0, sizeof e);
    e.event_id = event, e.enable = enable;
    begin(KVMI_VM_CONTROL_EVENTS, 5), add(&e, sizeof e);
    return reply();
}

static int32_t cr(uint16_t vcpu, uint32_t number, uint8_t enable) {
    struct kvmi_vcpu_control_cr c;
    memset(&c, 0, sizeof c);
    c.cr = number, c.enable = enable;
    begin(KVMI_VCPU_CONTROL_CR, 11), add_vcpu(vcpu), add(&c, sizeof c);
    return reply();
}

static int32_t msr(uint16_t vcpu, uint32_t number, uint8_t enable) {
    struct kvmi_vcpu_control_msr m;
    memset(&m, 0, sizeof m);
    m.msr = number, m.enable = enable;
    begin(KVMI_VCPU_CONTROL_MSR, 12), add_vcpu(vcpu), add(&m, sizeof m);
    return reply();
}

static int32_t singlestep(uint16_t vcpu, uint8_t enable) {
    struct kvmi_vcpu_control_singlestep s;
    memset(&s, 0, sizeof s);
    s.enable = enable;
    begin(KVMI_VCPU_CONTROL_SINGLESTEP, 14), add_vcpu(vcpu), add(&s, sizeof s);
    return reply();
}

static int32_t page(uint16_t view, uint64_t number, uint8_t access) {
    struct kvmi_vm_set_page_access p;
    struct kvmi_page_access_entry e;
    memset(&p, 0, sizeof p), memset(&e, 0, sizeof e);
    p.count = 1, p.view = view, e.gpa = number * SEMBLURICK_PAGE_BYTES + 5, e.access = access;
    begin(KVMI_VM_SET_PAGE_ACCESS, 13), add(&p, sizeof p), add(&e, sizeof e);
    return reply();
}

static void begin_pause(uint16_t vcpu, uint8_t wait) {
    struct kvmi_vcpu_pause p;
    memset(&p, 0, sizeof p);
    p.wait = wait;
    begin(KVMI_VCPU_PAUSE, 9), add_vcpu(vcpu), add(&p, sizeof p);
}

/* with `size` bytes of a new value behind it */
static enum semblurick_answer answer_event(uint16_t vcpu, uint32_t seq, uint8_t action, uint8_t event, uint64_t value, size_t size) {
    struct kvmi_event_reply e;
    memset(&e, 0, sizeof e);
    e.action = action, e.event = event;
    begin(KVMI_EVENT_REPLY, seq), add_vcpu(vcpu), add(&e, sizeof e), add(&value, size);
    return send();
}

static enum semblurick_answer answer_pause(uint16_t vcpu, uint32_t seq, uint8_t action) {
    return answer_event(vcpu, seq, action, KVMI_EVENT_PAUSE_VCPU, 0, 0);
}

static bool reserved_is_zero(void) {
    for (size_t i = 0; i < sizeof r.reserved / sizeof r.reserved[0]; i++)
        if (r.reserved[i]) return false;
    return true;
}

/* and nothing is fed, and no padding byte told */
static bool rest_is_zero(void) {
    return r.source == SEMBLURICK_FED_NOTHING && r.at == 0 && r.length == 0 && r.padding == 0 && reserved_is_zero();
}

static bool is_zero(const struct semblurick_result *x) {
    static const struct semblurick_result zero = {0, 0, 0, 0, 0, 0, 0, 0, 0, 0, 0, {0}};
    return !memcmp(x, &zero, sizeof zero);
}

/* ---- */

static struct semblurick_settings settings_of(uint32_t vcpus, uint32_t views) {
    struct semblurick_settings s = SEMBLURICK_SETTINGS;
    s.vcpus = vcpus, s.views = views;
    s.commands = s.events = SEMBLURICK_ALL;
    s.tsc_speed = 3;
    s.singlestep = s.descriptors = s.execute_only = 1;
    return s;
}

static void settings(void) {
    struct semblurick_settings s = SEMBLURICK_SETTINGS;
    CHECK(s.vcpus == 1 && s.views == 1 && s.commands == 0 && s.events == 0 && s.tsc_speed == 0 && s.singlestep == 0 && s.vmfunc == 0);
    CHECK(s.eptp == 0 && s.ve == 0 && s.spp == 0 && s.descriptors == 0 && s.breakpoints_taken == 0 && s.execute_only == 0);
    CHECK(s.revision == 1 && sizeof s == 40 && offsetof(struct semblurick_settings, revision) == 32);
    CHECK(SEMBLURICK_BIT(KVMI_VM_GET_INFO) == 16 && SEMBLURICK_BIT(31) == 0x80000000 && SEMBLURICK_ALL == 0xFFFFFFFF);
    CHECK(SEMBLURICK_VERSION == 7);

    /* memory of zeros is a closed session */
    CHECK(!semblurick_is_open(&guest) && semblurick_ready(&guest, 0) == SEMBLURICK_CLOSED);
    CHECK(semblurick_fresh(&guest, &s) == SEMBLURICK_HANDLED && semblurick_is_open(&guest));
    begin(KVMI_VM_GET_INFO, 1);
    CHECK(reply() == -KVMI_EPERM);
    s.commands = SEMBLURICK_BIT(KVMI_VM_GET_INFO);
    CHECK(semblurick_fresh(&guest, &s) == SEMBLURICK_HANDLED && reply() == 0);
    s.vcpus = 17;
    CHECK(semblurick_fresh(&guest, &s) == SEMBLURICK_BAD_SETTINGS && !semblurick_is_open(&guest));
    s.vcpus = 1, s.views = 0;
    CHECK(semblurick_fresh(&guest, &s) == SEMBLURICK_BAD_SETTINGS);
    CHECK(semblurick_image_read(&guest, &s, nowhere, 0, &r) == SEMBLURICK_BAD_SETTINGS);
}

static void replies(void) {
    struct kvmi_get_version_reply version;
    struct kvmi_vm_get_info_reply info;
    struct kvmi_vcpu_get_info_reply speed;
    struct kvmi_vm_check_command command;
    struct kvmi_vm_check_event event;
    struct kvmi_vm_write_physical write;
    struct kvmi_vm_read_physical read;

    begin(KVMI_GET_VERSION, 7);
    CHECK(reply() == 0 && r.count == 32 && r.signal == SEMBLURICK_NONE && rest_is_zero());
    memcpy(&version, REPLY_DATA, sizeof version);
    CHECK(version.version == 1 && version.features.singlestep == 1 && version.features.spp == 0);
    begin(KVMI_VM_GET_INFO, 7);
    CHECK(reply() == 0);
    memcpy(&info, REPLY_DATA, sizeof info);
    CHECK(info.vcpu_count == 3);
    begin(KVMI_VCPU_GET_INFO, 7), add_vcpu(1);
    CHECK(reply() == 0);
    memcpy(&speed, REPLY_DATA, sizeof speed);
    CHECK(speed.tsc_speed == 3);

    memset(&command, 0, sizeof command), memset(&event, 0, sizeof event);
    command.id = KVMI_VCPU_PAUSE;
    begin(KVMI_VM_CHECK_COMMAND, 7), add(&command, sizeof command);
    CHECK(reply() == 0);
    command.id = KVMI_EVENT;
    begin(KVMI_VM_CHECK_COMMAND, 7), add(&command, sizeof command);
    CHECK(reply() == -KVMI_EINVAL);
    event.id = KVMI_EVENT_CPUID;
    begin(KVMI_VM_CHECK_EVENT, 7), add(&event, sizeof event);
    CHECK(reply() == 0);
    begin(99, 7);
    CHECK(reply() == -KVMI_ENOSYS);

    write.gpa = 4096 + 4090, write.size = 6;
    begin(KVMI_VM_WRITE_PHYSICAL, 7), add(&write, sizeof write), add("guards", 6);
    CHECK(reply() == 0 && !memcmp(memory + 8186, "guards", 6));
    read.gpa = 8187, read.size = 5;
    begin(KVMI_VM_READ_PHYSICAL, 7), add(&read, sizeof read);
    CHECK(reply() == 0 && r.count == 21 && !memcmp(REPLY_DATA, "uards", 5));
    read.gpa = 8192;
    begin(KVMI_VM_READ_PHYSICAL, 7), add(&read, sizeof read);
    CHECK(reply() == -KVMI_ENOENT);

    begin(KVMI_VM_GET_INFO, 7);
    CHECK(semblurick_message(&guest, msg, msg_size, semblurick_output_of(out, sizeof out - 1), semblurick_memory_of(memory, sizeof memory), &r) == SEMBLURICK_SHORT_OUT);
    CHECK(is_zero(&r));
}

static void switches(void) {
    const uint16_t of_vcpu[] = {3, 4, 5, 7, 8, 9, 10, 11, 14};
    for (size_t i = 0; i < sizeof of_vcpu / sizeof of_vcpu[0]; i++) {
        uint16_t e = of_vcpu[i];
        CHECK(!semblurick_vcpu_event(&guest, 1, e) && vcpu_event(1, e, 1) == 0 && semblurick_vcpu_event(&guest, 1, e));
        CHECK(!semblurick_vcpu_event(&guest, 0, e) && !semblurick_vm_event(&guest, e));
        CHECK(vcpu_event(1, e, 0) == 0 && !semblurick_vcpu_event(&guest, 1, e));
    }
    CHECK(vcpu_event(1, KVMI_EVENT_PAUSE_VCPU, 1) == -KVMI_EINVAL && !semblurick_vcpu_event(&guest, 1, KVMI_EVENT_PAUSE_VCPU));
    CHECK(vcpu_event(2, KVMI_EVENT_CR, 1) == -KVMI_EAGAIN);
    CHECK(vm_event(KVMI_EVENT_UNHOOK, 1) == 0 && semblurick_vm_event(&guest, KVMI_EVENT_UNHOOK) && !semblurick_vm_event(&guest, KVMI_EVENT_CREATE_VCPU));
    CHECK(vm_event(KVMI_EVENT_CREATE_VCPU, 1) == 0 && vm_event(KVMI_EVENT_UNHOOK, 0) == 0);
    CHECK(!semblurick_vm_event(&guest, KVMI_EVENT_UNHOOK) && semblurick_vm_event(&guest, KVMI_EVENT_CREATE_VCPU));
    CHECK(!semblurick_vm_event(&guest, 64 + KVMI_EVENT_CREATE_VCPU) && !semblurick_vcpu_event(&guest, 0xFFFFFFFF, 5));

    const uint32_t crs[] = {0, 3, 4};
    for (int i = 0; i < 3; i++) {
        CHECK(!semblurick_cr(&guest, 1, crs[i]) && cr(1, crs[i], 1) == 0 && semblurick_cr(&guest, 1, crs[i]) && !semblurick_cr(&guest, 0, crs[i]));
        CHECK(i == 1 || cr(1, crs[i], 0) == 0);
    }
    CHECK(!semblurick_cr(&guest, 1, 0) && semblurick_cr(&guest, 1, 3) && !semblurick_cr(&guest, 1, 4));
    CHECK(cr(1, 1, 1) == -KVMI_EINVAL && !semblurick_cr(&guest, 1, 1) && !semblurick_cr(&guest, 1, 0xFFFFFFFF));

    const uint32_t msrs[] = {0, 0x1FFF, 0xC0000000, 0xC0001FFF};
    for (int i = 0; i < 4; i++) {
        CHECK(!semblurick_msr(&guest, 0, msrs[i]) && msr(0, msrs[i], 1) == 0 && semblurick_msr(&guest, 0, msrs[i]) && !semblurick_msr(&guest, 1, msrs[i]));
        CHECK(i == 3 || (msr(0, msrs[i], 0) == 0 && !semblurick_msr(&guest, 0, msrs[i])));
    }
    CHECK(msr(0, 0x2000, 1) == -KVMI_EINVAL && !semblurick_msr(&guest, 0, 0x2000) && !semblurick_msr(&guest, 0, 0xBFFFFFFF));

    CHECK(!semblurick_singlestep(&guest, 1) && singlestep(1, 1) == 0 && semblurick_singlestep(&guest, 1) && !semblurick_singlestep(&guest, 0));
}

static void pages(void) {
    CHECK(semblurick_page_count(&guest) == 0 && semblurick_access(&guest, 0, 1) == 7);
    CHECK(page(1, 9, 4) == 0 && page(0, 7, 5) == 0 && page(0, 3, 1) == 0 && page(0, 0xFFFFFFFFFFFFF, 0) == 0);
    CHECK(page(2, 1, 1) == -KVMI_EINVAL && page(0, 1, 2) == -KVMI_EINVAL && page(0, 1, 7) == 0);
    CHECK(semblurick_page_count(&guest) == 4);
    const uint64_t should[4][3] = {{0, 3, 1}, {0, 7, 5}, {0, 0xFFFFFFFFFFFFF, 0}, {1, 9, 4}};
    for (size_t i = 0; i < 4; i++) {
        struct semblurick_page p = semblurick_page_at(&guest, i);
        CHECK(p.view == should[i][0] && p.page == should[i][1] && p.access == should[i][2]);
        CHECK(semblurick_access(&guest, p.view, p.page) == p.access);
    }
    CHECK(semblurick_page_at(&guest, 4).access == 7 && semblurick_page_at(&guest, SIZE_MAX).view == 0 && semblurick_page_at(&guest, 1024).page == 0);
    CHECK(semblurick_access(&guest, 1, 7) == 7 && semblurick_access(&guest, 8, 3) == 7 && semblurick_access(&guest, 0xFFFFFFFF, 3) == 7);
    CHECK(semblurick_access(&guest, 0, (uint64_t)1 << 52) == 7 && semblurick_access(&guest, 0, UINT64_MAX) == 7);
    CHECK(page(0, 3, 7) == 0 && semblurick_access(&guest, 0, 3) == 7 && semblurick_page_count(&guest) == 3);
}

static void pauses(void) {
    struct kvmi_msg_hdr header;
    struct kvmi_event event;
    const struct semblurick_output o = semblurick_output_of(out, sizeof out);
    for (size_t i = 0; i < sizeof state; i++) state[i] = (uint8_t)(i * 7 + 1);

    CHECK(semblurick_pauses(&guest, 1) == 0 && semblurick_awaited(&guest, 1) == 0);
    CHECK(semblurick_enter(&guest, 1, state, sizeof state, o, &r) == SEMBLURICK_HANDLED && is_zero(&r));
    begin_pause(1, 1);
    CHECK(reply() == 0 && r.signal == SEMBLURICK_KICK && r.vcpu == 1 && r.wait == 1 && rest_is_zero());
    begin_pause(1, 0);
    CHECK(reply() == 0 && r.signal == SEMBLURICK_KICK && r.wait == 0 && semblurick_pauses(&guest, 1) == 2);
    for (int i = 3; i <= SEMBLURICK_PAUSE_LIMIT; i++) CHECK(reply() == 0);
    CHECK(reply() == -KVMI_EBUSY && r.signal == SEMBLURICK_NONE && semblurick_pauses(&guest, 1) == SEMBLURICK_PAUSE_LIMIT);

    CHECK(semblurick_enter(&guest, 3, state, sizeof state, o, &r) == SEMBLURICK_BAD_VCPU && is_zero(&r));
    CHECK(semblurick_enter(&guest, 1, state, sizeof state - 1, o, &r) == SEMBLURICK_BAD_STATE);
    CHECK(semblurick_enter(&guest, 1, state, sizeof state, semblurick_output_of(out, SEMBLURICK_ENTRY_OUT - 1), &r) == SEMBLURICK_SHORT_OUT);
    CHECK(semblurick_enter(&guest, 1, state, sizeof state, semblurick_output_of(out, SEMBLURICK_ENTRY_OUT), &r) == SEMBLURICK_HANDLED && r.count == 552);
    memcpy(&header, out, sizeof header);
    memcpy(&event, out + sizeof header, sizeof event);
    CHECK(header.id == KVMI_EVENT && header.size == 544 && header.seq == 0);
    CHECK(event.size == 544 && event.vcpu == 1 && event.event == KVMI_EVENT_PAUSE_VCPU && !memcmp(&event.arch, state, sizeof state));
    CHECK(semblurick_pauses(&guest, 1) == 7 && semblurick_awaited(&guest, 1) == KVMI_EVENT_PAUSE_VCPU && semblurick_awaited(&guest, 0) == 0);
    CHECK(semblurick_enter(&guest, 1, state, sizeof state, o, &r) == SEMBLURICK_WAITING && is_zero(&r));
    CHECK(semblurick_image_write(&guest, semblurick_output_of(image, sizeof image), &r) == SEMBLURICK_BUSY);
    CHECK(answer_pause(1, 0, KVMI_EVENT_ACTION_CONTINUE) == SEMBLURICK_HANDLED && is_zero(&r) && semblurick_awaited(&guest, 1) == 0);
    CHECK(semblurick_enter(&guest, 1, state, sizeof state, o, &r) == SEMBLURICK_HANDLED && r.count == 552);
    CHECK(answer_pause(1, 1, KVMI_EVENT_ACTION_CRASH) == SEMBLURICK_HANDLED && r.signal == SEMBLURICK_CRASH && r.vcpu == 1 && semblurick_is_open(&guest));
}

/* ---- events that the host offers */

/* An entry with `size` own bytes and `room` bytes of output. Past the count the output is untouched. */
static enum semblurick_answer offer(uint32_t vcpu, uint32_t event, size_t size, size_t room) {
    memset(out, 0xC3, sizeof out);
    memset(&r, 0xAA, sizeof r);
    enum semblurick_answer answer = semblurick_enter_event(&guest, vcpu, state, sizeof state, event, size ? own : NULL, size, semblurick_output_of(out, room), &r);
    size_t past = r.count;
    while (past < sizeof out && out[past] == 0xC3) past++;
    CHECK(past == sizeof out);
    return answer;
}

/* What was written is this event, with the own bytes. */
static bool is_event(uint16_t vcpu, uint8_t event, size_t size) {
    struct kvmi_msg_hdr header;
    struct kvmi_event e;
    memcpy(&header, out, sizeof header);
    memcpy(&e, out + sizeof header, sizeof e);
    return r.count == 552 + size && r.signal == SEMBLURICK_NONE && header.id == KVMI_EVENT && header.size == 544 + size &&
           header.seq + 1 == guest.session.seq && e.size == 544 && e.vcpu == vcpu && e.event == event && !memcmp(e.padding, "\0\0", 3) &&
           !memcmp(&e.arch, state, sizeof state) && !memcmp(out + 552, own, size) && semblurick_awaited(&guest, vcpu) == event;
}

static bool is_resume(uint64_t vcpu, uint64_t action, uint64_t value) {
    return r.count == 0 && r.offset == 0 && r.signal == SEMBLURICK_RESUME && r.vcpu == vcpu && r.wait == 0 && r.action == action && r.value == value && rest_is_zero();
}

/* A reply that closes; the session is then as it was before. */
static bool closes(uint8_t action, uint8_t event, size_t size) {
    memcpy(&before, &guest, sizeof guest);
    bool closed = answer_event(0, guest.session.seq - 1, action, event, 7, size) == SEMBLURICK_CLOSING && is_zero(&r) && !semblurick_awaited(&guest, 0);
    memcpy(&guest, &before, sizeof guest);
    return closed;
}

/* Switched on or off on vCPU 0, with CR3 and LSTAR. */
static bool set(uint16_t event, uint8_t enable) {
    if (event == KVMI_EVENT_CREATE_VCPU) return vm_event(event, enable) == 0;
    if (event == KVMI_EVENT_CR) CHECK(cr(0, 3, enable) == 0);
    if (event == KVMI_EVENT_MSR) CHECK(msr(0, 0xC0000082, enable) == 0);
    return vcpu_event(0, event, enable) == 0;
}

static void events(void) {
    static const struct {
        uint8_t event;
        bool retries;
        size_t size, value; /* of the own bytes, and of the reply's new value */
    } rows[] = {
        {KVMI_EVENT_HYPERCALL, false, 0, 0},
        {KVMI_EVENT_BREAKPOINT, true, sizeof(struct kvmi_event_breakpoint), 0},
        {KVMI_EVENT_CR, false, sizeof(struct kvmi_event_cr), sizeof(struct kvmi_event_cr_reply)},
        {KVMI_EVENT_XSETBV, false, 0, 0},
        {KVMI_EVENT_DESCRIPTOR, true, sizeof(struct kvmi_event_descriptor), 0},
        {KVMI_EVENT_MSR, false, sizeof(struct kvmi_event_msr), sizeof(struct kvmi_event_msr_reply)},
        {KVMI_EVENT_SINGLESTEP, false, sizeof(struct kvmi_event_singlestep), 0},
        {KVMI_EVENT_CREATE_VCPU, false, 0, 0},
        {KVMI_EVENT_CPUID, false, sizeof(struct kvmi_event_cpuid), 0},
    };
    const uint64_t value = 0x0123456789ABCDEF;
    for (size_t i = 0; i < sizeof state; i++) state[i] = (uint8_t)(i * 5 + 3);

    for (size_t i = 0; i < sizeof rows / sizeof rows[0]; i++) {
        const uint8_t e = rows[i].event;
        const size_t size = rows[i].size;
        for (size_t j = 0; j < sizeof own; j++) own[j] = (uint8_t)(0xF0 - j); /* the paddings, too, go out as they are lent */
        if (e == KVMI_EVENT_CR) memcpy(own, "\3", 2);
        if (e == KVMI_EVENT_MSR) memcpy(own, "\x82\0\0\xC0", 4);

        /* off: it is passed over, and nothing changes */
        CHECK(set(e, 0));
        memcpy(&before, &guest, sizeof guest);
        CHECK(offer(0, e, size, SEMBLURICK_ENTRY_OUT) == SEMBLURICK_HANDLED && is_zero(&r) && !memcmp(&before, &guest, sizeof guest));
        CHECK(offer(0, e, size + 1, sizeof out) == SEMBLURICK_BAD_STATE && is_zero(&r));

        /* on: it goes out, and its reply is awaited */
        CHECK(set(e, 1));
        CHECK(offer(0, e, size + 1, sizeof out) == SEMBLURICK_BAD_STATE && (size == 0 || offer(0, e, size - 1, sizeof out) == SEMBLURICK_BAD_STATE) && is_zero(&r));
        CHECK(offer(0, e, size, SEMBLURICK_ENTRY_OUT - 1) == SEMBLURICK_SHORT_OUT && is_zero(&r) && semblurick_awaited(&guest, 0) == 0);
        CHECK(offer(0, e, size, SEMBLURICK_ENTRY_OUT) == SEMBLURICK_HANDLED && is_event(0, e, size) && rest_is_zero());
        CHECK(offer(0, e, size, sizeof out) == SEMBLURICK_WAITING && offer(0, 0, 0, sizeof out) == SEMBLURICK_WAITING && is_zero(&r));
        CHECK(offer(0, e, size + 1, sizeof out) == SEMBLURICK_BAD_STATE && offer(0, e, size, 0) == SEMBLURICK_SHORT_OUT && semblurick_awaited(&guest, 0) == e);
        CHECK(semblurick_image_write(&guest, semblurick_output_of(image, sizeof image), &r) == SEMBLURICK_BUSY);

        /* what closes: another size, another event, an action that it has not */
        CHECK(closes(KVMI_EVENT_ACTION_CONTINUE, e, 8 - rows[i].value) && closes(KVMI_EVENT_ACTION_CRASH, e, 8 - rows[i].value));
        CHECK(closes(KVMI_EVENT_ACTION_CONTINUE, KVMI_EVENT_PAUSE_VCPU, rows[i].value) && closes(3, e, rows[i].value));

        /* it may be switched off meanwhile */
        CHECK(set(e, 0));
        CHECK(answer_event(0, guest.session.seq - 1, KVMI_EVENT_ACTION_CONTINUE, e, value, rows[i].value) == SEMBLURICK_HANDLED);
        CHECK(is_resume(0, KVMI_EVENT_ACTION_CONTINUE, rows[i].value ? value : 0) && semblurick_awaited(&guest, 0) == 0);
        CHECK(set(e, 1) && offer(0, e, size, sizeof out) == SEMBLURICK_HANDLED && is_event(0, e, size));
        if (rows[i].retries) {
            CHECK(answer_event(0, guest.session.seq - 1, KVMI_EVENT_ACTION_RETRY, e, 0, 0) == SEMBLURICK_HANDLED && is_resume(0, KVMI_EVENT_ACTION_RETRY, 0));
            CHECK(offer(0, e, size, sizeof out) == SEMBLURICK_HANDLED && is_event(0, e, size));
        } else {
            CHECK(closes(KVMI_EVENT_ACTION_RETRY, e, rows[i].value));
        }
        CHECK(answer_event(0, guest.session.seq - 1, KVMI_EVENT_ACTION_CRASH, e, value, rows[i].value) == SEMBLURICK_HANDLED);
        CHECK(r.signal == SEMBLURICK_CRASH && r.vcpu == 0 && r.wait == 0 && r.action == 0 && r.value == 0 && rest_is_zero() && semblurick_is_open(&guest));
        CHECK(e == KVMI_EVENT_CREATE_VCPU || set(e, 0));
    }

    /* what can't be offered is refused after a bad vCPU is, and before a short output is */
    const uint32_t refused[] = {1, 2, 6, 13, 15, 16, 17, 32 + 3, 64 + 3, 256 + 3, 0x10003, 0x80000003, UINT32_MAX};
    for (size_t i = 0; i < sizeof refused / sizeof refused[0]; i++) {
        CHECK(offer(0, refused[i], 0, sizeof out) == SEMBLURICK_BAD_STATE && offer(0, refused[i], 24, 0) == SEMBLURICK_BAD_STATE && is_zero(&r));
        CHECK(offer(3, refused[i], 0, 0) == SEMBLURICK_BAD_VCPU);
    }
    CHECK(offer(0, 0, 1, sizeof out) == SEMBLURICK_BAD_STATE && offer(0, 0, 0, SEMBLURICK_ENTRY_OUT - 1) == SEMBLURICK_SHORT_OUT);
    CHECK(semblurick_enter_event(&guest, 0, state, 535, KVMI_EVENT_XSETBV, NULL, 0, semblurick_output_of(out, 0), &r) == SEMBLURICK_BAD_STATE);

    /* the register's switch counts beside the event's; a register that has none is passed over */
    struct kvmi_event_cr c;
    struct kvmi_event_msr m;
    memset(&c, 0, sizeof c), memset(&m, 0, sizeof m);
    CHECK(set(KVMI_EVENT_CR, 1) && set(KVMI_EVENT_MSR, 1));
    const uint16_t crs[] = {0, 1, 2, 4, 8, 256 + 3, 0xFFFF};
    for (size_t i = 0; i < sizeof crs / sizeof crs[0]; i++) {
        c.cr = crs[i], memcpy(own, &c, sizeof c);
        CHECK(offer(0, KVMI_EVENT_CR, sizeof c, sizeof out) == SEMBLURICK_HANDLED && is_zero(&r) && semblurick_awaited(&guest, 0) == 0);
    }
    const uint32_t msrs[] = {0x82, 0xC0000081, 0x80000082, 0x2000, 0xC0002082, UINT32_MAX};
    for (size_t i = 0; i < sizeof msrs / sizeof msrs[0]; i++) {
        m.msr = msrs[i], memcpy(own, &m, sizeof m);
        CHECK(offer(0, KVMI_EVENT_MSR, sizeof m, sizeof out) == SEMBLURICK_HANDLED && is_zero(&r) && semblurick_awaited(&guest, 0) == 0);
    }
    c.cr = 3, c.old_value = 1, c.new_value = 2, memcpy(own, &c, sizeof c);
    CHECK(vcpu_event(0, KVMI_EVENT_CR, 0) == 0 && offer(0, KVMI_EVENT_CR, sizeof c, sizeof out) == SEMBLURICK_HANDLED && is_zero(&r));
    CHECK(set(KVMI_EVENT_CR, 0) && set(KVMI_EVENT_MSR, 0));

    /* an event goes before a pause, which stays queued; a pause goes instead of one that is passed over, and is not resumed */
    CHECK(semblurick_pauses(&guest, 1) == 6 && vcpu_event(1, KVMI_EVENT_CR, 1) == 0 && semblurick_cr(&guest, 1, 3));
    CHECK(offer(1, KVMI_EVENT_CR, sizeof c, sizeof out) == SEMBLURICK_HANDLED && is_event(1, KVMI_EVENT_CR, sizeof c) && semblurick_pauses(&guest, 1) == 6);
    CHECK(!memcmp(out, "\x11\0\x38\2", 4) && !memcmp(out + 8, "\x20\2\1\0\5\0\0", 8));
    CHECK(!memcmp(out + 552, "\3\0\0\0\0\0\0\0\1\0\0\0\0\0\0\0\2\0\0\0\0\0\0", 24));
    CHECK(answer_event(1, guest.session.seq - 1, KVMI_EVENT_ACTION_CONTINUE, KVMI_EVENT_CR, 9, 8) == SEMBLURICK_HANDLED && is_resume(1, 0, 9));
    CHECK(vcpu_event(1, KVMI_EVENT_CR, 0) == 0);
    CHECK(offer(1, KVMI_EVENT_CR, sizeof c, sizeof out) == SEMBLURICK_HANDLED && is_event(1, KVMI_EVENT_PAUSE_VCPU, 0) && semblurick_pauses(&guest, 1) == 5);
    CHECK(answer_pause(1, guest.session.seq - 1, KVMI_EVENT_ACTION_CONTINUE) == SEMBLURICK_HANDLED && is_zero(&r));

    /* a new vCPU need not be ready */
    CHECK(!semblurick_is_ready(&guest, 2) && offer(2, KVMI_EVENT_CREATE_VCPU, 0, sizeof out) == SEMBLURICK_HANDLED && is_event(2, KVMI_EVENT_CREATE_VCPU, 0));
    CHECK(answer_event(2, guest.session.seq - 1, KVMI_EVENT_ACTION_CONTINUE, KVMI_EVENT_CREATE_VCPU, 0, 0) == SEMBLURICK_HANDLED && is_resume(2, 0, 0));
}

static void errors_as_events(void) {
    struct kvmi_vm_control_cmd_response c;
    struct kvmi_msg_hdr header;
    struct kvmi_event event;
    struct kvmi_event_cmd_error error;
    memset(&c, 0, sizeof c);
    c.now = 1, c.flags = 1;
    begin(KVMI_VM_CONTROL_CMD_RESPONSE, 50), add(&c, sizeof c);
    CHECK(send() == SEMBLURICK_HANDLED && r.count == 0);
    begin_pause(2, 0);
    CHECK(send() == SEMBLURICK_HANDLED && r.count == sizeof header + sizeof event + sizeof error);
    memcpy(&header, out, sizeof header);
    memcpy(&event, out + sizeof header, sizeof event);
    memcpy(&error, out + sizeof header + sizeof event, sizeof error);
    CHECK(header.id == KVMI_EVENT && header.size == 560 && event.size == 544 && event.event == KVMI_EVENT_CMD_ERROR);
    CHECK(error.err == -KVMI_EAGAIN && error.msg_seq == 9 && error.msg_id == KVMI_VCPU_PAUSE);
    c.enable = 1, c.flags = 0;
    begin(KVMI_VM_CONTROL_CMD_RESPONSE, 51), add(&c, sizeof c);
    CHECK(reply() == 0);
}

static bool is_alike(void) {
    for (uint32_t v = 0; v < 17; v++) {
        if (semblurick_is_ready(&guest, v) != semblurick_is_ready(&other, v) || semblurick_singlestep(&guest, v) != semblurick_singlestep(&other, v)) return false;
        if (semblurick_pauses(&guest, v) != semblurick_pauses(&other, v) || semblurick_cr(&guest, v, 3) != semblurick_cr(&other, v, 3)) return false;
        for (uint32_t m = 0; m < 0x2000; m++)
            if (semblurick_msr(&guest, v, m) != semblurick_msr(&other, v, m) || semblurick_msr(&guest, v, 0xC0000000 + m) != semblurick_msr(&other, v, 0xC0000000 + m)) return false;
    }
    for (size_t i = 0; i < SEMBLURICK_PAGE_LIMIT; i++) {
        struct semblurick_page a = semblurick_page_at(&guest, i), b = semblurick_page_at(&other, i);
        if (a.view != b.view || a.page != b.page || a.access != b.access) return false;
    }
    return semblurick_page_count(&guest) == semblurick_page_count(&other);
}

static void images(const struct semblurick_settings *s) {
    size_t size = semblurick_image_size(&guest);
    CHECK(size == 8 + 3 * 10 + 1 * 8 + 3 * 14 + 6);
    CHECK(semblurick_image_write(&guest, semblurick_output_of(image, size - 1), &r) == SEMBLURICK_SHORT_OUT);
    CHECK(semblurick_image_write(&guest, semblurick_output_of(image, size), &r) == SEMBLURICK_HANDLED && r.count == size && rest_is_zero());
    CHECK(!memcmp(image, "VM", 2) && !memcmp(image + size - 6, "EN", 2));
    memset(&other, 0x5A, sizeof other); /* whatever stood there */
    CHECK(semblurick_image_read(&other, s, image, size, &r) == SEMBLURICK_HANDLED && is_zero(&r) && is_alike());

    CHECK(semblurick_image_read(&other, s, image, size - 6, &r) == SEMBLURICK_BAD_FORM && r.offset == size - 6 && !semblurick_is_open(&other));
    struct semblurick_settings less = *s;
    less.views = 1;
    CHECK(semblurick_image_read(&other, &less, image, size, &r) == SEMBLURICK_FORBIDDEN && r.offset == size - 20 && r.count == 0);
    /* the session's own settings may be lent */
    other.session.settings = *s;
    CHECK(semblurick_image_read(&other, &other.session.settings, image, size, &r) == SEMBLURICK_HANDLED && is_alike());
}

static void closing(void) {
    begin(KVMI_GET_VERSION, 1);
    msg_size--;
    CHECK(send() == SEMBLURICK_CLOSING && is_zero(&r) && !semblurick_is_open(&guest) && !semblurick_is_ready(&guest, 0));
    CHECK(semblurick_page_count(&guest) == 0 && semblurick_access(&guest, 0, 7) == 7 && !semblurick_msr(&guest, 0, 0xC0001FFF));
    CHECK(!semblurick_singlestep(&guest, 1) && semblurick_pauses(&guest, 1) == 0 && !semblurick_vm_event(&guest, 12) && !semblurick_cr(&guest, 1, 3));
    CHECK(send() == SEMBLURICK_CLOSED && semblurick_ready(&guest, 0) == SEMBLURICK_CLOSED);
    CHECK(semblurick_image_write(&guest, semblurick_output_of(image, sizeof image), &r) == SEMBLURICK_CLOSED);
    CHECK(semblurick_enter(&guest, 0, nowhere, 0, semblurick_output_of(out, sizeof out), &r) == SEMBLURICK_CLOSED);
    CHECK(offer(99, 99, 1, 0) == SEMBLURICK_CLOSED && is_zero(&r));
}

static void lists(void) {
    struct semblurick_vcpu list[3];
    memset(list, 0, sizeof list);
    CHECK(semblurick_list_cr(list, 3, 1, 3, 1) == SEMBLURICK_NOT_APPLICABLE && list[1].crs == 0);
    CHECK(semblurick_list_ready(list, 3, 1) == SEMBLURICK_HANDLED && list[1].ready == 1 && list[0].ready == 0 && list[2].ready == 0);
    CHECK(semblurick_list_cr(list, 3, 1, 0, 1) == SEMBLURICK_HANDLED && list[1].crs == 1);
    CHECK(semblurick_list_cr(list, 3, 1, 3, 1) == SEMBLURICK_HANDLED && list[1].crs == 3);
    CHECK(semblurick_list_cr(list, 3, 1, 4, 9) == SEMBLURICK_HANDLED && list[1].crs == 7);
    CHECK(semblurick_list_cr(list, 3, 1, 3, 0) == SEMBLURICK_HANDLED && list[1].crs == 5 && list[0].crs == 0 && list[2].crs == 0);
    CHECK(semblurick_list_cr(list, 3, 1, 2, 1) == SEMBLURICK_NOT_APPLICABLE && list[1].crs == 5);
    CHECK(semblurick_list_ready(list, 3, 3) == SEMBLURICK_BAD_VCPU && semblurick_list_cr(list, 3, SIZE_MAX, 2, 1) == SEMBLURICK_BAD_VCPU);
    CHECK(semblurick_list_ready(list, 0, 0) == SEMBLURICK_BAD_VCPU);
}

/* ---- several messages in one write */

static uint8_t wide[3 * SEMBLURICK_MESSAGE_OUT], input[2 * SEMBLURICK_MESSAGE_MAX], memory_before[sizeof memory];
static size_t input_size;
static uint32_t codes[SEMBLURICK_MAX_VCPUS];
static struct semblurick_batch_result b;

/* puts what stands in msg behind what stands in the input */
static void join(void) {
    memcpy(input + input_size, msg, msg_size);
    input_size += msg_size;
}

/* A batch of the input with so many bytes of output and so many places. Past their counts output and list are untouched; what is
 * reserved is 0; a refusal changes nothing. */
static enum semblurick_answer batch(size_t room, size_t places) {
    memset(wide, 0xC3, sizeof wide), memset(codes, 0xC3, sizeof codes), memset(&b, 0xAA, sizeof b);
    memcpy(&before, &guest, sizeof guest);
    memcpy(memory_before, memory, sizeof memory);
    enum semblurick_answer answer = semblurick_batch(&guest, input, input_size, semblurick_output_of(wide, room), semblurick_signals_of(codes, places),
                                                     semblurick_memory_of(memory, sizeof memory), &b);
    size_t past = b.count, listed = b.listed;
    while (past < sizeof wide && wide[past] == 0xC3) past++;
    while (listed < SEMBLURICK_MAX_VCPUS && codes[listed] == 0xC3C3C3C3) listed++;
    CHECK(past == sizeof wide && listed == SEMBLURICK_MAX_VCPUS && b.used <= input_size);
    for (size_t i = 0; i < sizeof b.reserved / sizeof b.reserved[0]; i++) CHECK(b.reserved[i] == 0);
    if (answer >= SEMBLURICK_CLOSED && answer != SEMBLURICK_NO_PAGE) {
        static const struct semblurick_batch_result zero = {0, 0, 0, 0, 0, 0, 0, 0, 0, 0, {0}};
        CHECK(!memcmp(&b, &zero, sizeof b) && !memcmp(&before, &guest, sizeof guest) && !memcmp(memory_before, memory, sizeof memory));
    }
    return answer;
}

/* used, count, listed, and no resume */
static bool is_batch(uint64_t used, uint64_t count, uint64_t listed) {
    return b.used == used && b.count == count && b.listed == listed && b.signal == SEMBLURICK_NONE && b.vcpu == 0 && b.action == 0 && b.value == 0 &&
           b.source == SEMBLURICK_FED_NOTHING && b.at == 0 && b.length == 0;
}

/* message 15, from itself on */
static void join_replies(uint32_t seq, uint8_t enable, uint8_t flags) {
    struct kvmi_vm_control_cmd_response c;
    memset(&c, 0, sizeof c);
    c.enable = enable, c.now = 1, c.flags = flags;
    begin(KVMI_VM_CONTROL_CMD_RESPONSE, seq), add(&c, sizeof c), join();
}

static void join_pause(uint16_t vcpu, uint8_t wait) { begin_pause(vcpu, wait), join(); }

static void join_version(void) { begin(KVMI_GET_VERSION, 1), join(); }

static void join_event_reply(uint16_t vcpu, uint32_t seq, uint8_t action, uint8_t event, uint64_t value, size_t size) {
    struct kvmi_event_reply e;
    memset(&e, 0, sizeof e);
    e.action = action, e.event = event;
    begin(KVMI_EVENT_REPLY, seq), add_vcpu(vcpu), add(&e, sizeof e), add(&value, size), join();
}

/* a fresh session of two vCPUs, both ready, and an empty input */
static void fresh_batch(void) {
    struct semblurick_settings s = settings_of(2, 1);
    CHECK(semblurick_fresh(&guest, &s) == SEMBLURICK_HANDLED && semblurick_ready(&guest, 0) == SEMBLURICK_HANDLED && semblurick_ready(&guest, 1) == SEMBLURICK_HANDLED);
    input_size = 0;
}

/* The input, message by message, on a copy: the same session, tables, bytes, signals and guest memory. Gives the last one's answer. */
static enum semblurick_answer singly(size_t places) {
    static uint8_t twin_memory[sizeof memory];
    struct semblurick_result one;
    size_t at = 0, last = 0, count = 0, listed = 0;
    enum semblurick_answer answer = SEMBLURICK_HANDLED;
    memcpy(twin_memory, memory_before, sizeof memory);
    memset(&one, 0, sizeof one);
    while (at < b.used) {
        struct kvmi_msg_hdr header;
        size_t size = input_size - at;
        if (size >= sizeof header) {
            memcpy(&header, input + at, sizeof header);
            if (size > sizeof header + header.size) size = sizeof header + header.size;
        }
        CHECK(answer == SEMBLURICK_HANDLED && one.signal != SEMBLURICK_RESUME && listed < places);
        answer = semblurick_message(&before, input + at, size, semblurick_output_of(out, sizeof out), semblurick_memory_of(twin_memory, sizeof twin_memory), &one);
        CHECK(!memcmp(out, wide + count, one.count));
        if (one.signal == SEMBLURICK_KICK || one.signal == SEMBLURICK_CRASH) {
            CHECK(semblurick_listed_signal(codes[listed]) == one.signal && semblurick_listed_vcpu(codes[listed]) == one.vcpu);
            CHECK(semblurick_listed_wait(codes[listed]) == (one.wait == 1));
            listed++;
        }
        last = at, at += size, count += one.count;
    }
    CHECK(at == b.used && count == b.count && listed == b.listed);
    CHECK(b.source == one.source && b.length == one.length && b.at == (one.source == SEMBLURICK_FED_MESSAGE ? last : 0) + one.at);
    CHECK(b.signal == (one.signal == SEMBLURICK_RESUME ? one.signal : 0) && (b.signal == 0 || (b.vcpu == one.vcpu && b.action == one.action && b.value == one.value)));
    CHECK(!memcmp(&before, &guest, sizeof guest) && !memcmp(twin_memory, memory, sizeof memory));
    return answer;
}

static void batches(void) {
    const size_t most = sizeof wide, least = SEMBLURICK_MESSAGE_OUT;
    CHECK(sizeof b == sizeof r && offsetof(struct semblurick_batch_result, used) == 0 && offsetof(struct semblurick_batch_result, count) == 8);
    CHECK(offsetof(struct semblurick_batch_result, listed) == 16 && offsetof(struct semblurick_batch_result, signal) == 24 && offsetof(struct semblurick_batch_result, vcpu) == 32);
    CHECK(offsetof(struct semblurick_batch_result, action) == 40 && offsetof(struct semblurick_batch_result, value) == 48 && offsetof(struct semblurick_batch_result, source) == 56);
    CHECK(offsetof(struct semblurick_batch_result, at) == 64 && offsetof(struct semblurick_batch_result, length) == 72 && offsetof(struct semblurick_batch_result, reserved) == 80);
    CHECK(offsetof(struct semblurick_result, source) == 56 && offsetof(struct semblurick_result, at) == 64 && offsetof(struct semblurick_result, length) == 72);
    CHECK(offsetof(struct semblurick_result, padding) == 80 && offsetof(struct semblurick_result, reserved) == 88 && sizeof r.reserved == 8 && sizeof b.reserved == 16);

    /* a pause that waits has 24 bytes and a reply of 16, the version 8 and 32 */
    fresh_batch(), join_pause(1, 1), join_version();
    CHECK(batch(most, 1) == SEMBLURICK_HANDLED && is_batch(24, 16, 1) && codes[0] == 259), singly(1);
    fresh_batch(), join_pause(1, 1), join_version();
    CHECK(batch(most, 2) == SEMBLURICK_HANDLED && is_batch(32, 48, 1) && codes[0] == 259), singly(2);
    fresh_batch(), join_version(), join_version();
    CHECK(batch(least, 1) == SEMBLURICK_HANDLED && is_batch(8, 32, 0)), singly(1);
    CHECK(batch(least + 31, 1) == SEMBLURICK_HANDLED && is_batch(8, 32, 0) && batch(least + 32, 1) == SEMBLURICK_HANDLED && is_batch(16, 64, 0));
    fresh_batch();
    CHECK(batch(least, 1) == SEMBLURICK_HANDLED && is_batch(0, 0, 0) && semblurick_is_open(&guest));

    /* an incomplete last message closes, and is used; where there is no room it is left */
    fresh_batch(), join_version(), input_size += 3;
    CHECK(batch(least, 1) == SEMBLURICK_HANDLED && is_batch(8, 32, 0) && semblurick_is_open(&guest));
    CHECK(batch(most, 1) == SEMBLURICK_CLOSING && is_batch(11, 32, 0) && !semblurick_is_open(&guest)), singly(1);
    fresh_batch(), join_version(), input_size = 3;
    CHECK(batch(most, 1) == SEMBLURICK_CLOSING && is_batch(3, 0, 0)), singly(1);
    fresh_batch(), join_pause(0, 0), join_pause(1, 1), input_size--;
    CHECK(batch(most, 1) == SEMBLURICK_HANDLED && is_batch(24, 16, 1) && codes[0] == 256);
    CHECK(batch(most, 2) == SEMBLURICK_CLOSING && is_batch(47, 16, 1) && codes[0] == 256), singly(2);

    /* what stands behind a message that closes is not used */
    fresh_batch(), join_pause(0, 1), join_event_reply(0, 0, 0, KVMI_EVENT_PAUSE_VCPU, 0, 0), join_version();
    CHECK(batch(most, 16) == SEMBLURICK_CLOSING && is_batch(48, 16, 1) && codes[0] == 257 && semblurick_pauses(&guest, 0) == 0), singly(16);

    /* refusals, in their order, for an empty input too */
    for (int empty = 0; empty < 2; empty++) {
        fresh_batch(), join_pause(1, 1);
        if (empty) input_size = 0;
        CHECK(batch(least, 0) == SEMBLURICK_NO_PLACE && batch(most, 0) == SEMBLURICK_NO_PLACE);
        CHECK(batch(least - 1, 0) == SEMBLURICK_SHORT_OUT && batch(least - 1, 16) == SEMBLURICK_SHORT_OUT && batch(0, 1) == SEMBLURICK_SHORT_OUT);
        msg_size = 0;
        CHECK(send() == SEMBLURICK_CLOSING);
        CHECK(batch(most, 16) == SEMBLURICK_CLOSED && batch(0, 1) == SEMBLURICK_CLOSED && batch(most, 0) == SEMBLURICK_CLOSED && batch(0, 0) == SEMBLURICK_CLOSED);
    }

    /* replies off, a hundred pages, an error as an event, replies on */
    struct kvmi_vm_set_page_access p;
    struct kvmi_page_access_entry e;
    memset(&p, 0, sizeof p), memset(&e, 0, sizeof e);
    p.count = 100, e.access = KVMI_PAGE_ACCESS_R | KVMI_PAGE_ACCESS_X;
    fresh_batch(), join_replies(1, 0, 1);
    begin(KVMI_VM_SET_PAGE_ACCESS, 2), add(&p, sizeof p);
    for (uint64_t i = 0; i < p.count; i++) e.gpa = (i + 16) * SEMBLURICK_PAGE_BYTES, add(&e, sizeof e);
    join(), join_pause(7, 0), join_replies(4, 1, 0);
    CHECK(batch(most, 1) == SEMBLURICK_HANDLED && is_batch(16 + 1616 + 24 + 16, 568 + 16, 0) && semblurick_page_count(&guest) == 100), singly(1);
    CHECK(semblurick_access(&guest, 0, 15) == 7 && semblurick_access(&guest, 0, 16) == 5 && semblurick_access(&guest, 0, 115) == 5);
    CHECK(!memcmp(wide, "\x11\0\x30\2", 4) && !memcmp(wide + 568, "\x0F\0\x08\0\4\0\0\0\0\0\0\0\0\0\0", 16));

    /* a read sees what a write before it left; the longest message that a size field can say */
    struct kvmi_vm_write_physical w;
    struct kvmi_vm_read_physical read;
    w.gpa = read.gpa = 5000, w.size = read.size = 6;
    fresh_batch();
    begin(KVMI_VM_WRITE_PHYSICAL, 1), add(&w, sizeof w), add("batch!", 6), join();
    begin(KVMI_VM_READ_PHYSICAL, 2), add(&read, sizeof read), join();
    begin(99, 3), msg[2] = msg[3] = 0xFF, msg_size = SEMBLURICK_MESSAGE_MAX, join();
    CHECK(batch(most, 1) == SEMBLURICK_HANDLED && is_batch(input_size, 16 + 22 + 16, 0) && !memcmp(wide + 32, "batch!", 6)), singly(1);

    /* a resume ends it, and takes no place; a crash and a pause that goes on do not end it */
    fresh_batch();
    CHECK(vcpu_event(1, KVMI_EVENT_CR, 1) == 0 && cr(1, 3, 1) == 0);
    memset(own, 0, sizeof own), own[0] = 3;
    CHECK(offer(1, KVMI_EVENT_CR, sizeof(struct kvmi_event_cr), sizeof out) == SEMBLURICK_HANDLED && semblurick_awaited(&guest, 1) == KVMI_EVENT_CR);
    begin_pause(0, 0);
    CHECK(reply() == 0 && reply() == 0 && offer(0, 0, 0, sizeof out) == SEMBLURICK_HANDLED && semblurick_awaited(&guest, 0) == KVMI_EVENT_PAUSE_VCPU);
    input_size = 0, join_event_reply(0, 1, 0, KVMI_EVENT_PAUSE_VCPU, 0, 0), join_pause(0, 1);
    join_event_reply(1, 0, 0, KVMI_EVENT_CR, 0x123456789, 8), join_version();
    CHECK(batch(most, 16) == SEMBLURICK_HANDLED && b.used == 24 + 24 + 32 && b.count == 16 && b.listed == 1 && codes[0] == 257);
    CHECK(b.signal == SEMBLURICK_RESUME && b.vcpu == 1 && b.action == 0 && b.value == 0x123456789 && b.source == 0 && b.at == 0 && b.length == 0), singly(16);
    CHECK(offer(0, 0, 0, sizeof out) == SEMBLURICK_HANDLED && offer(1, KVMI_EVENT_CR, sizeof(struct kvmi_event_cr), sizeof out) == SEMBLURICK_HANDLED);
    input_size = 0, join_event_reply(1, 3, 2, KVMI_EVENT_CR, 0, 8), join_event_reply(0, 2, 2, KVMI_EVENT_PAUSE_VCPU, 0, 0), join_version();
    CHECK(batch(most, 16) == SEMBLURICK_HANDLED && is_batch(32 + 24 + 8, 32, 2) && codes[0] == 513 && codes[1] == 512), singly(16);

    /* the codes, and every other number near them */
    for (uint32_t code = 0; code < 1024; code++) {
        bool kick = code >= SEMBLURICK_LISTED_KICK && code <= 287, crash = code >= SEMBLURICK_LISTED_CRASH && code <= 527;
        CHECK(semblurick_listed_signal(code) == (kick ? SEMBLURICK_KICK : crash ? SEMBLURICK_CRASH : SEMBLURICK_NONE));
        CHECK(semblurick_listed_vcpu(code) == (kick ? (code - 256) / 2 : crash ? code - 512 : 0) && semblurick_listed_wait(code) == (kick && code % 2));
    }
    CHECK(semblurick_listed_signal(UINT32_MAX) == SEMBLURICK_NONE && semblurick_listed_signal(0x80000100) == SEMBLURICK_NONE && SEMBLURICK_NO_PLACE == 11);
}

/* ---- page faults */

static struct kvmi_event_pf fault;           /* what is offered */
static struct kvmi_event_pf_reply context;   /* and what the reply to it has */
enum { FAULT_DATA = 40 };                    /* where ctx_data stands in a reply */

/* A fresh session of two vCPUs, both ready, and two views. Page 1 is guarded in view 0, page 3 in view 1, and page 2^52 - 1 in both; vCPU 0
 * has page faults on. */
static void fresh_faults(void) {
    struct semblurick_settings s = settings_of(2, 2);
    CHECK(semblurick_fresh(&guest, &s) == SEMBLURICK_HANDLED && semblurick_ready(&guest, 0) == SEMBLURICK_HANDLED && semblurick_ready(&guest, 1) == SEMBLURICK_HANDLED);
    CHECK(page(0, 1, 4) == 0 && page(1, 3, 0) == 0 && page(0, 0xFFFFFFFFFFFFF, 1) == 0 && page(1, 0xFFFFFFFFFFFFF, 5) == 0 && vcpu_event(0, KVMI_EVENT_PF, 1) == 0);
    input_size = 0;
}

static void set_fault(uint64_t gva, uint64_t gpa, uint8_t access, uint16_t view) {
    memset(&fault, 0, sizeof fault);
    fault.gva = gva, fault.gpa = gpa, fault.access = access, fault.view = view;
}

/* Offered to vCPU `vcpu`, it goes out. */
static bool goes_out(uint16_t vcpu) {
    memcpy(own, &fault, sizeof fault);
    return offer(vcpu, KVMI_EVENT_PF, sizeof fault, SEMBLURICK_ENTRY_OUT) == SEMBLURICK_HANDLED && is_event(vcpu, KVMI_EVENT_PF, sizeof fault) && r.count == SEMBLURICK_EVENT_MAX &&
           rest_is_zero();
}

/* It is passed over, and nothing changes. */
static bool is_passed_over(uint16_t vcpu) {
    memcpy(own, &fault, sizeof fault);
    memcpy(&before, &guest, sizeof guest);
    return offer(vcpu, KVMI_EVENT_PF, sizeof fault, SEMBLURICK_ENTRY_OUT) == SEMBLURICK_HANDLED && is_zero(&r) && !memcmp(&before, &guest, sizeof guest);
}

/* Data that are told apart, also past ctx_size. */
static void set_context(uint64_t address, uint32_t size, uint8_t rep) {
    memset(&context, 0, sizeof context);
    context.ctx_addr = address, context.ctx_size = size, context.rep_complete = rep;
    for (size_t i = 0; i < sizeof context.ctx_data; i++) context.ctx_data[i] = (uint8_t)(i * 3 + 1);
}

static void begin_fault_reply(uint16_t vcpu, uint8_t action) {
    struct kvmi_event_reply e;
    memset(&e, 0, sizeof e);
    e.action = action, e.event = KVMI_EVENT_PF;
    begin(KVMI_EVENT_REPLY, guest.session.seq - 1), add_vcpu(vcpu), add(&e, sizeof e), add(&context, sizeof context);
}

static enum semblurick_answer answer_fault(uint16_t vcpu, uint8_t action) {
    begin_fault_reply(vcpu, action);
    return send();
}

/* The reply is taken, and the part that it names is where it should be. */
static bool is_fed(uint64_t source, uint64_t at, uint64_t length, uint64_t value) {
    const struct semblurick_memory lent = semblurick_memory_of(memory, sizeof memory);
    const uint8_t *bytes = source == SEMBLURICK_FED_MESSAGE ? msg + at : source == SEMBLURICK_FED_GUEST ? memory + at : NULL;
    return r.count == 0 && r.offset == 0 && r.signal == SEMBLURICK_RESUME && r.vcpu == 0 && r.wait == 0 && r.action == 0 && r.value == value &&
           r.source == source && r.at == at && r.length == length && r.padding == 0 && reserved_is_zero() && semblurick_fed(msg, lent, &r) == bytes && semblurick_awaited(&guest, 0) == 0;
}

/* A fault at (gva, gpa) whose continue has this context, with two pages of guest memory: fed from byte `from` of ctx_data on. */
static bool is_supplied(uint64_t gva, uint64_t gpa, uint64_t address, uint32_t size, uint64_t from) {
    set_fault(gva, gpa, KVMI_PAGE_ACCESS_R, 0), set_context(address, size, 0);
    if (!goes_out(0) || answer_fault(0, KVMI_EVENT_ACTION_CONTINUE) != SEMBLURICK_HANDLED) return false;
    return is_fed(SEMBLURICK_FED_MESSAGE, FAULT_DATA + from, size - from, 0) &&
           !memcmp(semblurick_fed(msg, semblurick_no_memory(), &r), context.ctx_data + from, size - from);
}

/* The same, fed from the page; or, where `length` is 0, answer 12. */
static bool is_from_page(uint64_t gva, uint64_t gpa, uint64_t address, uint32_t size, uint64_t length) {
    set_fault(gva, gpa, KVMI_PAGE_ACCESS_R, 0), set_context(address, size, 0);
    if (!goes_out(0)) return false;
    enum semblurick_answer answer = answer_fault(0, KVMI_EVENT_ACTION_CONTINUE);
    if (length == 0) return answer == SEMBLURICK_NO_PAGE && is_fed(SEMBLURICK_FED_NOTHING, 0, 0, 0);
    return answer == SEMBLURICK_HANDLED && is_fed(SEMBLURICK_FED_GUEST, gpa, length, 0);
}

/* The reply that stands in msg closes; the session is then as it was before. */
static bool msg_closes(void) {
    memcpy(&before, &guest, sizeof guest);
    bool closed = send() == SEMBLURICK_CLOSING && is_zero(&r) && !semblurick_awaited(&guest, 0) && semblurick_page_count(&guest) == 0;
    memcpy(&guest, &before, sizeof guest);
    return closed;
}

static void faults(void) {
    const uint64_t unknown = UINT64_MAX;
    const uint8_t actions[] = {KVMI_EVENT_ACTION_CONTINUE, KVMI_EVENT_ACTION_RETRY, KVMI_EVENT_ACTION_CRASH};
    for (size_t i = 0; i < sizeof memory; i++) memory[i] = (uint8_t)(i * 11 + i / 256);
    memcpy(memory_before, memory, sizeof memory);

    /* when it is sent: the vCPU's switch, and a page below rwx in the view that the own bytes name; whatever the access, and the page */
    fresh_faults();
    for (uint32_t access = 0; access < 256; access++) {
        set_fault(unknown, 0x1000 + access, (uint8_t)access, 0);
        CHECK(goes_out(0)), set_context(0, 0, 0);
        CHECK(answer_fault(0, KVMI_EVENT_ACTION_RETRY) == SEMBLURICK_HANDLED && is_resume(0, KVMI_EVENT_ACTION_RETRY, 0));
    }
    const struct { uint64_t gpa; uint16_t view; bool sent; } pages_of[] = {
        {0x1000, 0, true}, {0x1FFF, 0, true}, {0xFFF, 0, false}, {0x2000, 0, false}, {0x1000, 1, false}, {0x3ABC, 1, true}, {0x3ABC, 0, false},
        {0xFFFFFFFFFFFFF000, 0, true}, {UINT64_MAX, 0, true}, {UINT64_MAX, 1, true}, {0xFFFFFFFFFFFFEFFF, 0, false}, {0, 0, false},
        {0x1000, 2, false}, {0x1000, 8, false}, {0x1000, 256, false}, {0x3000, 257, false}, {UINT64_MAX, 0xFFFF, false},
    };
    for (size_t i = 0; i < sizeof pages_of / sizeof pages_of[0]; i++) {
        set_fault(7, pages_of[i].gpa, 1, pages_of[i].view);
        CHECK(is_passed_over(1));
        if (pages_of[i].sent) {
            CHECK(goes_out(0) && answer_fault(0, KVMI_EVENT_ACTION_CRASH) == SEMBLURICK_HANDLED);
            CHECK(r.signal == SEMBLURICK_CRASH && r.vcpu == 0 && r.action == 0 && r.value == 0 && rest_is_zero());
        } else {
            CHECK(is_passed_over(0));
        }
    }
    set_fault(0x1122334455667788, 0x1234, 5, 0);
    CHECK(vcpu_event(0, KVMI_EVENT_PF, 0) == 0 && is_passed_over(0) && vcpu_event(0, KVMI_EVENT_PF, 1) == 0);
    CHECK(page(0, 1, 7) == 0 && is_passed_over(0) && page(0, 1, 3) == 0);
    CHECK(goes_out(0) && !memcmp(out, "\x11\0\x38\2", 4) && !memcmp(out + 8, "\x20\2\0\0\x0A\0\0", 8));
    CHECK(!memcmp(out + 552, "\x88\x77\x66\x55\x44\x33\x22\x11\x34\x12\0\0\0\0\0\0\5\0\0\0\0\0\0", 24));
    CHECK(semblurick_image_write(&guest, semblurick_output_of(image, sizeof image), &r) == SEMBLURICK_BUSY);
    CHECK(offer(0, KVMI_EVENT_PF, 24, sizeof out) == SEMBLURICK_WAITING && answer_fault(0, KVMI_EVENT_ACTION_RETRY) == SEMBLURICK_HANDLED);

    /* its size, and its paddings; a pause goes instead of one that is passed over, and not before one that is sent */
    for (int on = 0; on < 2; on++) {
        CHECK(vcpu_event(0, KVMI_EVENT_PF, (uint8_t)on) == 0);
        CHECK(offer(0, KVMI_EVENT_PF, 23, 0) == SEMBLURICK_BAD_STATE && offer(0, KVMI_EVENT_PF, 25, sizeof out) == SEMBLURICK_BAD_STATE && offer(0, KVMI_EVENT_PF, 0, sizeof out) == SEMBLURICK_BAD_STATE);
        CHECK(offer(0, KVMI_EVENT_PF, 24, SEMBLURICK_ENTRY_OUT - 1) == SEMBLURICK_SHORT_OUT && is_zero(&r) && semblurick_awaited(&guest, 0) == 0);
    }
    fault.padding1 = 0x5A, fault.padding3 = 0xA1B2C3D4;
    begin_pause(0, 0);
    CHECK(reply() == 0 && goes_out(0) && semblurick_pauses(&guest, 0) == 1 && answer_fault(0, KVMI_EVENT_ACTION_RETRY) == SEMBLURICK_HANDLED);
    fault.view = 1, memcpy(own, &fault, sizeof fault);
    CHECK(offer(0, KVMI_EVENT_PF, sizeof fault, sizeof out) == SEMBLURICK_HANDLED && is_event(0, KVMI_EVENT_PAUSE_VCPU, 0) && semblurick_pauses(&guest, 0) == 0);
    CHECK(answer_fault(0, KVMI_EVENT_ACTION_CONTINUE) == SEMBLURICK_CLOSING); /* it is none */

    /* what the tool supplies: from gva to the end, in a range that does not wrap */
    fresh_faults();
    CHECK(is_supplied(0x1004, 0x1000, 0x1000, 16, 4) && is_supplied(0x1000, 0x1000, 0x1000, 16, 0) && is_supplied(0x100F, 0x1000, 0x1000, 16, 15));
    CHECK(is_supplied(0, 0x1FFF, 0, 1, 0) && is_supplied(255, 0x1000, 0, 256, 255) && is_supplied(0x1000, 0x1000, 0x1000, 256, 0));
    CHECK(is_supplied(UINT64_MAX - 1, 0x1000, UINT64_MAX - 3, 256, 2) && is_supplied(UINT64_MAX - 3, 0x1000, UINT64_MAX - 3, 1, 0));
    /* else the page, from gpa to its end */
    CHECK(is_from_page(0x1010, 0x1000, 0x1000, 16, 4096) && is_from_page(0xFFF, 0x1FFE, 0x1000, 16, 2) && is_from_page(0x1000, 0x1800, 0x1000, 0, 2048));
    CHECK(is_from_page(unknown, 0x1001, UINT64_MAX - 255, 256, 4095) && is_from_page(unknown, 0x1FFF, UINT64_MAX, 256, 1));
    CHECK(is_from_page(1, 0x1000, UINT64_MAX - 3, 256, 4096) && is_from_page(0, 0x1000, UINT64_MAX, 256, 4096) && is_from_page(256, 0x1000, 0, 256, 4096));

    /* answer 12: the page does not lie wholly inside. All else is as under 0 */
    CHECK(page(0, 2, 0) == 0 && page(0, 0, 0) == 0);
    CHECK(is_from_page(unknown, 0x2000, 0, 0, 0) && is_from_page(5, 0x2FFF, 6, 256, 0) && is_from_page(unknown, UINT64_MAX, 0, 256, 0));
    CHECK(is_supplied(6, UINT64_MAX, 5, 2, 1) && is_from_page(5, 0, 6, 256, 4096) && is_from_page(5, 4095, 6, 256, 1));
    for (size_t size = 0; size <= sizeof memory; size += size % 4096 == 0 ? 4095 : 1) {
        for (uint64_t gpa = 0xFFF; gpa < 0x2000; gpa += 0x1000) {
            bool is_there = size >= gpa + 1;
            set_fault(unknown, gpa, KVMI_PAGE_ACCESS_R, 0), set_context(0, 256, 1);
            CHECK(goes_out(0));
            begin_fault_reply(0, KVMI_EVENT_ACTION_CONTINUE);
            memcpy(&other, &guest, sizeof guest);
            CHECK(semblurick_message(&guest, msg, msg_size, semblurick_output_of(out, sizeof out), semblurick_memory_of(memory, size), &r) == (is_there ? SEMBLURICK_HANDLED : SEMBLURICK_NO_PAGE));
            CHECK(is_fed(is_there ? SEMBLURICK_FED_GUEST : SEMBLURICK_FED_NOTHING, is_there ? gpa : 0, is_there, 1));
            /* the session moves by the reply, whatever memory is lent */
            CHECK(semblurick_message(&other, msg, msg_size, semblurick_output_of(out, sizeof out), semblurick_memory_of(memory, sizeof memory), &r) == SEMBLURICK_HANDLED);
            CHECK(!memcmp(&other, &guest, sizeof guest) && semblurick_is_open(&guest));
        }
    }

    /* bytes are wanted for a continue of a read alone, by the access that was offered; the value is rep_complete */
    for (uint32_t access = 0; access < 256; access++) {
        for (uint8_t rep = 0; rep < 2; rep++) {
            set_fault(0x5000, 0x2000, (uint8_t)access, 0), set_context(0x5000, 8, rep); /* page 2 is not in memory */
            CHECK(goes_out(0) && answer_fault(0, KVMI_EVENT_ACTION_CONTINUE) == SEMBLURICK_HANDLED);
            CHECK(access % 2 ? is_fed(SEMBLURICK_FED_MESSAGE, FAULT_DATA, 8, rep) : is_fed(SEMBLURICK_FED_NOTHING, 0, 0, rep));
            context.ctx_size = 0;
            CHECK(goes_out(0) && answer_fault(0, KVMI_EVENT_ACTION_CONTINUE) == (access % 2 ? SEMBLURICK_NO_PAGE : SEMBLURICK_HANDLED) && is_fed(0, 0, 0, rep));
            CHECK(goes_out(0) && answer_fault(0, KVMI_EVENT_ACTION_RETRY) == SEMBLURICK_HANDLED && is_resume(0, KVMI_EVENT_ACTION_RETRY, rep));
            CHECK(goes_out(0) && answer_fault(0, KVMI_EVENT_ACTION_CRASH) == SEMBLURICK_HANDLED && r.signal == SEMBLURICK_CRASH && r.value == 0 && rest_is_zero());
        }
    }

    /* what changes meanwhile does not matter: the switch, the page */
    set_fault(0x1008, 0x1FF0, 1, 0), set_context(0x1000, 16, 0);
    CHECK(goes_out(0) && vcpu_event(0, KVMI_EVENT_PF, 0) == 0 && page(0, 1, 7) == 0 && answer_fault(0, KVMI_EVENT_ACTION_CONTINUE) == SEMBLURICK_HANDLED);
    CHECK(is_fed(SEMBLURICK_FED_MESSAGE, FAULT_DATA + 8, 8, 0) && vcpu_event(0, KVMI_EVENT_PF, 1) == 0 && page(0, 1, 5) == 0);

    /* what closes, whatever the action is */
    CHECK(goes_out(0));
    for (size_t i = 0; i < sizeof actions; i++) {
        const uint32_t sizes[] = {257, 512, 0x10000, 0x80000000, UINT32_MAX};
        for (size_t j = 0; j < sizeof sizes / sizeof sizes[0]; j++) set_context(0x1000, sizes[j], 0), begin_fault_reply(0, actions[i]), CHECK(msg_closes());
        set_context(0x1000, 256, 2), begin_fault_reply(0, actions[i]), CHECK(msg_closes());
        set_context(0x1000, 0, 0xFF), begin_fault_reply(0, actions[i]), CHECK(msg_closes());
        set_context(0x1000, 256, 1), context.padding1 = 1, begin_fault_reply(0, actions[i]), CHECK(msg_closes());
        set_context(0x1000, 256, 1), context.padding2 = 1, begin_fault_reply(0, actions[i]), CHECK(msg_closes());
        set_context(0x1000, 256, 1), context.padding2 = 0x8000, begin_fault_reply(0, actions[i]), CHECK(msg_closes());
        for (size_t j = 10; j < 24; j == 15 ? j += 3 : j++) set_context(0x1000, 256, 1), begin_fault_reply(0, actions[i]), msg[j] = 1, CHECK(msg_closes());
        set_context(0x1000, 256, 1), begin_fault_reply(0, actions[i]), msg[17] = KVMI_EVENT_MSR, CHECK(msg_closes());
        begin_fault_reply(0, actions[i]), add("", 1), CHECK(msg_closes());
        begin_fault_reply(0, actions[i]), msg_size -= 2, add("", 1), CHECK(msg_closes());
        begin_fault_reply(0, actions[i]), msg_size = 32, add("", 0), CHECK(msg_closes());
        begin_fault_reply(0, actions[i]), msg_size = 24, add("", 0), CHECK(msg_closes());
        begin_fault_reply(1, actions[i]), CHECK(msg_closes());
    }
    begin_fault_reply(0, 3), CHECK(msg_closes());
    CHECK(answer_fault(0, KVMI_EVENT_ACTION_CONTINUE) == SEMBLURICK_HANDLED && is_fed(SEMBLURICK_FED_MESSAGE, FAULT_DATA + 8, 248, 1));

    /* none of it touches guest memory, and a handed-over session has the switch and the page */
    CHECK(!memcmp(memory_before, memory, sizeof memory) && semblurick_image_write(&guest, semblurick_output_of(image, sizeof image), &r) == SEMBLURICK_HANDLED);
    const struct semblurick_settings s = settings_of(2, 2);
    CHECK(semblurick_image_read(&guest, &s, image, r.count, &r) == SEMBLURICK_HANDLED && goes_out(0));
}

/* What a batch is fed: by the input, from its beginning on. */
static bool is_batch_fed(uint64_t source, uint64_t at, uint64_t length, uint64_t value) {
    const uint8_t *bytes = source == SEMBLURICK_FED_MESSAGE ? input + at : source == SEMBLURICK_FED_GUEST ? memory + at : NULL;
    return b.signal == SEMBLURICK_RESUME && b.vcpu == 0 && b.action == 0 && b.value == value && b.source == source && b.at == at && b.length == length &&
           semblurick_batch_fed(input, semblurick_memory_of(memory, sizeof memory), &b) == bytes;
}

static void fed_by_batches(void) {
    const size_t most = sizeof wide;
    /* a pause, the reply, the version, which the resume leaves */
    fresh_faults(), set_fault(0x1004, 0x1000, 1, 0), set_context(0x1000, 16, 1);
    CHECK(goes_out(0)), join_pause(1, 1), begin_fault_reply(0, KVMI_EVENT_ACTION_CONTINUE), join(), join_version();
    CHECK(batch(most, 16) == SEMBLURICK_HANDLED && b.used == 24 + 296 && b.count == 16 && b.listed == 1 && codes[0] == 259);
    CHECK(is_batch_fed(SEMBLURICK_FED_MESSAGE, 24 + FAULT_DATA + 4, 12, 1) && !memcmp(semblurick_batch_fed(input, semblurick_no_memory(), &b), context.ctx_data + 4, 12));
    CHECK(singly(16) == SEMBLURICK_HANDLED);

    /* the guest page, which a write before has changed */
    struct kvmi_vm_write_physical w;
    w.gpa = 0x1FFA, w.size = 6;
    fresh_faults(), set_fault(UINT64_MAX, 0x1FFC, 1, 0), set_context(0, 256, 0);
    CHECK(goes_out(0)), begin(KVMI_VM_WRITE_PHYSICAL, 1), add(&w, sizeof w), add("behind", 6), join(), begin_fault_reply(0, KVMI_EVENT_ACTION_CONTINUE), join();
    CHECK(batch(most, 1) == SEMBLURICK_HANDLED && b.used == input_size && b.count == 16 && b.listed == 0 && is_batch_fed(SEMBLURICK_FED_GUEST, 0x1FFC, 4, 0));
    CHECK(!memcmp(semblurick_batch_fed(input, semblurick_memory_of(memory, sizeof memory), &b), "hind", 4) && singly(1) == SEMBLURICK_HANDLED);

    /* answer 12 ends it, itself used; what those before wrote and signalled stays; the rest goes on */
    fresh_faults(), set_fault(UINT64_MAX, UINT64_MAX, 1, 1), set_context(0, 256, 1);
    CHECK(goes_out(0)), join_pause(1, 0), join_version(), begin_fault_reply(0, KVMI_EVENT_ACTION_CONTINUE), join(), join_pause(0, 1);
    CHECK(batch(most, 2) == SEMBLURICK_NO_PAGE && b.used == 24 + 8 + 296 && b.count == 16 + 32 && b.listed == 1 && codes[0] == 258);
    CHECK(is_batch_fed(SEMBLURICK_FED_NOTHING, 0, 0, 1) && semblurick_is_open(&guest) && semblurick_awaited(&guest, 0) == 0 && singly(2) == SEMBLURICK_NO_PAGE);
    memmove(input, input + b.used, input_size -= b.used);
    CHECK(batch(most, 1) == SEMBLURICK_HANDLED && is_batch(24, 16, 1) && codes[0] == 257);
    /* alone, and first; it needs a place and room, too */
    fresh_faults();
    CHECK(goes_out(0)), begin_fault_reply(0, KVMI_EVENT_ACTION_CONTINUE), join(), join_version();
    CHECK(batch(most, 0) == SEMBLURICK_NO_PLACE && batch(SEMBLURICK_MESSAGE_OUT - 1, 1) == SEMBLURICK_SHORT_OUT);
    CHECK(batch(SEMBLURICK_MESSAGE_OUT, 1) == SEMBLURICK_NO_PAGE && b.used == 296 && b.count == 0 && b.listed == 0 && is_batch_fed(0, 0, 0, 1) && singly(1) == SEMBLURICK_NO_PAGE);

    /* retry, a write and a crash: no bytes; a crash does not end it */
    for (int i = 0; i < 3; i++) {
        fresh_faults(), set_fault(0x1004, 0x1000, i == 1 ? 2 : 1, 0), set_context(0x1000, 16, 1);
        CHECK(goes_out(0)), begin_fault_reply(0, (uint8_t)(i == 0 ? 1 : i == 1 ? 0 : 2)), join(), join_version();
        CHECK(batch(most, 16) == SEMBLURICK_HANDLED);
        if (i == 2) CHECK(is_batch(296 + 8, 32, 1) && codes[0] == 512);
        else CHECK(b.used == 296 && b.count == 0 && b.signal == SEMBLURICK_RESUME && b.action == (i == 0) && b.value == 1 && b.source == 0 && b.at == 0 && b.length == 0);
        CHECK(singly(16) == SEMBLURICK_HANDLED);
    }

    /* and what closes */
    fresh_faults(), set_fault(0x1004, 0x1000, 1, 0), set_context(0x1000, 257, 0);
    CHECK(goes_out(0)), join_version(), begin_fault_reply(0, KVMI_EVENT_ACTION_CONTINUE), join(), join_version();
    CHECK(batch(most, 16) == SEMBLURICK_CLOSING && is_batch(8 + 296, 32, 0) && singly(16) == SEMBLURICK_CLOSING);
}

/* ---- which padding byte it was */

/* The padding of each command, by offsets in the message: from the first to the last of each run. Message 13 has two entries here. */
static const struct padded {
    uint16_t id;
    uint8_t runs[3][2];
} commands[] = {
    {KVMI_GET_VERSION, {{0, 0}}},
    {KVMI_VM_CHECK_COMMAND, {{10, 15}}},
    {KVMI_VM_CHECK_EVENT, {{10, 15}}},
    {KVMI_VM_GET_INFO, {{0, 0}}},
    {KVMI_VM_CONTROL_EVENTS, {{11, 15}}},
    {KVMI_VM_READ_PHYSICAL, {{0, 0}}},
    {KVMI_VM_WRITE_PHYSICAL, {{0, 0}}},
    {KVMI_VCPU_GET_INFO, {{10, 15}}},
    {KVMI_VCPU_PAUSE, {{10, 15}, {17, 23}}},
    {KVMI_VCPU_CONTROL_EVENTS, {{10, 15}, {19, 23}}},
    {KVMI_VCPU_CONTROL_CR, {{10, 15}, {17, 19}}},
    {KVMI_VCPU_CONTROL_MSR, {{10, 15}, {17, 19}}},
    {KVMI_VM_SET_PAGE_ACCESS, {{12, 15}, {25, 31}, {41, 47}}},
    {KVMI_VCPU_CONTROL_SINGLESTEP, {{10, 15}, {17, 23}}},
    {KVMI_VM_CONTROL_CMD_RESPONSE, {{11, 15}}},
};
enum { COMMANDS = sizeof commands / sizeof commands[0] };

static bool is_padding(const struct padded *of, size_t at) {
    for (size_t i = 0; i < 3; i++)
        if (of->runs[i][0] && of->runs[i][0] <= at && at <= of->runs[i][1]) return true;
    return false;
}

/* Puts a command into msg that succeeds, with replies on or off, and has no padding byte but zeros. Where it names a vCPU, that is 1. */
static void begin_command(uint16_t id) {
    struct { struct kvmi_vm_check_command command; struct kvmi_vm_check_event event; struct kvmi_vm_control_events events; } vm;
    struct { struct kvmi_vcpu_pause pause; struct kvmi_vcpu_control_events events; struct kvmi_vcpu_control_cr cr; struct kvmi_vcpu_control_msr msr;
             struct kvmi_vcpu_control_singlestep singlestep; } vcpu;
    struct { struct kvmi_vm_set_page_access head; struct kvmi_page_access_entry entries[2]; } access;
    struct kvmi_vm_control_cmd_response response;
    struct kvmi_vm_write_physical place;
    memset(&vm, 0, sizeof vm), memset(&vcpu, 0, sizeof vcpu), memset(&access, 0, sizeof access), memset(&response, 0, sizeof response);
    vm.command.id = KVMI_VCPU_PAUSE, vm.event.id = KVMI_EVENT_CPUID, vm.events.event_id = KVMI_EVENT_CREATE_VCPU, vm.events.enable = 1;
    vcpu.pause.wait = 1, vcpu.events.event_id = KVMI_EVENT_MSR, vcpu.events.enable = vcpu.cr.enable = vcpu.msr.enable = vcpu.singlestep.enable = 1;
    vcpu.cr.cr = 3, vcpu.msr.msr = 0xC0000082;
    access.head.count = 2, access.head.view = 1;
    access.entries[0].gpa = 0x123456, access.entries[1].gpa = UINT64_MAX, access.entries[0].access = 5, access.entries[1].access = 1;
    response.now = 1;
    place.gpa = 4096, place.size = 4;

    begin(id, 0xABCDEF01);
    if (id >= KVMI_VCPU_GET_INFO && id != KVMI_VM_SET_PAGE_ACCESS && id != KVMI_VM_CONTROL_CMD_RESPONSE) add_vcpu(1);
    switch (id) {
    case KVMI_VM_CHECK_COMMAND: add(&vm.command, sizeof vm.command); break;
    case KVMI_VM_CHECK_EVENT: add(&vm.event, sizeof vm.event); break;
    case KVMI_VM_CONTROL_EVENTS: add(&vm.events, sizeof vm.events); break;
    case KVMI_VM_READ_PHYSICAL: add(&place, sizeof place); break;
    case KVMI_VM_WRITE_PHYSICAL: add(&place, sizeof place), add("\1\2\3\4", 4); break;
    case KVMI_VCPU_PAUSE: add(&vcpu.pause, sizeof vcpu.pause); break;
    case KVMI_VCPU_CONTROL_EVENTS: add(&vcpu.events, sizeof vcpu.events); break;
    case KVMI_VCPU_CONTROL_CR: add(&vcpu.cr, sizeof vcpu.cr); break;
    case KVMI_VCPU_CONTROL_MSR: add(&vcpu.msr, sizeof vcpu.msr); break;
    case KVMI_VM_SET_PAGE_ACCESS: add(&access, sizeof access); break;
    case KVMI_VCPU_CONTROL_SINGLESTEP: add(&vcpu.singlestep, sizeof vcpu.singlestep); break;
    case KVMI_VM_CONTROL_CMD_RESPONSE: add(&response, sizeof response); break;
    default: break;
    }
}

/* The command in msg fails with EINVAL, byte `at` is told, and so many bytes go out: a reply, none, or a CMD_ERROR event. Nothing changes but
 * the next event's seq, by such an event. */
static bool is_told(size_t at, size_t bytes) {
    struct kvmi_event_cmd_error error;
    memcpy(&before, &guest, sizeof guest);
    if (bytes == 16 ? reply() != -KVMI_EINVAL : send() != SEMBLURICK_HANDLED) return false;
    if (bytes == 568) {
        memcpy(&error, out + 552, sizeof error);
        if (error.err != -KVMI_EINVAL || error.msg_seq != 0xABCDEF01) return false;
        before.session.seq++;
    }
    uint64_t told = r.padding;
    r.padding = 0;
    return told == at && r.count == bytes && r.offset == 0 && r.signal == SEMBLURICK_NONE && r.vcpu == 0 && r.wait == 0 && r.action == 0 && r.value == 0 &&
           rest_is_zero() && !memcmp(&before, &guest, sizeof guest);
}

/* Every padding byte of the command in msg: one by one, and together with all that stand behind it. */
static void tell_each(const struct padded *of, size_t bytes) {
    for (size_t at = 8; at < msg_size; at++) {
        if (!is_padding(of, at)) continue;
        for (unsigned value = 1; value < 256; value *= 2) msg[at] = (uint8_t)value, CHECK(is_told(at, bytes));
        msg[at] = 0;
    }
    for (size_t at = msg_size; at-- > 8;)
        if (is_padding(of, at)) msg[at] = 0xFF, CHECK(is_told(at, bytes));
}

/* A session under these settings with vCPUs 0 and 1 ready and, where `off` is set, replies off; with errors by events where `flags` is 1. */
static void fresh_padding(const struct semblurick_settings *s, bool off, uint8_t flags) {
    CHECK(semblurick_fresh(&guest, s) == SEMBLURICK_HANDLED && semblurick_ready(&guest, 0) == SEMBLURICK_HANDLED && semblurick_ready(&guest, 1) == SEMBLURICK_HANDLED);
    if (!off) return;
    begin_command(KVMI_VM_CONTROL_CMD_RESPONSE), msg[10] = flags;
    CHECK(send() == SEMBLURICK_HANDLED && is_zero(&r));
}

static void padding(void) {
    static const struct padded head = {KVMI_VM_SET_PAGE_ACCESS, {{12, 15}}};
    const struct semblurick_settings s = settings_of(3, 2);
    struct semblurick_settings few = s;
    static struct semblurick fresh;
    fresh_padding(&s, false, 0);
    memcpy(&fresh, &guest, sizeof fresh);

    for (size_t i = 0; i < COMMANDS; i++) {
        const struct padded *of = &commands[i];
        const uint16_t id = of->id;
        CHECK(id == i + 1);

        /* padding as it should be: no error, and none is told; nor is one whatever stands in the bytes that are no padding */
        memcpy(&guest, &fresh, sizeof guest), begin_command(id);
        CHECK(id == KVMI_VM_CONTROL_CMD_RESPONSE ? send() == SEMBLURICK_HANDLED && is_zero(&r) : reply() == 0 && rest_is_zero());
        for (size_t at = 8; at < msg_size; at++)
            for (unsigned value = 0; value < 256 && !is_padding(of, at); value += 15) {
                memcpy(&guest, &fresh, sizeof guest), begin_command(id), msg[at] = (uint8_t)value;
                (void)send();
                CHECK(rest_is_zero());
            }
        memcpy(&guest, &fresh, sizeof guest);
        if (!of->runs[0][0]) continue;

        /* each byte, with replies on; and beside another cause of EINVAL, a vCPU, an event, a count or a flag out of range */
        begin_command(id), tell_each(of, 16);
        begin_command(id), msg[8] = 200;
        CHECK(reply() == -KVMI_EINVAL && rest_is_zero());
        tell_each(id == KVMI_VM_SET_PAGE_ACCESS ? &head : of, 16);

        /* with replies off, and with errors by events */
        for (uint8_t flags = 0; flags < 2; flags++) {
            fresh_padding(&s, true, flags), begin_command(id), msg[10] = id == KVMI_VM_CONTROL_CMD_RESPONSE ? flags : 0;
            if (id == KVMI_VCPU_GET_INFO) {
                msg[10] = 1;
                CHECK(send() == SEMBLURICK_CLOSING && is_zero(&r));
            } else {
                CHECK(send() == SEMBLURICK_HANDLED && r.count == 0 && rest_is_zero());
                tell_each(of, flags ? 568 : 0);
            }
        }

        /* not allowed, but for 2 and 3, which always are */
        few.commands = 0, few.events = SEMBLURICK_ALL;
        fresh_padding(&few, false, 0), begin_command(id), msg[15] = 1;
        CHECK(id > KVMI_VM_CHECK_EVENT ? reply() == -KVMI_EPERM && rest_is_zero() : is_told(15, 16));

        /* what closes: a byte too many, a byte too few */
        for (size_t size = msg_size - 1; size <= msg_size + 1; size += 2) {
            struct kvmi_msg_hdr header;
            fresh_padding(&s, false, 0), begin_command(id), msg[15] = 1;
            header.id = id, header.size = (uint16_t)(size - sizeof header), header.seq = 1;
            CHECK(semblurick_message(&guest, msg, size, semblurick_output_of(out, sizeof out), semblurick_no_memory(), &r) == SEMBLURICK_CLOSING && is_zero(&r));
            if (id == KVMI_VM_SET_PAGE_ACCESS) continue; /* a size that its count has not is EINVAL */
            fresh_padding(&s, false, 0), begin_command(id), msg[15] = 1, memcpy(msg, &header, sizeof header);
            CHECK(semblurick_message(&guest, msg, size, semblurick_output_of(out, sizeof out), semblurick_no_memory(), &r) == SEMBLURICK_CLOSING && is_zero(&r));
        }

        /* refusals: a short output, a closed session */
        fresh_padding(&s, false, 0), begin_command(id), msg[15] = 1;
        CHECK(semblurick_message(&guest, msg, msg_size, semblurick_output_of(out, sizeof out - 1), semblurick_no_memory(), &r) == SEMBLURICK_SHORT_OUT && is_zero(&r));
        CHECK(is_told(15, 16));
        msg_size--;
        CHECK(send() == SEMBLURICK_CLOSING && is_zero(&r));
        msg_size++;
        CHECK(send() == SEMBLURICK_CLOSED && is_zero(&r));
    }

    /* before a vCPU that is not ready, and before an event that is not allowed; those errors tell no byte. Ids that are unknown */
    few.commands = SEMBLURICK_ALL, few.events = 0;
    fresh_padding(&few, false, 0);
    begin_command(KVMI_VCPU_CONTROL_CR), msg[8] = 2;
    CHECK(reply() == -KVMI_EAGAIN && rest_is_zero());
    msg[19] = 7, CHECK(is_told(19, 16));
    begin_command(KVMI_VCPU_CONTROL_EVENTS);
    CHECK(reply() == -KVMI_EPERM && rest_is_zero());
    msg[23] = 7, CHECK(is_told(23, 16));
    for (uint16_t id = 0; id < 300; id = (uint16_t)(id ? id + 1 : 17)) {
        begin(id, 1), add("\1\2\3\4\5\6\7\1\2\3\4\5\6\7", 15);
        CHECK(reply() == -KVMI_ENOSYS && rest_is_zero());
    }

    /* message 15 that asks for errors by events without event 13 closes, but not with a padding byte; message 9 without event 2 does with one, too */
    begin_command(KVMI_VM_CONTROL_CMD_RESPONSE), msg[10] = 1, msg[11] = 1;
    CHECK(is_told(11, 16));
    msg[11] = 0;
    CHECK(send() == SEMBLURICK_CLOSING && is_zero(&r));
    fresh_padding(&few, false, 0), begin_command(KVMI_VCPU_PAUSE), msg[17] = 1;
    CHECK(send() == SEMBLURICK_CLOSING && is_zero(&r));

    /* the entries of message 13: the last byte of the longest message, and none of them where the count does not fit */
    fresh_padding(&s, false, 0), begin_command(KVMI_VM_SET_PAGE_ACCESS);
    while (msg_size + 16 <= SEMBLURICK_MESSAGE_MAX) add(msg + 16, 16);
    const uint16_t count = (uint16_t)((msg_size - 16) / 16);
    memcpy(msg + 8, &count, sizeof count), msg[msg_size - 1] = 1;
    CHECK(msg_size == 65536 && is_told(65535, 16));
    msg[msg_size - 1 - 16] = 1, CHECK(is_told(65535 - 16, 16));
    for (int by = -1; by < 2; by += 2) {
        const uint16_t other_count = (uint16_t)(count + by);
        memcpy(msg + 8, &other_count, sizeof other_count);
        CHECK(reply() == -KVMI_EINVAL && rest_is_zero());
    }
    msg[15] = 1, CHECK(is_told(15, 16));

    /* EVENT_REPLY closes by its padding, and tells none; taken, it tells none either */
    const struct semblurick_output o = semblurick_output_of(out, sizeof out);
    begin_pause(0, 0);
    CHECK(reply() == 0 && semblurick_enter(&guest, 0, state, sizeof state, o, &r) == SEMBLURICK_HANDLED && r.count == 552 && rest_is_zero());
    memcpy(&fresh, &guest, sizeof fresh);
    for (size_t at = 10; at < 24; at = at == 15 ? 18 : at + 1) {
        memcpy(&guest, &fresh, sizeof guest);
        CHECK(answer_pause(0, 0, 0) == SEMBLURICK_HANDLED && is_zero(&r));
        memcpy(&guest, &fresh, sizeof guest), msg[at] = 1;
        CHECK(msg_closes());
    }

    /* a batch tells none: what is reserved is 0, as in every batch here; the bytes are as singly */
    fresh_batch(), begin_command(KVMI_VCPU_CONTROL_CR), msg[19] = 7, join(), join_version();
    CHECK(batch(sizeof wide, 16) == SEMBLURICK_HANDLED && is_batch(24 + 8, 16 + 32, 0) && singly(16) == SEMBLURICK_HANDLED);
}

/* the functions below the calls, over parts that stand apart */
static void parts(void) {
    static struct semblurick_session session;
    static struct semblurick_vcpus vcpus;
    static struct semblurick_pages page_words;
    uint64_t numbers[3];
    session.settings = settings_of(1, 1);
    CHECK(semblurick_raw_fresh(&session, &vcpus, &page_words, &r) == SEMBLURICK_HANDLED && semblurick_raw_is_open(&session) == 1);
    CHECK(semblurick_raw_ready(&session, 0, &r) == SEMBLURICK_HANDLED && semblurick_raw_is_ready(&session, 0) == 1);
    begin_pause(0, 1);
    CHECK(semblurick_raw_message(&session, &vcpus, &page_words, msg, msg_size, out, sizeof out, memory, sizeof memory, &r) == SEMBLURICK_HANDLED);
    CHECK(r.signal == SEMBLURICK_KICK && semblurick_raw_pauses(&session, &vcpus, 0) == 1 && rest_is_zero());
    msg[17] = 1;
    CHECK(semblurick_raw_message(&session, &vcpus, &page_words, msg, msg_size, out, sizeof out, memory, sizeof memory, &r) == SEMBLURICK_HANDLED);
    CHECK(r.signal == SEMBLURICK_NONE && semblurick_raw_pauses(&session, &vcpus, 0) == 1 && r.padding == 17 && reserved_is_zero());
    begin(KVMI_GET_VERSION, 1);
    CHECK(semblurick_raw_batch(&session, &vcpus, &page_words, msg, msg_size, out, sizeof out, codes, 1, memory, sizeof memory, &b) == SEMBLURICK_HANDLED);
    CHECK(is_batch(8, 32, 0));
    CHECK(semblurick_raw_image_size(&session, &vcpus, &page_words) == 24);
    CHECK(semblurick_raw_image_write(&session, &vcpus, &page_words, image, 24, &r) == SEMBLURICK_HANDLED);
    CHECK(semblurick_raw_image_read(&session, &vcpus, &page_words, image, 24, &r) == SEMBLURICK_HANDLED);
    CHECK(semblurick_raw_enter(&session, &vcpus, &page_words, 0, state, sizeof state, KVMI_EVENT_HYPERCALL, nowhere, 0, out, sizeof out, &r) == SEMBLURICK_HANDLED && r.count == 552);
    CHECK(semblurick_raw_awaited(&session, &vcpus, 0) == 2 && semblurick_raw_page_count(&session) == 0 && semblurick_raw_access(&session, &page_words, 0, 1) == 7);
    CHECK(!semblurick_raw_vm_event(&session, 1) && !semblurick_raw_vcpu_event(&session, &vcpus, 0, 5) && !semblurick_raw_cr(&session, &vcpus, 0, 3));
    CHECK(!semblurick_raw_msr(&session, &vcpus, 0, 1) && !semblurick_raw_singlestep(&session, &vcpus, 0));
    CHECK(semblurick_raw_page_at(&session, &page_words, 0, numbers) == 7 && numbers[0] == 0 && numbers[1] == 0 && numbers[2] == 7);
    /* a refused beginning leaves the words, and a closed session, in which nothing is awaited */
    CHECK(semblurick_raw_image_read(&session, &vcpus, &page_words, image, 0, &r) == SEMBLURICK_BAD_FORM && semblurick_raw_is_open(&session) == 0);
    CHECK(vcpus.words[4] == 2 && semblurick_raw_awaited(&session, &vcpus, 0) == 0);

    /* a page fault goes by the pages that are handed over, which it leaves as they are */
    static struct semblurick_pages pages_before;
    const struct semblurick_settings s = settings_of(1, 1);
    CHECK(semblurick_fresh(&guest, &s) == SEMBLURICK_HANDLED && semblurick_ready(&guest, 0) == SEMBLURICK_HANDLED && page(0, 1, 1) == 0 && vcpu_event(0, KVMI_EVENT_PF, 1) == 0);
    memcpy(&session, &guest.session, sizeof session), memcpy(&vcpus, &guest.vcpus, sizeof vcpus), memcpy(&page_words, &guest.pages, sizeof page_words);
    memcpy(&pages_before, &page_words, sizeof page_words);
    for (uint64_t gpa = 0x2000; gpa >= 0x1000; gpa -= 0x1000) {
        set_fault(5, gpa, KVMI_PAGE_ACCESS_W, 0), memcpy(own, &fault, sizeof fault);
        CHECK(semblurick_raw_enter(&session, &vcpus, &page_words, 0, state, sizeof state, KVMI_EVENT_PF, own, sizeof fault, out, sizeof out, &r) == SEMBLURICK_HANDLED);
        CHECK(r.count == (gpa == 0x1000 ? 576 : 0) && semblurick_raw_awaited(&session, &vcpus, 0) == (gpa == 0x1000 ? KVMI_EVENT_PF : 0));
    }
    CHECK(!memcmp(&pages_before, &page_words, sizeof page_words));
    set_context(5, 1, 1), begin_fault_reply(0, KVMI_EVENT_ACTION_CONTINUE), memcpy(msg + 4, "\0\0\0", 4);
    CHECK(semblurick_raw_message(&session, &vcpus, &page_words, msg, msg_size, out, sizeof out, memory, sizeof memory, &r) == SEMBLURICK_HANDLED && is_resume(0, 0, 1));
}

/* ---- execute-only pages: access 4, and no other, goes by the flag */

/* Two entries, of pages in view 0. */
static void begin_pages(uint64_t one, uint8_t first, uint64_t another, uint8_t second) {
    struct kvmi_vm_set_page_access p;
    struct kvmi_page_access_entry e;
    memset(&p, 0, sizeof p), memset(&e, 0, sizeof e);
    p.count = 2;
    begin(KVMI_VM_SET_PAGE_ACCESS, 13), add(&p, sizeof p);
    e.gpa = one * SEMBLURICK_PAGE_BYTES, e.access = first, add(&e, sizeof e);
    e.gpa = another * SEMBLURICK_PAGE_BYTES, e.access = second, add(&e, sizeof e);
}

static int32_t two_pages(uint8_t first, uint8_t second) {
    begin_pages(3, first, 4, second);
    return reply();
}

static void execute_only(void) {
    struct semblurick_settings has = settings_of(1, 2), lacks = has;
    lacks.execute_only = 0;
    CHECK(has.execute_only == 1);

    /* every access, under every kind of flag: it is set where it is not 0 */
    const uint8_t flags[] = {0, 1, 2, 0x80, 0xFF};
    for (size_t i = 0; i < sizeof flags; i++) {
        struct semblurick_settings s = has;
        s.execute_only = flags[i];
        for (uint32_t a = 0; a < 256; a++) {
            bool is_taken = a == 0 || a == 1 || a == 3 || a == 5 || a == 7 || (a == 4 && flags[i]);
            CHECK(semblurick_fresh(&guest, &s) == SEMBLURICK_HANDLED);
            CHECK(page(1, 3, (uint8_t)a) == (is_taken ? 0 : -KVMI_EINVAL) && semblurick_access(&guest, 1, 3) == (is_taken ? a : 7));
            CHECK(semblurick_page_count(&guest) == (is_taken && a != 7));
        }
    }

    /* no entry acts where one is refused, and what stood there stays */
    CHECK(semblurick_fresh(&guest, &lacks) == SEMBLURICK_HANDLED && page(0, 3, 5) == 0);
    memcpy(&before, &guest, sizeof guest);
    CHECK(two_pages(1, 4) == -KVMI_EINVAL && two_pages(4, 1) == -KVMI_EINVAL && two_pages(7, 4) == -KVMI_EINVAL && r.count == 16);
    CHECK(!memcmp(&before, &guest, sizeof guest) && semblurick_access(&guest, 0, 3) == 5 && semblurick_page_count(&guest) == 1);
    CHECK(semblurick_fresh(&guest, &has) == SEMBLURICK_HANDLED && two_pages(1, 4) == 0 && two_pages(4, 5) == 0);
    CHECK(semblurick_access(&guest, 0, 3) == 4 && semblurick_access(&guest, 0, 4) == 5);

    /* the image: a VM, a VC, and the PAs of pages 2, 3 and, in view 1, 3 */
    const size_t first = 8 + 10, second = first + 14, third = second + 14, size = third + 14 + 6;
    CHECK(page(0, 2, 5) == 0 && page(0, 4, 7) == 0 && page(1, 3, 4) == 0 && semblurick_image_size(&guest) == size);
    CHECK(semblurick_image_write(&guest, semblurick_output_of(image, sizeof image), &r) == SEMBLURICK_HANDLED && r.count == size);
    CHECK(image[first + 4] == 5 && image[second + 4] == 4 && image[third + 4] == 4);
    CHECK(semblurick_image_read(&other, &has, image, size, &r) == SEMBLURICK_HANDLED && is_zero(&r) && is_alike() && semblurick_access(&other, 1, 3) == 4);
    memcpy(&before, &other, sizeof other);
    CHECK(semblurick_image_read(&other, &lacks, image, size, &r) == SEMBLURICK_FORBIDDEN && r.offset == second && r.count == 0 && rest_is_zero());
    CHECK(!semblurick_is_open(&other) && semblurick_access(&other, 0, 3) == 7 && semblurick_page_count(&other) == 0);
    CHECK(!memcmp(&before.vcpus, &other.vcpus, sizeof other.vcpus) && !memcmp(&before.pages, &other.pages, sizeof other.pages));

    /* form comes first; a record by itself, whatever the later ones want */
    image[second + 5] = 1; /* the zero */
    CHECK(semblurick_image_read(&other, &lacks, image, size, &r) == SEMBLURICK_BAD_FORM && r.offset == second);
    image[second + 5] = 0, image[second + 4] = 2; /* W without R */
    CHECK(semblurick_image_read(&other, &lacks, image, size, &r) == SEMBLURICK_BAD_FORM && r.offset == second);
    CHECK(semblurick_image_read(&other, &has, image, size, &r) == SEMBLURICK_BAD_FORM && r.offset == second);
    image[second + 4] = 1;
    CHECK(semblurick_image_read(&other, &lacks, image, size, &r) == SEMBLURICK_FORBIDDEN && r.offset == third);
    image[third + 4] = 0;
    CHECK(semblurick_image_read(&other, &lacks, image, size, &r) == SEMBLURICK_HANDLED && is_zero(&r) && semblurick_access(&other, 1, 3) == 0);
}

/* ---- revisions: in 2 message 13 is all or nothing, and KVMI_GET_VERSION reports it; no other number begins a session */

/* Answer 7, fresh and from an image, which is not looked at: the session is closed, and every word of the tables is as it was. */
static bool is_no_revision(const struct semblurick_settings *s, size_t image_size) {
    const struct semblurick_settings good = settings_of(1, 1);
    for (int from_image = 0; from_image < 2; from_image++) {
        if (semblurick_fresh(&guest, &good) || page(0, 3, 1)) return false;
        memcpy(&before, &guest, sizeof guest);
        memset(&r, 0xAA, sizeof r);
        if (from_image ? semblurick_image_read(&guest, s, image, image_size, &r) != SEMBLURICK_BAD_SETTINGS || !is_zero(&r)
                       : semblurick_fresh(&guest, s) != SEMBLURICK_BAD_SETTINGS)
            return false;
        if (semblurick_is_open(&guest) || semblurick_page_count(&guest) || semblurick_ready(&guest, 0) != SEMBLURICK_CLOSED) return false;
        if (memcmp(&before.vcpus, &guest.vcpus, sizeof guest.vcpus) || memcmp(&before.pages, &guest.pages, sizeof guest.pages)) return false;
    }
    return true;
}

static void revisions(void) {
    static struct semblurick full;
    static uint8_t full_image[SEMBLURICK_IMAGE_MAX];
    struct semblurick_settings s = settings_of(1, 1), by_hand;
    CHECK(semblurick_fresh(&guest, &s) == SEMBLURICK_HANDLED && semblurick_image_write(&guest, semblurick_output_of(image, sizeof image), &r) == SEMBLURICK_HANDLED);
    const size_t size = r.count;

    const uint32_t others[] = {0, 3, 4, 255, 256, 257, 258, 0x10001, 0x10002, 0x80000001, 0x80000002, UINT32_MAX};
    for (size_t i = 0; i < sizeof others / sizeof others[0]; i++) {
        s.revision = others[i];
        CHECK(is_no_revision(&s, size) && is_no_revision(&s, 0) && is_no_revision(&s, size - 1));
    }
    /* settings as a host of version 6 may fill them, in memory of zeros: the revision is missing */
    memset(&by_hand, 0, sizeof by_hand);
    by_hand.vcpus = by_hand.views = 1, by_hand.commands = by_hand.events = SEMBLURICK_ALL;
    CHECK(is_no_revision(&by_hand, size));
    by_hand.revision = 1;
    CHECK(semblurick_fresh(&guest, &by_hand) == SEMBLURICK_HANDLED && semblurick_image_read(&guest, &by_hand, image, size, &r) == SEMBLURICK_HANDLED);

    for (uint32_t revision = 1; revision <= 2; revision++) {
        struct kvmi_get_version_reply version;
        struct kvmi_vm_control_cmd_response off;
        s.revision = revision;
        CHECK(semblurick_fresh(&guest, &s) == SEMBLURICK_HANDLED);
        begin(KVMI_GET_VERSION, 7);
        CHECK(reply() == 0 && r.count == 32);
        memcpy(&version, REPLY_DATA, sizeof version);
        CHECK(version.version == revision && version.padding == 0 && version.features.singlestep == 1 && guest.session.settings.revision == revision);

        /* as many pages as there is room for, and their image */
        for (uint64_t i = 0; i < SEMBLURICK_PAGE_LIMIT; i++) CHECK(page(0, i, 5) == 0);
        memcpy(&full, &guest, sizeof full);
        CHECK(semblurick_image_write(&full, semblurick_output_of(full_image, sizeof full_image), &r) == SEMBLURICK_HANDLED);
        const size_t full_size = r.count;

        /* a page is forgotten, and there is room for another */
        begin_pages(3, 7, 5000, 1);
        CHECK(reply() == 0 && semblurick_access(&guest, 0, 3) == 7 && semblurick_access(&guest, 0, 5000) == 1);
        CHECK(semblurick_page_count(&guest) == SEMBLURICK_PAGE_LIMIT);

        /* another finds no room, and a page is forgotten behind it: in revision 1 that acts, in revision 2 all is as it was */
        const size_t left = revision == 1 ? SEMBLURICK_PAGE_LIMIT - 1 : SEMBLURICK_PAGE_LIMIT;
        memcpy(&guest, &full, sizeof guest), begin_pages(5000, 1, 3, 7);
        CHECK(reply() == -KVMI_ENOMEM && r.count == 16 && r.signal == SEMBLURICK_NONE && rest_is_zero());
        CHECK(semblurick_access(&guest, 0, 3) == (revision == 1 ? 7 : 5) && semblurick_access(&guest, 0, 5000) == 7 && semblurick_page_count(&guest) == left);
        CHECK(semblurick_image_write(&guest, semblurick_output_of(image, sizeof image), &r) == SEMBLURICK_HANDLED);
        CHECK((r.count == full_size && !memcmp(image, full_image, full_size)) == (revision == 2));

        /* the same in a batch, and with errors told by events, which count on */
        memcpy(&guest, &full, sizeof guest), input_size = 0, join(), join_version();
        CHECK(batch(sizeof wide, 16) == SEMBLURICK_HANDLED && is_batch(48 + 8, 16 + 32, 0) && singly(16) == SEMBLURICK_HANDLED);
        CHECK(semblurick_page_count(&guest) == left);
        memcpy(&guest, &full, sizeof guest), memset(&off, 0, sizeof off), off.flags = 1;
        begin(KVMI_VM_CONTROL_CMD_RESPONSE, 1), add(&off, sizeof off);
        CHECK(reply() == 0);
        begin_pages(5000, 1, 3, 7);
        CHECK(send() == SEMBLURICK_HANDLED && r.count == 568 && !memcmp(out + 552, "\xF4\xFF\xFF\xFF", 4) && guest.session.seq == 1);
        CHECK(semblurick_page_count(&guest) == left);

        /* EINVAL comes first, and pages that stand need no room */
        memcpy(&guest, &full, sizeof guest), begin_pages(5000, 1, 3, 2);
        CHECK(reply() == -KVMI_EINVAL && !memcmp(&guest, &full, sizeof guest));
        CHECK(two_pages(1, 0) == 0 && semblurick_access(&guest, 0, 3) == 1 && semblurick_access(&guest, 0, 4) == 0);

        /* an image has no revision: it is read under either, and the session goes by its settings */
        struct semblurick_settings s_new = s;
        s_new.revision = 3 - revision;
        CHECK(semblurick_image_read(&guest, &s_new, full_image, full_size, &r) == SEMBLURICK_HANDLED && semblurick_page_count(&guest) == SEMBLURICK_PAGE_LIMIT);
        begin_pages(5000, 1, 3, 7);
        CHECK(reply() == -KVMI_ENOMEM && semblurick_access(&guest, 0, 3) == (s_new.revision == 1 ? 7 : 5));
        CHECK(semblurick_image_read(&guest, &s, full_image, full_size, &r) == SEMBLURICK_HANDLED);
        CHECK(semblurick_image_write(&guest, semblurick_output_of(image, sizeof image), &r) == SEMBLURICK_HANDLED && r.count == full_size && !memcmp(image, full_image, full_size));
    }
}

/* the most of everything */
static void limits(void) {
    struct semblurick_settings s = settings_of(SEMBLURICK_MAX_VCPUS + 1, SEMBLURICK_MAX_VIEWS);
    CHECK(semblurick_fresh(&guest, &s) == SEMBLURICK_BAD_SETTINGS);
    s = settings_of(SEMBLURICK_MAX_VCPUS, SEMBLURICK_MAX_VIEWS + 1);
    CHECK(semblurick_fresh(&guest, &s) == SEMBLURICK_BAD_SETTINGS);
    s = settings_of(SEMBLURICK_MAX_VCPUS, SEMBLURICK_MAX_VIEWS);
    CHECK(semblurick_fresh(&guest, &s) == SEMBLURICK_HANDLED);

    /* a message of the most entries: of the pages the first 1,024 find room */
    struct kvmi_vm_set_page_access p;
    struct kvmi_page_access_entry e;
    memset(&p, 0, sizeof p), memset(&e, 0, sizeof e);
    p.count = (UINT16_MAX - sizeof p) / sizeof e, p.view = SEMBLURICK_MAX_VIEWS - 1;
    e.access = KVMI_PAGE_ACCESS_R | KVMI_PAGE_ACCESS_W;
    begin(KVMI_VM_SET_PAGE_ACCESS, 1), add(&p, sizeof p);
    for (unsigned i = 0; i < p.count; i++) e.gpa = (uint64_t)i * SEMBLURICK_PAGE_BYTES, add(&e, sizeof e);
    CHECK(p.count == 4095 && msg_size <= SEMBLURICK_MESSAGE_MAX && reply() == -KVMI_ENOMEM);
    CHECK(semblurick_page_count(&guest) == SEMBLURICK_PAGE_LIMIT && semblurick_access(&guest, p.view, SEMBLURICK_PAGE_LIMIT - 1) == 3);
    CHECK(semblurick_access(&guest, p.view, SEMBLURICK_PAGE_LIMIT) == 7);
    CHECK(SEMBLURICK_MESSAGE_MAX == SEMBLURICK_HEADER_BYTES + UINT16_MAX);

    /* and the longest image */
    struct { struct kvmi_msg_hdr header; struct kvmi_vcpu_hdr of; struct kvmi_vcpu_control_msr its; } m;
    unsigned refused = 0;
    memset(&m, 0, sizeof m);
    m.header.id = KVMI_VCPU_CONTROL_MSR, m.header.size = 16, m.its.enable = 1;
    for (uint16_t v = 0; v < SEMBLURICK_MAX_VCPUS; v++) {
        CHECK(semblurick_ready(&guest, v) == SEMBLURICK_HANDLED);
        m.of.vcpu = v;
        for (uint32_t i = 0; i < 0x4000; i++) {
            m.its.msr = i < 0x2000 ? i : i - 0x2000 + 0xC0000000;
            if (semblurick_message(&guest, &m, sizeof m, semblurick_output_of(out, sizeof out), semblurick_no_memory(), &r)) refused++;
            if (!semblurick_msr(&guest, v, m.its.msr)) refused++;
        }
    }
    CHECK(!refused && semblurick_image_size(&guest) == SEMBLURICK_IMAGE_MAX);
    CHECK(semblurick_image_write(&guest, semblurick_output_of(image, sizeof image), &r) == SEMBLURICK_HANDLED && r.count == sizeof image);
    CHECK(semblurick_image_read(&other, &s, image, sizeof image, &r) == SEMBLURICK_HANDLED && is_alike());
}

/* KVMI's numbers, in their order */
static void numbers(void) {
    static const int messages[] = {KVMI_GET_VERSION, KVMI_VM_CHECK_COMMAND, KVMI_VM_CHECK_EVENT, KVMI_VM_GET_INFO, KVMI_VM_CONTROL_EVENTS,
        KVMI_VM_READ_PHYSICAL, KVMI_VM_WRITE_PHYSICAL, KVMI_VCPU_GET_INFO, KVMI_VCPU_PAUSE, KVMI_VCPU_CONTROL_EVENTS, KVMI_VCPU_CONTROL_CR,
        KVMI_VCPU_CONTROL_MSR, KVMI_VM_SET_PAGE_ACCESS, KVMI_VCPU_CONTROL_SINGLESTEP, KVMI_VM_CONTROL_CMD_RESPONSE, KVMI_EVENT_REPLY, KVMI_EVENT};
    static const int events[] = {KVMI_EVENT_UNHOOK, KVMI_EVENT_PAUSE_VCPU, KVMI_EVENT_HYPERCALL, KVMI_EVENT_BREAKPOINT, KVMI_EVENT_CR, KVMI_EVENT_TRAP,
        KVMI_EVENT_XSETBV, KVMI_EVENT_DESCRIPTOR, KVMI_EVENT_MSR, KVMI_EVENT_PF, KVMI_EVENT_SINGLESTEP, KVMI_EVENT_CREATE_VCPU, KVMI_EVENT_CMD_ERROR,
        KVMI_EVENT_CPUID};
    for (int i = 0; i < 17; i++) CHECK(messages[i] == i + 1);
    for (int i = 0; i < 14; i++) CHECK(events[i] == i + 1);
    CHECK(KVMI_EVENT_ACTION_CONTINUE == 0 && KVMI_EVENT_ACTION_RETRY == 1 && KVMI_EVENT_ACTION_CRASH == 2);
    CHECK(KVMI_PAGE_ACCESS_R == 1 && KVMI_PAGE_ACCESS_W == 2 && KVMI_PAGE_ACCESS_X == 4);
    CHECK(SEMBLURICK_FED_NOTHING == 0 && SEMBLURICK_FED_MESSAGE == 1 && SEMBLURICK_FED_GUEST == 2 && SEMBLURICK_NO_PAGE == 12);
}

static void texts(void) {
    static const char *const answers[] = {"handled", "closing", "closed", "short output", "bad vCPU", "bad state block or event", "waiting",
        "bad settings", "bad form", "forbidden", "busy", "no place for signals", "no guest page", "unknown answer", "not applicable", "unknown answer"};
    for (uint32_t i = 0; i < 16; i++) CHECK(!strcmp(semblurick_answer_text(i), answers[i]));
    CHECK(!strcmp(semblurick_answer_text(SEMBLURICK_BUSY), "busy") && !strcmp(semblurick_answer_text(UINT32_MAX), "unknown answer"));
    CHECK(!strcmp(semblurick_signal_text(SEMBLURICK_NONE), "none") && !strcmp(semblurick_signal_text(SEMBLURICK_KICK), "kick"));
    CHECK(!strcmp(semblurick_signal_text(SEMBLURICK_CRASH), "crash") && !strcmp(semblurick_signal_text(SEMBLURICK_RESUME), "resume"));
    CHECK(!strcmp(semblurick_signal_text(4), "unknown signal") && !strcmp(semblurick_signal_text(UINT64_MAX), "unknown signal"));
    const int32_t errors[] = {-KVMI_EPERM, -KVMI_ENOENT, -KVMI_EAGAIN, -KVMI_ENOMEM, -KVMI_EBUSY, -KVMI_EINVAL, -KVMI_EOPNOTSUPP, -KVMI_ENOSYS};
    static const char *const names[] = {"EPERM:", "ENOENT:", "EAGAIN:", "ENOMEM:", "EBUSY:", "EINVAL:", "EOPNOTSUPP:", "ENOSYS:"};
    for (int i = 0; i < 8; i++) CHECK(!strncmp(semblurick_error_text(errors[i]), names[i], strlen(names[i])));
    CHECK(!strcmp(semblurick_error_text(0), "no error") && !strcmp(semblurick_error_text(22), "unknown error"));
    CHECK(!strcmp(semblurick_error_text(INT32_MIN), "unknown error") && !strcmp(semblurick_error_text(-38), "unknown error"));
}

int main(void) {
    struct semblurick_settings s = settings_of(3, 2);
    settings();
    CHECK(semblurick_fresh(&guest, &s) == SEMBLURICK_HANDLED);
    CHECK(!semblurick_is_ready(&guest, 0) && semblurick_ready(&guest, 0) == SEMBLURICK_HANDLED && semblurick_is_ready(&guest, 0));
    CHECK(semblurick_ready(&guest, 1) == SEMBLURICK_HANDLED && !semblurick_is_ready(&guest, 2) && !semblurick_is_ready(&guest, 64));
    CHECK(semblurick_ready(&guest, 3) == SEMBLURICK_BAD_VCPU && semblurick_ready(&guest, 65536) == SEMBLURICK_BAD_VCPU);
    replies();
    switches();
    pages();
    pauses();
    events();
    errors_as_events();
    images(&s);
    closing();
    lists();
    batches();
    faults();
    fed_by_batches();
    padding();
    parts();
    execute_only();
    revisions();
    limits();
    numbers();
    texts();
    CHECK(second_unit() == sizeof(struct semblurick));
    if (failed) return printf("%u of %u checks failed\n", failed, checks), 1;
    printf("header: %u checks\n", checks);
    return 0;
}
