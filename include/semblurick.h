/* Semblurick: the host's end of a virtual machine introspection (KVMI) channel.
 *
 * A security tool sends messages about a guest: what is in its memory, which pages it may write, which registers to watch. The
 * guest's host keeps a struct semblurick, hands it each message, sends the tool the bytes that it writes, and programs the hardware
 * as its tables say, which it reads by lookups.
 *
 *     static struct semblurick guest;                              43,088 bytes; where it stands is the host's affair
 *     struct semblurick_settings s = SEMBLURICK_SETTINGS;          one vCPU, one view, nothing allowed, revision 1
 *     struct semblurick_result r;
 *     s.commands = s.events = SEMBLURICK_ALL;
 *     s.execute_only = 1;                                          where the processor has execute-only pages
 *     s.revision = 2;                                              where the tool speaks revision 2
 *     if (semblurick_fresh(&guest, &s) != SEMBLURICK_HANDLED) ..   then semblurick_ready for each vCPU
 *
 *     for each message that the tool sends:
 *         answer = semblurick_message(&guest, msg, msg_size, semblurick_output_of(out, sizeof out),
 *                                     semblurick_memory_of(memory, memory_size), &r);
 *         answer 0: the switches and pages that it names, by lookups, to hardware; where r.signal is a kick, get vCPU r.vcpu out
 *             of the guest, with r.wait set before anything is sent; send the first r.count bytes of out to the tool; where
 *             r.signal is a resume, let vCPU r.vcpu go on, from a page fault with the bytes that semblurick_fed gives, if any
 *         answer 1: the session is closed; take every guard off the guest, let the vCPUs that wait go on, and end the connection
 *         answer 12, only where page faults are offered: as answer 0, but there is no guest page for what vCPU r.vcpu reads
 *     or for several messages that came at once: semblurick_batch
 *     before a vCPU enters the guest: semblurick_enter; where it left it for what the tool may watch, a write to CR3 or to a guarded
 *     page for one, before that is carried out: semblurick_enter_event
 *     to hand the guest to a new host: semblurick_image_write here, semblurick_image_read there
 *
 * What the host owes, and all that it owes: every pointer is to valid memory of the stated size and alignment, not null even where
 * the size is 0; no two arguments of one call overlap; and nobody else uses a session or a buffer of a call while it runs (of guest
 * memory, see struct semblurick_memory). Calls on different guests may run at the same time. Whatever bits stand in the memory
 * that is lent, every call ends, reads and writes nothing else, and gives an answer that is fixed by what it was given.
 *
 * Link with libsemblurick.a (x86-64; ./library makes it, ./install puts it in place). C11 and C++11. Define
 * SEMBLURICK_NO_KVMI_NAMES before the include where another header has KVMI's names already.
 */
#ifndef SEMBLURICK_H
#define SEMBLURICK_H

/* Grows by one where names are added. Each section, or a name itself, says since which version it is there. A name that is there
 * stays, means what it meant, and what compiled with it compiles again, but that the semblurick_raw_ functions may get more
 * arguments. Structs may get more members, and reserved words of the two results names: compile with the header that came with the
 * library, and initialize no result by a list of its members. Enums may get more values: a switch over one has a default. Sizes may
 * grow: buffers are made by their names.
 *
 * What a host that is compiled anew has to look at. Since 2: an entry's output takes 576 bytes. Since 3: access 4, execute only, is
 * refused unless the settings have execute_only, which SEMBLURICK_SETTINGS leaves 0: EINVAL in message 13, answer 9 to an image that
 * holds it. Before, it was taken. A host whose processor has execute-only pages (EPT; bit 0 of IA32_VMX_EPT_VPID_CAP) sets it to 1.
 * Since 4: nothing. Since 5: nothing, unless it offers event 10, PF, which was answered 5 before. Then: answer 12 is no refusal, though
 * it is above 1; a resume may come with bytes to feed the instruction with; and its reply is lent the guest's memory, since it asks how
 * long that is. Who calls semblurick_raw_enter hands it the pages. Since 6: nothing; `reserved` of struct semblurick_result has one word
 * less. Since 7: nothing, where its settings begin from SEMBLURICK_SETTINGS, which has revision 1. Settings that are filled in any other
 * way, member by member, of zeros or by a list, need `revision` set: else it is 0 or whatever stands there, and a session is refused
 * where it begins, with answer 7. The settings, and so struct semblurick, are 8 bytes longer. */
#define SEMBLURICK_VERSION 7

#include <stdbool.h>
#include <stddef.h>
#include <stdint.h>

#ifdef __cplusplus
#define SEMBLURICK_ASSERT(fact) static_assert(fact, #fact)
#define SEMBLURICK_CAST(type, value) static_cast<type>(value)
#define SEMBLURICK_U32_ENUM(name) enum name : uint32_t
#else
#define SEMBLURICK_ASSERT(fact) _Static_assert(fact, #fact)
#define SEMBLURICK_CAST(type, value) ((type)(value))
#define SEMBLURICK_U32_ENUM(name) enum name
#endif

/* The compiler warns where an answer is dropped. */
#if defined(__cplusplus) && __cplusplus >= 201703L
#define SEMBLURICK_CHECKED [[nodiscard]]
#elif defined(__GNUC__)
#define SEMBLURICK_CHECKED __attribute__((warn_unused_result))
#else
#define SEMBLURICK_CHECKED
#endif

#ifdef __cplusplus
extern "C" {
#endif

SEMBLURICK_ASSERT(sizeof(size_t) == 8 && sizeof(void *) == 8);

/* ---- sizes (since 1) */

enum {
    SEMBLURICK_MAX_VCPUS = 16,
    SEMBLURICK_MAX_VIEWS = 8,
    SEMBLURICK_PAGE_BYTES = 4096,
    SEMBLURICK_PAGE_LIMIT = 1024,     /* pages that can stand below rwx, in all views together */
    SEMBLURICK_PAUSE_LIMIT = 8,       /* pauses that can be queued for a vCPU */
    SEMBLURICK_HEADER_BYTES = 8,      /* a message's header */
    SEMBLURICK_MESSAGE_MAX = 65543,   /* the longest message that a header can state: 8 + 65,535 bytes */
    SEMBLURICK_EVENT_MAX = 576,       /* the longest event, header included: that of a CR, an MSR or a PF (in version 1: 568) */
    SEMBLURICK_MESSAGE_OUT = 4112,    /* the least output for a message, and for each message of a batch */
    SEMBLURICK_ENTRY_OUT = 576,       /* the least output for an entry, whatever it offers (in version 1: 552) */
    SEMBLURICK_STATE_BYTES = 536,     /* a vCPU's register block */
    SEMBLURICK_IMAGE_MAX = 2111662,   /* the longest image: 14 + 10 * 16 + 8 * 262,144 + 14 * 1,024 bytes */
    SEMBLURICK_VCPU_WORDS = 4352,
    SEMBLURICK_PAGE_WORDS = 1024
};

/* ---- answers (since 1) */

/* Every call is answered with one of these. From 2 on they are refusals, but for 12: nothing changes in session, output, list or guest
 * memory, but that semblurick_fresh and semblurick_image_read then leave a closed session. 12 (since 5) is no refusal: the message was
 * taken as under 0, and the vCPU that it resumes goes on; what 12 adds is that there are no bytes to feed it with. Only the reply to a PF
 * event, and a batch that ends with one, can be answered so. */
SEMBLURICK_U32_ENUM(semblurick_answer) {
    SEMBLURICK_HANDLED = 0,        /* result: count, and signal with vcpu, and wait or action and value; since 5 source, at and length;
                                      since 6, of a message, padding */
    SEMBLURICK_CLOSING = 1,        /* the message broke a rule that closes the session; it wrote nothing, no event is awaited */
    SEMBLURICK_CLOSED = 2,         /* the session was closed */
    SEMBLURICK_SHORT_OUT = 3,      /* the output is too small */
    SEMBLURICK_BAD_VCPU = 4,       /* the vCPU is not below the count */
    SEMBLURICK_BAD_STATE = 5,      /* the register block is not 536 bytes; since 2 also: no such event can be offered, or its own
                                      bytes have another length, whether it is switched on or off */
    SEMBLURICK_WAITING = 6,        /* that vCPU's event reply is awaited */
    SEMBLURICK_BAD_SETTINGS = 7,   /* a count is out of its range; since 7 also: the revision is neither 1 nor 2 */
    SEMBLURICK_BAD_FORM = 8,       /* the image breaks a rule; result: offset */
    SEMBLURICK_FORBIDDEN = 9,      /* the image wants what the settings lack (since 3 also execute_only, for access 4); result: offset */
    SEMBLURICK_BUSY = 10,          /* an event reply is awaited, so that there is no image */
    SEMBLURICK_NO_PLACE = 11,      /* since 4, semblurick_batch: the list of signals has no place */
    SEMBLURICK_NO_PAGE = 12,       /* since 5, no refusal: taken, as under 0, but the guest page that the vCPU reads from does not exist;
                                      result: signal, a resume, with vcpu, action and value */
    SEMBLURICK_NOT_APPLICABLE = 14 /* semblurick_list_cr: a CR other than 0, 3 and 4, or a record that is not ready */
};
SEMBLURICK_ASSERT(sizeof(enum semblurick_answer) == 4);

/* What the host has to do to a vCPU. */
enum semblurick_signal {
    SEMBLURICK_NONE = 0,
    SEMBLURICK_KICK = 1,  /* get vcpu out of the guest: a pause is queued for it. With wait set, it is out before anything more is sent */
    SEMBLURICK_CRASH = 2, /* the tool asks that vcpu, and so the guest, be crashed; the session stays open */
    SEMBLURICK_RESUME = 3 /* since 2: vcpu goes on from its event, by action and value (semblurick_enter_event), since 5 from a PF also by
                             what it is fed (semblurick_fed); from a pause: none */
};

/* The signals in the list of a batch (since 4): a number for each kick and each crash, which semblurick_listed_signal reads. */
enum semblurick_listed {
    SEMBLURICK_LISTED_KICK = 256, /* + 2 * vcpu + wait: 256 to 287 */
    SEMBLURICK_LISTED_CRASH = 512 /* + vcpu: 512 to 527 */
};

/* Where the bytes are that an instruction reads, once the tool continues its page fault (since 5). They are a part of what was lent to
 * the call, never an empty one; semblurick_fed and semblurick_batch_fed give a pointer to it. */
enum semblurick_source {
    SEMBLURICK_FED_NOTHING = 0, /* no bytes are wanted; or, with answer 12, there are none */
    SEMBLURICK_FED_MESSAGE = 1, /* `length` bytes of the message, of a batch of the input, from byte `at` on: the tool supplied them */
    SEMBLURICK_FED_GUEST = 2    /* `length` bytes of guest memory, from byte `at` on */
};

/* The values of an answer; what an answer has none of is 0. Every call that takes a result writes all of it. Its size is final:
 * later versions give names to words of `reserved`, which are 0 until then. */
struct semblurick_result {
    uint64_t count;   /* bytes written to the output; the rest of it is untouched */
    uint64_t offset;  /* of the record for which an image was refused; the image's length, if EN is missing; the first byte behind EN, if any */
    uint64_t signal;  /* enum semblurick_signal */
    uint64_t vcpu;    /* of the signal */
    uint64_t wait;    /* of a kick: 1 or 0 */
    uint64_t action;  /* since 2, of a resume: 0 continue, 1 retry (enum kvmi_action) */
    uint64_t value;   /* since 2, of a resume from a CR or an MSR event: what the register is to hold; since 5, from a PF: rep_complete,
                         0 or 1; from another: 0 */
    uint64_t source;  /* since 5, of a resume from a PF: where the bytes are that the instruction reads (enum semblurick_source) */
    uint64_t at;      /* the first of them */
    uint64_t length;  /* how many: 0 exactly where source is */
    uint64_t padding; /* since 6, of a command that fails with EINVAL: the offset in the message, its header included, of the first padding
                         byte that is not 0; 0 where there is none, or padding was not looked at (semblurick_message) */
    uint64_t reserved[1];
};
SEMBLURICK_ASSERT(sizeof(struct semblurick_result) == 96);
SEMBLURICK_ASSERT(offsetof(struct semblurick_result, source) == 56 && offsetof(struct semblurick_result, padding) == 80);
SEMBLURICK_ASSERT(offsetof(struct semblurick_result, reserved) == 88);

/* The values of a batch (since 4), likewise: what it has none of is 0, all of it is written, its size is final. It has no `padding`. */
struct semblurick_batch_result {
    uint64_t used;    /* bytes of the input: those of the messages that were taken */
    uint64_t count;   /* bytes written to the output, of all of them, end to end; the rest of it is untouched */
    uint64_t listed;  /* signals written to the list; the rest of it is untouched */
    uint64_t signal;  /* SEMBLURICK_RESUME where the last message that was used is a resume; else SEMBLURICK_NONE */
    uint64_t vcpu;    /* of the resume */
    uint64_t action;  /* of the resume, as in struct semblurick_result */
    uint64_t value;
    uint64_t source;  /* since 5, likewise */
    uint64_t at;      /* of the input where source is SEMBLURICK_FED_MESSAGE: from its beginning on, not from the message's */
    uint64_t length;
    uint64_t reserved[2];
};
SEMBLURICK_ASSERT(sizeof(struct semblurick_batch_result) == 96);
SEMBLURICK_ASSERT(offsetof(struct semblurick_batch_result, listed) == 16 && offsetof(struct semblurick_batch_result, signal) == 24);
SEMBLURICK_ASSERT(offsetof(struct semblurick_batch_result, source) == 56 && offsetof(struct semblurick_batch_result, reserved) == 80);

/* ---- settings (since 1) */

/* What the host allows and has; fixed for a session. A flag is set where it is not 0. */
struct semblurick_settings {
    uint32_t vcpus;             /* 1 to 16 */
    uint32_t views;             /* 1 to 8: sets of page rights, of which view 0 is the usual one */
    uint32_t commands;          /* bit k: the tool may use command k; 1, 2, 3 and 16 it may always use */
    uint32_t events;            /* bit k: the tool may use event k. Message 9 closes the session without event 2, and so does message 15
                                   that asks for errors by events without event 13 */
    uint64_t tsc_speed;         /* told by KVMI_VCPU_GET_INFO, in Hz; 0: not known */
    uint8_t singlestep;         /* the five feature bytes of KVMI_GET_VERSION; without this one message 14 gets EOPNOTSUPP */
    uint8_t vmfunc;
    uint8_t eptp;
    uint8_t ve;
    uint8_t spp;
    uint8_t descriptors;        /* descriptor events can be caught */
    uint8_t breakpoints_taken;  /* by the host, for itself: the tool gets EBUSY */
    uint8_t execute_only;       /* since 3: the processor has execute-only pages, access 4. Without it message 13 with access 4 gets
                                   EINVAL, and an image that holds it is answered 9. KVMI_GET_VERSION does not tell it */
    uint32_t revision;          /* since 7: of the protocol that the tool speaks, 1 or 2; with another no session begins: answer 7.
                                   KVMI_GET_VERSION reports it. In revision 2 message 13 is all or nothing
                                   (struct kvmi_vm_set_page_access), and all else is as in revision 1 */
};
SEMBLURICK_ASSERT(sizeof(struct semblurick_settings) == 40);
SEMBLURICK_ASSERT(offsetof(struct semblurick_settings, tsc_speed) == 16);
SEMBLURICK_ASSERT(offsetof(struct semblurick_settings, breakpoints_taken) == 30);
SEMBLURICK_ASSERT(offsetof(struct semblurick_settings, execute_only) == 31);
SEMBLURICK_ASSERT(offsetof(struct semblurick_settings, revision) == 32);

/* What every host's settings begin with, so that a setting which is added later breaks no build: one vCPU, one view, nothing allowed,
 * every feature and flag 0, revision 1.   struct semblurick_settings s = SEMBLURICK_SETTINGS;   then set by name what is to differ. A
 * capability that is added later is 0, too: what needs it is refused until a host sets it, even where an earlier version took it
 * (execute_only). Where settings are filled member by member without an initializer, one that nobody sets is whatever stands there:
 * execute_only is byte 31, padding before 3; and a revision that nobody sets is 0 in memory of zeros, which is answered 7. */
#define SEMBLURICK_SETTINGS {1, 1, 0, 0, 0, 0, 0, 0, 0, 0, 0, 0, 0, 1}

/* A set of commands or events: s.events = SEMBLURICK_BIT(KVMI_EVENT_CR) | SEMBLURICK_BIT(KVMI_EVENT_MSR); */
#define SEMBLURICK_BIT(number) (UINT32_C(1) << (number))
/* All of them; those that later versions add, too. */
#define SEMBLURICK_ALL UINT32_MAX

/* ---- memory that the host owns (since 1) */

/* A session, but for its tables. Its members are the calls' own: hosts read them by lookups. Memory of zeros is a closed session: a
 * host that forgets to begin is answered 2. */
struct semblurick_session {
    struct semblurick_settings settings;
    uint64_t vm_events;  /* bit e: event e is on for the VM */
    uint64_t pages;      /* page words in use */
    uint32_t opened;     /* 0: closed */
    uint32_t mode;       /* 0: commands are replied to; 1: they are not; else: not, and errors are told by events */
    uint32_t seq;        /* of the next event */
    uint64_t ready;      /* bit i: vCPU i is ready */
};
SEMBLURICK_ASSERT(sizeof(struct semblurick_session) == 80);
SEMBLURICK_ASSERT(offsetof(struct semblurick_session, vm_events) == 40);
SEMBLURICK_ASSERT(offsetof(struct semblurick_session, opened) == 56);
SEMBLURICK_ASSERT(offsetof(struct semblurick_session, seq) == 64);
SEMBLURICK_ASSERT(offsetof(struct semblurick_session, ready) == 72);

/* The vCPUs' records and MSR switches; anything may stand in them before a session begins. */
struct semblurick_vcpus {
    uint64_t words[SEMBLURICK_VCPU_WORDS];
};

/* The page records. */
struct semblurick_pages {
    uint64_t words[SEMBLURICK_PAGE_WORDS];
};

/* A guest's session and tables: what a host keeps for each guest. It has no pointers: it may be copied and moved between calls. */
struct semblurick {
    struct semblurick_session session;
    struct semblurick_vcpus vcpus;
    struct semblurick_pages pages;
};
SEMBLURICK_ASSERT(sizeof(struct semblurick) == 43088);

/* Where a call writes what goes to the tool or to a new host. */
struct semblurick_output {
    uint8_t *bytes;
    size_t size;
};

/* Where a batch lists its signals (since 4). */
struct semblurick_signals {
    uint32_t *codes;
    size_t size;  /* how many, not bytes */
};

/* The guest's physical memory, one run of bytes from address 0; a page of 4,096 bytes exists if it lies wholly inside. Only
 * KVMI_VM_READ_PHYSICAL and KVMI_VM_WRITE_PHYSICAL touch it, the bytes that they name and no others. The reply to a PF event (since 5; only
 * where a host offers one) touches none of it, but asks how long it is: its answer names bytes there, for the host to read, or is 12 since
 * the page is not inside. Any other message may be lent semblurick_no_memory(). No answer and no table depends on what stands in it: where
 * vCPUs or devices write to it while a call runs, the bytes that the tool reads or writes there may be torn, and nothing else. */
struct semblurick_memory {
    uint8_t *bytes;
    size_t size;
};

static inline struct semblurick_output semblurick_output_of(void *bytes, size_t size) {
    struct semblurick_output out = {SEMBLURICK_CAST(uint8_t *, bytes), size};
    return out;
}

static inline struct semblurick_signals semblurick_signals_of(uint32_t *codes, size_t size) {
    struct semblurick_signals signals = {codes, size};
    return signals;
}

static inline struct semblurick_memory semblurick_memory_of(void *bytes, size_t size) {
    struct semblurick_memory memory = {SEMBLURICK_CAST(uint8_t *, bytes), size};
    return memory;
}

static inline struct semblurick_memory semblurick_no_memory(void) {
    static uint8_t none; /* a pointer is never null */
    return semblurick_memory_of(&none, 0);
}

/* A page that stands below rwx. */
struct semblurick_page {
    uint64_t page;    /* its number: guest physical address / 4096 */
    uint32_t view;
    uint32_t access;  /* R 1, W 2, X 4; it is 4 only where the settings have execute_only */
};

/* ---- the library's functions, over a session and its tables apart (since 1). The calls and lookups below are made of them, and say
 * what each does; these are for hosts that keep the parts apart, and take the settings from the session. */

SEMBLURICK_CHECKED enum semblurick_answer semblurick_raw_fresh(struct semblurick_session *session, struct semblurick_vcpus *vcpus,
                                                               struct semblurick_pages *pages, struct semblurick_result *result);
SEMBLURICK_CHECKED enum semblurick_answer semblurick_raw_ready(struct semblurick_session *session, uint32_t vcpu,
                                                               struct semblurick_result *result);
SEMBLURICK_CHECKED enum semblurick_answer semblurick_raw_message(struct semblurick_session *session, struct semblurick_vcpus *vcpus,
                                                                 struct semblurick_pages *pages, const uint8_t *msg, size_t msg_size,
                                                                 uint8_t *out, size_t out_size, uint8_t *memory, size_t memory_size,
                                                                 struct semblurick_result *result);
/* since 4 */
SEMBLURICK_CHECKED enum semblurick_answer semblurick_raw_batch(struct semblurick_session *session, struct semblurick_vcpus *vcpus,
                                                               struct semblurick_pages *pages, const uint8_t *input, size_t input_size,
                                                               uint8_t *out, size_t out_size, uint32_t *signals, size_t signals_size,
                                                               uint8_t *memory, size_t memory_size,
                                                               struct semblurick_batch_result *result);
SEMBLURICK_CHECKED enum semblurick_answer semblurick_raw_enter(struct semblurick_session *session, struct semblurick_vcpus *vcpus,
                                                               const struct semblurick_pages *pages, uint32_t vcpu,
                                                               const uint8_t *state, size_t state_size, uint32_t event,
                                                               const uint8_t *own, size_t own_size, uint8_t *out, size_t out_size,
                                                               struct semblurick_result *result);
SEMBLURICK_CHECKED enum semblurick_answer semblurick_raw_image_read(struct semblurick_session *session,
                                                                    struct semblurick_vcpus *vcpus, struct semblurick_pages *pages,
                                                                    const uint8_t *image, size_t image_size,
                                                                    struct semblurick_result *result);
SEMBLURICK_CHECKED enum semblurick_answer semblurick_raw_image_write(const struct semblurick_session *session,
                                                                     const struct semblurick_vcpus *vcpus,
                                                                     const struct semblurick_pages *pages, uint8_t *out,
                                                                     size_t out_size, struct semblurick_result *result);
size_t semblurick_raw_image_size(const struct semblurick_session *session, const struct semblurick_vcpus *vcpus,
                                 const struct semblurick_pages *pages);

uint32_t semblurick_raw_is_open(const struct semblurick_session *session);
uint32_t semblurick_raw_is_ready(const struct semblurick_session *session, uint32_t vcpu);
uint32_t semblurick_raw_vm_event(const struct semblurick_session *session, uint32_t event);
uint32_t semblurick_raw_vcpu_event(const struct semblurick_session *session, const struct semblurick_vcpus *vcpus, uint32_t vcpu,
                                   uint32_t event);
uint32_t semblurick_raw_cr(const struct semblurick_session *session, const struct semblurick_vcpus *vcpus, uint32_t vcpu,
                           uint32_t cr);
uint32_t semblurick_raw_msr(const struct semblurick_session *session, const struct semblurick_vcpus *vcpus, uint32_t vcpu,
                            uint32_t msr);
uint32_t semblurick_raw_singlestep(const struct semblurick_session *session, const struct semblurick_vcpus *vcpus, uint32_t vcpu);
uint64_t semblurick_raw_pauses(const struct semblurick_session *session, const struct semblurick_vcpus *vcpus, uint32_t vcpu);
uint64_t semblurick_raw_awaited(const struct semblurick_session *session, const struct semblurick_vcpus *vcpus, uint32_t vcpu);
size_t semblurick_raw_page_count(const struct semblurick_session *session);
uint32_t semblurick_raw_access(const struct semblurick_session *session, const struct semblurick_pages *pages, uint32_t view,
                               uint64_t page);
/* writes view, page and access, and gives the access */
uint32_t semblurick_raw_page_at(const struct semblurick_session *session, const struct semblurick_pages *pages, size_t i,
                                uint64_t page[3]);

/* ---- calls (since 1) */

/* Begins a session: every switch off, no vCPU ready, no pause queued, every page at rwx, replies on, the next event's seq 0. What
 * stood in *guest does not matter. Answers 7 (a count of the settings or, since 7, their revision is out of its range; the session is then
 * a closed one), or 0. */
SEMBLURICK_CHECKED static inline enum semblurick_answer semblurick_fresh(struct semblurick *guest,
                                                                         const struct semblurick_settings *settings) {
    struct semblurick_result nothing;
    guest->session.settings = *settings;
    return semblurick_raw_fresh(&guest->session, &guest->vcpus, &guest->pages, &nothing);
}

/* Marks a vCPU ready: until then the tool's commands that name it get EAGAIN. Answers 2, 4, tested in this order, or 0. */
SEMBLURICK_CHECKED static inline enum semblurick_answer semblurick_ready(struct semblurick *guest, uint32_t vcpu) {
    struct semblurick_result nothing;
    return semblurick_raw_ready(&guest->session, vcpu, &nothing);
}

/* Takes one message of the tool: an 8-byte header (struct kvmi_msg_hdr) and as many bytes as it states. The output takes at least
 * SEMBLURICK_MESSAGE_OUT bytes. Answers 2, 3, tested in this order, or
 *   0: the first result->count bytes of the output, if any, go to the tool: a reply, or an event where the tool turned replies off
 *      but for errors. A command that fails is answered 0, too: its reply has the error, or, with replies off, an event where the tool
 *      asked for one; it changed nothing (but that in revision 1 of message 13 with ENOMEM the entries that had room are applied). See
 *      result->signal, and where it resumes a vCPU from a PF semblurick_fed.
 *   1: the message is cut, has a size that its id has not, or breaks another rule that closes. The session is closed, its tables
 *      are empty, nothing was written.
 *   12, since 5: as 0 with result->count 0 and a resume, from a PF. The vCPU is to be fed from a page that the guest memory which was
 *      lent has not, and so there are no bytes: see semblurick_enter_event.
 *
 * Since 6, for the log of a host that is asked about an EINVAL: where a command fails since its padding is not all 0, result->padding is
 * the offset in the message, its header included, of the first byte of it that is not. It is told with replies off, too, when nothing
 * goes to the tool; and beside any other cause of EINVAL, which may be left once the padding is put right. It is 0
 *   - where all padding is 0, so that an EINVAL has another cause; with any other error, therefore, and with none;
 *   - where padding was not looked at: of an id that is unknown (ENOSYS) or not allowed (EPERM), and with every answer but 0;
 *   - of KVMI_EVENT_REPLY, which closes the session (answer 1) where its padding is not all 0.
 * The padding of message 13's entries is looked at only where the message has as many of them as its count says. */
SEMBLURICK_CHECKED static inline enum semblurick_answer semblurick_message(struct semblurick *guest, const void *msg, size_t msg_size,
                                                                           struct semblurick_output out,
                                                                           struct semblurick_memory memory,
                                                                           struct semblurick_result *result) {
    return semblurick_raw_message(&guest->session, &guest->vcpus, &guest->pages, SEMBLURICK_CAST(const uint8_t *, msg), msg_size,
                                  out.bytes, out.size, memory.bytes, memory.size, result);
}

/* Since 4. Takes several messages of the tool that stand end to end, as one write of it may have them: replies off, a hundred pages
 * guarded, replies on. Session, tables and the bytes of guest memory are then as if semblurick_message had taken the used messages one
 * by one; what they wrote stands end to end in the output, what they signalled in the list, in their order. The output takes at least
 * SEMBLURICK_MESSAGE_OUT bytes, the list one place. So much has to be left before each message: an output with 16 bytes more for each
 * small command that is replied to, and a list of 16 places or so, do for most.
 *
 * A guest that runs meanwhile is not as after single messages: KVMI_VM_READ_PHYSICAL and KVMI_VM_WRITE_PHYSICAL, 6 and 7, read and
 * write its memory during the call, before a guard of this batch is in hardware and before a vCPU that it kicks is out of the guest. A
 * tool may count on either in one write: guard a page, then read it; pause a vCPU with wait, then write its code. So, unless the vCPUs
 * stand still until the batch is followed, a host cuts what it hands over before each message 6 or 7 that stands behind others: that
 * one begins a call of its own, after those before it are followed (examples/batch.c). A list of one place ends a batch behind each
 * kick, but not behind a guard.
 *
 * A message is its header and as many bytes as its size field says. Where fewer are left the last one is incomplete, and closes the
 * session. So a host must not hand over a cut tail unless the stream has ended: of what it has read it hands over the whole messages,
 * and keeps the rest until more has come.
 *
 * Answers 2, 3, 11, tested in this order, for an empty input too: nothing is used, and nothing changes. Else one message after the
 * other is taken, until
 *   - the input is used up: answer 0;
 *   - a message closes the session: answer 1. It is used, and the bytes behind it are not. What those before it wrote and signalled
 *     stays, and is counted;
 *   - a message resumes a vCPU from an event: answer 0, with result->signal SEMBLURICK_RESUME, vcpu, action and value, and since 5, from
 *     a PF, source, at and length; or answer 12, likewise, where semblurick_message answers that message so. It is used, and takes no
 *     place in the list. The resume is followed before the rest is handed over;
 *   - before a message, whatever it would write or signal, less than SEMBLURICK_MESSAGE_OUT bytes of the output or no place of the list
 *     are left: answer 0.
 * With answer 0 or 12 and result->used below input_size, call again with the rest, once this is done with. A batch that is not refused
 * and has input always uses one message at least, so that the calls come to an end.
 *
 * Kicks and crashes are listed, result->listed of them, and do not end it; semblurick_listed_signal, _vcpu and _wait read one. What a
 * host does, in this order:
 *   - the switches and pages that the used messages name, by lookups, to hardware. Answer 1: every guard off the guest;
 *   - what is listed: every vCPU that is kicked with wait is out of the guest before any of the bytes are sent;
 *   - the first result->count bytes of the output to the tool. Answer 1: then the connection ends;
 *   - last the resume, if there is one: a vCPU that goes on may write its next event, into the same output for one. From a PF it goes on
 *     with the bytes that semblurick_batch_fed gives, a part of the input or of guest memory: the input is not overwritten before. From
 *     a pause a vCPU goes on without a signal: those that wait ask again by semblurick_enter. Answer 1: all that wait go on, with
 *     whatever event, as if there were no tool (semblurick_awaited tells which they are before the call, and of none after it).
 * A vCPU that is to be crashed is not let into the guest any more. Past these counts output and list are untouched; refused, all of
 * both is.
 *
 * A batch tells no padding byte (since 6, result->padding of semblurick_message): a host that wants it takes the messages one by one, each by
 * semblurick_message. A message that a batch has used is not handed over again: its error would go to the tool twice. */
SEMBLURICK_CHECKED static inline enum semblurick_answer semblurick_batch(struct semblurick *guest, const void *input, size_t input_size,
                                                                         struct semblurick_output out,
                                                                         struct semblurick_signals signals,
                                                                         struct semblurick_memory memory,
                                                                         struct semblurick_batch_result *result) {
    return semblurick_raw_batch(&guest->session, &guest->vcpus, &guest->pages, SEMBLURICK_CAST(const uint8_t *, input), input_size,
                                out.bytes, out.size, signals.codes, signals.size, memory.bytes, memory.size, result);
}

/* Since 5. What the instruction of a vCPU reads that is resumed from a PF (semblurick_enter_event): result->length bytes of the message or
 * of guest memory, as they were lent, and so to be read before the host uses the message's buffer again. Null where there are none. */
static inline const uint8_t *semblurick_fed(const void *msg, struct semblurick_memory memory, const struct semblurick_result *result) {
    switch (result->source) {
    case SEMBLURICK_FED_MESSAGE: return SEMBLURICK_CAST(const uint8_t *, msg) + result->at;
    case SEMBLURICK_FED_GUEST: return memory.bytes + result->at;
    default: return SEMBLURICK_CAST(const uint8_t *, 0);
    }
}

/* The same after a batch, of its input. */
static inline const uint8_t *semblurick_batch_fed(const void *input, struct semblurick_memory memory,
                                                  const struct semblurick_batch_result *result) {
    switch (result->source) {
    case SEMBLURICK_FED_MESSAGE: return SEMBLURICK_CAST(const uint8_t *, input) + result->at;
    case SEMBLURICK_FED_GUEST: return memory.bytes + result->at;
    default: return SEMBLURICK_CAST(const uint8_t *, 0);
    }
}

/* Since 4. Of a number in a batch's list: SEMBLURICK_KICK or SEMBLURICK_CRASH; of any other number SEMBLURICK_NONE. */
static inline enum semblurick_signal semblurick_listed_signal(uint32_t code) {
    if (code - SEMBLURICK_LISTED_KICK < 2 * SEMBLURICK_MAX_VCPUS) return SEMBLURICK_KICK;
    if (code - SEMBLURICK_LISTED_CRASH < SEMBLURICK_MAX_VCPUS) return SEMBLURICK_CRASH;
    return SEMBLURICK_NONE;
}

/* Its vCPU; of a number that is none, 0. */
static inline uint32_t semblurick_listed_vcpu(uint32_t code) {
    switch (semblurick_listed_signal(code)) {
    case SEMBLURICK_KICK: return (code - SEMBLURICK_LISTED_KICK) / 2;
    case SEMBLURICK_CRASH: return code - SEMBLURICK_LISTED_CRASH;
    default: return 0;
    }
}

/* Of a kick: the vCPU is out of the guest before anything more is sent. */
static inline bool semblurick_listed_wait(uint32_t code) {
    return semblurick_listed_signal(code) == SEMBLURICK_KICK && code % 2 == 1;
}

/* To be called before a vCPU enters the guest, with its register block (enum semblurick_state). The output takes at least
 * SEMBLURICK_ENTRY_OUT bytes. Answer 0 with result->count 0: it may run. With bytes: they are its pause event, to be sent to the
 * tool, and the vCPU waits. It may call again after each message: answer 6 says that the tool's reply is still awaited, answer 2
 * that the session closed and nothing is awaited any more. Answers 2, 4, 5, 3, 6, tested in this order, or 0. */
SEMBLURICK_CHECKED static inline enum semblurick_answer semblurick_enter(struct semblurick *guest, uint32_t vcpu, const void *state,
                                                                         size_t state_size, struct semblurick_output out,
                                                                         struct semblurick_result *result) {
    const uint8_t *block = SEMBLURICK_CAST(const uint8_t *, state);
    return semblurick_raw_enter(&guest->session, &guest->vcpus, &guest->pages, vcpu, block, state_size, 0, block, 0, out.bytes, out.size,
                                result);
}

/* Since 2. To be called in place of semblurick_enter, with register block and output as there, for a vCPU that left the guest for
 * what the tool may watch, before the host carries that out: offers it as an event, by its number and by the own bytes that it has
 * behind the register block. They go out as they are lent; `own` may be null where own_size is 0. After it has offered, the vCPU asks
 * again by semblurick_enter.
 *
 *     KVMI_EVENT_..    own bytes                          once the tool continues, the host
 *     3 HYPERCALL      none                               lets the hypercall return
 *     4 BREAKPOINT     struct kvmi_event_breakpoint, 16   injects the exception, which the guest handles
 *     5 CR             struct kvmi_event_cr, 24           loads result->value into the register
 *     7 XSETBV         none                               carries it out
 *     8 DESCRIPTOR     struct kvmi_event_descriptor, 8    carries it out
 *     9 MSR            struct kvmi_event_msr, 24          loads result->value into the register
 *     10 PF, since 5   struct kvmi_event_pf, 24           carries the access out despite the guard; a read is fed, see below
 *     11 SINGLESTEP    struct kvmi_event_singlestep, 8    lets the vCPU run on
 *     12 CREATE_VCPU   none                               lets the new vCPU run, ready or not
 *     14 CPUID         struct kvmi_event_cpuid, 16        carries it out
 *
 * An event is on where its switch is: the vCPU's, of CREATE_VCPU the VM's, and of CR and MSR also that of the register which the own
 * bytes name. A PF is on where the vCPU's switch is and the page gpa / 4096 stands below rwx in the view that the own bytes name: for
 * whatever access, and whether guest memory has that page or not; a view that the session has not has no such page. Exactly then an event
 * is written, to be sent to the tool, and the vCPU waits until semblurick_message signals SEMBLURICK_RESUME for it, or SEMBLURICK_CRASH.
 * Resumed with action 0 it does what the table says; with 1 (retry, of BREAKPOINT, DESCRIPTOR and PF only) it does nothing of it; after
 * a PF the instruction is then executed again, and faults or not by the page's rights of that time. Either way it then calls
 * semblurick_enter before it runs. While it waits, and then, it does not offer the same event again: that would be another one. Where the
 * session closes no signal comes, and a closed session answers 2: the vCPU goes on as if the event had been off.
 *
 * Of a PF, since 5, once the tool continues:
 *   - the guest reads (the access that was offered has KVMI_PAGE_ACCESS_R): semblurick_fed gives the bytes that the instruction reads, from
 *     the address that faulted on. Where gva is known, so not all ones, and in [ctx_addr, ctx_addr + ctx_size) of the tool's reply, which
 *     does not wrap, they are what the tool supplied, from gva to the end of that range: the guest does not see what stands in memory.
 *     Else they are those of the guest page, from gpa to its end. The instruction takes as many of them as it reads. One that reads more,
 *     past the range or the page, finds nothing here: the host reads the rest as at any other address, which may be guarded, too.
 *   - answer 12: they would be those of the guest page, but that does not lie wholly inside the memory which was lent with the reply. The
 *     host feeds the instruction by its own means, as if there were no tool: from a device, for one.
 *   - the guest does not read, but writes or fetches: there are no bytes, and the guest page is not asked for.
 *   - result->value is the reply's rep_complete, which a retry has as well. 1: an instruction with a REP prefix is carried out just once,
 *     or at least no other PF is offered for it (kvmi.rst).
 *
 * An event that is off is passed over: the host carries out at once what it was about, as if there were no tool. A queued pause goes
 * instead, with the register block that was lent, from before that operation; else result->count is 0. semblurick_awaited tells which
 * event was written, and so does byte 12 of the output (struct kvmi_event).
 *
 * Number 0 offers nothing and has no own bytes. Any other number, and own bytes of another size, are answered 5, on or off. Answers
 * 2, 4, 5, 3, 6, tested in this order, or 0. */
SEMBLURICK_CHECKED static inline enum semblurick_answer semblurick_enter_event(struct semblurick *guest, uint32_t vcpu,
                                                                               const void *state, size_t state_size, uint32_t event,
                                                                               const void *own, size_t own_size,
                                                                               struct semblurick_output out,
                                                                               struct semblurick_result *result) {
    return semblurick_raw_enter(&guest->session, &guest->vcpus, &guest->pages, vcpu, SEMBLURICK_CAST(const uint8_t *, state), state_size,
                                event, SEMBLURICK_CAST(const uint8_t *, own_size ? own : state), own_size, out.bytes, out.size, result);
}

/* How many bytes the image of a session has, closed or busy as it may be; at most SEMBLURICK_IMAGE_MAX. */
static inline size_t semblurick_image_size(const struct semblurick *guest) {
    return semblurick_raw_image_size(&guest->session, &guest->vcpus, &guest->pages);
}

/* Writes the image of a session, for a new host: ready marks, switches, queued pauses and pages below rwx. Equal tables have equal
 * images. Settings, reply mode and the events' seq are not in it. Answers 2, 10, 3, tested in this order, or 0 with result->count.
 *
 * An image is records without gaps, numbers little-endian, each behind two ASCII letters: VM (u16 version 1, u16 vCPU count, u16 VM
 * event bits); VC for each vCPU (u16 vCPU, u8 1 ready + 2 singlestep, u8 1 CR0 + 2 CR3 + 4 CR4, u16 event bits, u8 pauses, u8 0); MS
 * for each MSR switch on (u16 vCPU, u32 MSR); PA for each page below rwx (u16 view, u8 access, u8 0, u64 page); EN (u32 count of the
 * records before it). They ascend: VC by vCPU, MS by vCPU, then MSR, PA by view, then page. */
SEMBLURICK_CHECKED static inline enum semblurick_answer semblurick_image_write(const struct semblurick *guest,
                                                                               struct semblurick_output out,
                                                                               struct semblurick_result *result) {
    return semblurick_raw_image_write(&guest->session, &guest->vcpus, &guest->pages, out.bytes, out.size, result);
}

/* Begins a session as an image states, replies on, the next event's seq 0. Answers 7, or 8 or 9 for the first record that calls for
 * one, at result->offset, or 0. Refused, no word of the tables changes, and the session is a closed one. Since 3: a PA with access 4
 * is answered 9 where the settings lack execute_only. An image has no revision: it is that of the settings. */
SEMBLURICK_CHECKED static inline enum semblurick_answer semblurick_image_read(struct semblurick *guest,
                                                                              const struct semblurick_settings *settings,
                                                                              const void *image, size_t image_size,
                                                                              struct semblurick_result *result) {
    guest->session.settings = *settings;
    return semblurick_raw_image_read(&guest->session, &guest->vcpus, &guest->pages, SEMBLURICK_CAST(const uint8_t *, image),
                                     image_size, result);
}

/* ---- lookups (since 1): what stands, for the host to program. They change nothing and refuse nothing: any number is taken. A vCPU
 * that the session has not has every switch off; where a call closed the session, or refused to begin one, all are off, and every
 * page is at rwx. Each takes a constant time, but for semblurick_access, which bisects. After a message a host asks for what the
 * message named, after an image for all. */

static inline bool semblurick_is_open(const struct semblurick *guest) {
    return semblurick_raw_is_open(&guest->session) != 0;
}

static inline bool semblurick_is_ready(const struct semblurick *guest, uint32_t vcpu) {
    return semblurick_raw_is_ready(&guest->session, vcpu) != 0;
}

/* Is an event on for the VM (KVMI_VM_CONTROL_EVENTS)? */
static inline bool semblurick_vm_event(const struct semblurick *guest, uint32_t event) {
    return semblurick_raw_vm_event(&guest->session, event) != 0;
}

/* Is an event on for a vCPU (KVMI_VCPU_CONTROL_EVENTS)? */
static inline bool semblurick_vcpu_event(const struct semblurick *guest, uint32_t vcpu, uint32_t event) {
    return semblurick_raw_vcpu_event(&guest->session, &guest->vcpus, vcpu, event) != 0;
}

/* Is a control register watched: 0, 3 or 4? No other has a switch. */
static inline bool semblurick_cr(const struct semblurick *guest, uint32_t vcpu, uint32_t cr) {
    return semblurick_raw_cr(&guest->session, &guest->vcpus, vcpu, cr) != 0;
}

/* Is an MSR watched: 0 to 0x1FFF or 0xC0000000 to 0xC0001FFF? No other has a switch. */
static inline bool semblurick_msr(const struct semblurick *guest, uint32_t vcpu, uint32_t msr) {
    return semblurick_raw_msr(&guest->session, &guest->vcpus, vcpu, msr) != 0;
}

static inline bool semblurick_singlestep(const struct semblurick *guest, uint32_t vcpu) {
    return semblurick_raw_singlestep(&guest->session, &guest->vcpus, vcpu) != 0;
}

/* How many pauses are queued for a vCPU: 0 to 8. */
static inline uint64_t semblurick_pauses(const struct semblurick *guest, uint32_t vcpu) {
    return semblurick_raw_pauses(&guest->session, &guest->vcpus, vcpu);
}

/* The event whose reply a vCPU awaits, or 0. */
static inline uint64_t semblurick_awaited(const struct semblurick *guest, uint32_t vcpu) {
    return semblurick_raw_awaited(&guest->session, &guest->vcpus, vcpu);
}

/* What a view allows of a page, by its number (address / 4096): R 1, W 2, X 4. It is 7 where nothing is said of the page, and 4 only
 * where the settings have execute_only. */
static inline uint32_t semblurick_access(const struct semblurick *guest, uint32_t view, uint64_t page) {
    return semblurick_raw_access(&guest->session, &guest->pages, view, page);
}

/* How many pages stand below rwx, and the i-th of them, by view and then by number; from the count on: page 0 of view 0, access 7. */
static inline size_t semblurick_page_count(const struct semblurick *guest) {
    return semblurick_raw_page_count(&guest->session);
}

static inline struct semblurick_page semblurick_page_at(const struct semblurick *guest, size_t i) {
    uint64_t words[3];
    struct semblurick_page page;
    page.access = semblurick_raw_page_at(&guest->session, &guest->pages, i, words);
    page.view = SEMBLURICK_CAST(uint32_t, words[0]);
    page.page = words[1];
    return page;
}

/* ---- vCPU records that a host keeps in a list of its own (since 1), apart from any session: two rules of a session, on them. A
 * record of zeros is a vCPU that is not ready; a flag is set where it is not 0. */

struct semblurick_vcpu {
    uint64_t ready;
    uint64_t singlestep;
    uint64_t crs;     /* bits 0, 1 and 2: CR0, CR3 and CR4 are watched */
    uint64_t events;  /* bit e: event e is on */
    uint64_t pauses;  /* queued */
    uint64_t awaited; /* the event whose reply is awaited, or 0, and its seq */
    uint64_t awaited_seq;
};
SEMBLURICK_ASSERT(sizeof(struct semblurick_vcpu) == 56);

/* Marks record `index` ready, by a 1. Answers 4 (index at or past count), or 0. */
SEMBLURICK_CHECKED enum semblurick_answer semblurick_list_ready(struct semblurick_vcpu *vcpus, size_t count, size_t index);

/* Sets a CR switch of record `index`, on where `on` is not 0. Answers 4, 14 (cr not 0, 3 or 4, or the record is not ready), tested
 * in this order, or 0. No other record and no other switch changes. */
SEMBLURICK_CHECKED enum semblurick_answer semblurick_list_cr(struct semblurick_vcpu *vcpus, size_t count, size_t index, uint32_t cr,
                                                             uint32_t on);

/* ---- texts (since 1), for logs */

/* Of an answer. */
static inline const char *semblurick_answer_text(uint32_t answer) {
    switch (answer) {
    case SEMBLURICK_HANDLED: return "handled";
    case SEMBLURICK_CLOSING: return "closing";
    case SEMBLURICK_CLOSED: return "closed";
    case SEMBLURICK_SHORT_OUT: return "short output";
    case SEMBLURICK_BAD_VCPU: return "bad vCPU";
    case SEMBLURICK_BAD_STATE: return "bad state block or event";
    case SEMBLURICK_WAITING: return "waiting";
    case SEMBLURICK_BAD_SETTINGS: return "bad settings";
    case SEMBLURICK_BAD_FORM: return "bad form";
    case SEMBLURICK_FORBIDDEN: return "forbidden";
    case SEMBLURICK_BUSY: return "busy";
    case SEMBLURICK_NO_PLACE: return "no place for signals";
    case SEMBLURICK_NO_PAGE: return "no guest page";
    case SEMBLURICK_NOT_APPLICABLE: return "not applicable";
    default: return "unknown answer";
    }
}

/* Of a result's signal. */
static inline const char *semblurick_signal_text(uint64_t signal) {
    switch (signal) {
    case SEMBLURICK_NONE: return "none";
    case SEMBLURICK_KICK: return "kick";
    case SEMBLURICK_CRASH: return "crash";
    case SEMBLURICK_RESUME: return "resume";
    default: return "unknown signal";
    }
}

/* Of an error as it stands in a reply or in a CMD_ERROR event, 0 or below. */
static inline const char *semblurick_error_text(int32_t err) {
    switch (err) {
    case 0: return "no error";
    case -1: return "EPERM: not allowed";
    case -2: return "ENOENT: no such page";
    case -11: return "EAGAIN: the vCPU is not ready";
    case -12: return "ENOMEM: no room for a page";
    case -16: return "EBUSY: taken by the host, or too many pauses";
    case -22: return "EINVAL: a field is out of its range";
    case -95: return "EOPNOTSUPP: not supported here";
    case -1000: return "ENOSYS: unknown message";
    default: return "unknown error";
    }
}

/* ---- a vCPU's register block (since 1): 536 bytes, numbers little-endian, which an event carries as they are lent to
 * semblurick_enter: mode, then Linux's struct kvm_regs and struct kvm_sregs, then nine MSRs. Each name is an offset. */

enum semblurick_state {
    SEMBLURICK_STATE_MODE = 0,   /* u8, the vCPU's mode in bytes: 2, 4 or 8; then 7 zeros */
    SEMBLURICK_STATE_REGS = 8,   /* struct kvm_regs, 144 bytes: 18 u64 */
    SEMBLURICK_STATE_RAX = 8,
    SEMBLURICK_STATE_RBX = 16,
    SEMBLURICK_STATE_RCX = 24,
    SEMBLURICK_STATE_RDX = 32,
    SEMBLURICK_STATE_RSI = 40,
    SEMBLURICK_STATE_RDI = 48,
    SEMBLURICK_STATE_RSP = 56,
    SEMBLURICK_STATE_RBP = 64,
    SEMBLURICK_STATE_R8 = 72,    /* r8 to r15, 8 bytes each */
    SEMBLURICK_STATE_R15 = 128,
    SEMBLURICK_STATE_RIP = 136,
    SEMBLURICK_STATE_RFLAGS = 144,
    SEMBLURICK_STATE_SREGS = 152, /* struct kvm_sregs, 312 bytes */
    SEMBLURICK_STATE_CS = 152,   /* eight segments of 24 bytes: u64 base, u32 limit, u16 selector, u8 type, present, dpl, db, s, l, */
    SEMBLURICK_STATE_DS = 176,   /*     g, avl, unusable, 0 */
    SEMBLURICK_STATE_ES = 200,
    SEMBLURICK_STATE_FS = 224,
    SEMBLURICK_STATE_GS = 248,
    SEMBLURICK_STATE_SS = 272,
    SEMBLURICK_STATE_TR = 296,
    SEMBLURICK_STATE_LDT = 320,
    SEMBLURICK_STATE_GDT = 344,  /* two tables of 16 bytes: u64 base, u16 limit, 6 zeros */
    SEMBLURICK_STATE_IDT = 360,
    SEMBLURICK_STATE_CR0 = 376,  /* seven u64 */
    SEMBLURICK_STATE_CR2 = 384,
    SEMBLURICK_STATE_CR3 = 392,
    SEMBLURICK_STATE_CR4 = 400,
    SEMBLURICK_STATE_CR8 = 408,
    SEMBLURICK_STATE_EFER = 416,
    SEMBLURICK_STATE_APIC_BASE = 424,
    SEMBLURICK_STATE_INTERRUPT_BITMAP = 432, /* four u64 */
    SEMBLURICK_STATE_MSRS = 464, /* nine u64 */
    SEMBLURICK_STATE_MSR_SYSENTER_CS = 464,
    SEMBLURICK_STATE_MSR_SYSENTER_ESP = 472,
    SEMBLURICK_STATE_MSR_SYSENTER_EIP = 480,
    SEMBLURICK_STATE_MSR_EFER = 488,
    SEMBLURICK_STATE_MSR_STAR = 496,
    SEMBLURICK_STATE_MSR_LSTAR = 504,
    SEMBLURICK_STATE_MSR_CSTAR = 512,
    SEMBLURICK_STATE_MSR_PAT = 520,
    SEMBLURICK_STATE_MSR_SHADOW_GS = 528,
    SEMBLURICK_STATE_END = 536
};
SEMBLURICK_ASSERT(SEMBLURICK_STATE_END == 0 + SEMBLURICK_STATE_BYTES);

/* ---- KVMI's names, numbers and wire structs (since 1) */

#ifndef SEMBLURICK_NO_KVMI_NAMES

/* The messages of the tool, and of the events that go to it the one id that they share. */
enum kvmi_message {
    KVMI_GET_VERSION = 1,
    KVMI_VM_CHECK_COMMAND = 2,
    KVMI_VM_CHECK_EVENT = 3,
    KVMI_VM_GET_INFO = 4,
    KVMI_VM_CONTROL_EVENTS = 5,
    KVMI_VM_READ_PHYSICAL = 6,
    KVMI_VM_WRITE_PHYSICAL = 7,
    KVMI_VCPU_GET_INFO = 8,
    KVMI_VCPU_PAUSE = 9,
    KVMI_VCPU_CONTROL_EVENTS = 10,
    KVMI_VCPU_CONTROL_CR = 11,
    KVMI_VCPU_CONTROL_MSR = 12,
    KVMI_VM_SET_PAGE_ACCESS = 13,
    KVMI_VCPU_CONTROL_SINGLESTEP = 14,
    KVMI_VM_CONTROL_CMD_RESPONSE = 15,
    KVMI_EVENT_REPLY = 16,
    KVMI_EVENT = 17
};

enum kvmi_event_id {
    KVMI_EVENT_UNHOOK = 1,
    KVMI_EVENT_PAUSE_VCPU = 2,
    KVMI_EVENT_HYPERCALL = 3,
    KVMI_EVENT_BREAKPOINT = 4,
    KVMI_EVENT_CR = 5,
    KVMI_EVENT_TRAP = 6,
    KVMI_EVENT_XSETBV = 7,
    KVMI_EVENT_DESCRIPTOR = 8,
    KVMI_EVENT_MSR = 9,
    KVMI_EVENT_PF = 10,
    KVMI_EVENT_SINGLESTEP = 11,
    KVMI_EVENT_CREATE_VCPU = 12,
    KVMI_EVENT_CMD_ERROR = 13,
    KVMI_EVENT_CPUID = 14
};

/* Of an event reply. Every event takes the first and the last, BREAKPOINT, DESCRIPTOR and, since 5, PF the second too; another action
 * closes the session. */
enum kvmi_action { KVMI_EVENT_ACTION_CONTINUE = 0, KVMI_EVENT_ACTION_RETRY = 1, KVMI_EVENT_ACTION_CRASH = 2 };

enum kvmi_page_access { KVMI_PAGE_ACCESS_R = 1, KVMI_PAGE_ACCESS_W = 2, KVMI_PAGE_ACCESS_X = 4 };

/* The errors of replies: Linux's numbers but for the last, negated in a reply. */
enum kvmi_error {
    KVMI_EPERM = 1,
    KVMI_ENOENT = 2,
    KVMI_EAGAIN = 11,
    KVMI_ENOMEM = 12,
    KVMI_EBUSY = 16,
    KVMI_EINVAL = 22,
    KVMI_EOPNOTSUPP = 95,
    KVMI_ENOSYS = 1000
};

/* What goes over the wire, little-endian; every padding is 0: a command in which it is not gets EINVAL, and since 6 semblurick_message
 * tells which byte it was. A buffer of bytes is read and filled by memcpy, which asks for no alignment. What a struct is followed by is
 * said at its end. */

/* Every message: then `size` bytes. A reply has its command's id and seq. */
struct kvmi_msg_hdr {
    uint16_t id;  /* enum kvmi_message */
    uint16_t size;
    uint32_t seq;
};
SEMBLURICK_ASSERT(sizeof(struct kvmi_msg_hdr) == 8 && offsetof(struct kvmi_msg_hdr, seq) == 4);

/* Behind the header of each message that names a vCPU: 8 to 12, 14 and 16. */
struct kvmi_vcpu_hdr {
    uint16_t vcpu;
    uint16_t padding1;
    uint32_t padding2;
};
SEMBLURICK_ASSERT(sizeof(struct kvmi_vcpu_hdr) == 8 && offsetof(struct kvmi_vcpu_hdr, padding2) == 4);

/* Behind the header of each reply; then the command's reply data, if err is 0. */
struct kvmi_error_code {
    int32_t err;  /* 0, or an enum kvmi_error negated */
    uint32_t padding;
};
SEMBLURICK_ASSERT(sizeof(struct kvmi_error_code) == 8);

/* 1 KVMI_GET_VERSION: no data. */
struct kvmi_features {
    uint8_t singlestep;
    uint8_t vmfunc;
    uint8_t eptp;
    uint8_t ve;
    uint8_t spp;
    uint8_t padding[3];
};
struct kvmi_get_version_reply {
    uint32_t version;  /* the settings' revision: 1 or, since 7, 2 */
    uint32_t padding;
    struct kvmi_features features;
};
SEMBLURICK_ASSERT(sizeof(struct kvmi_features) == 8);
SEMBLURICK_ASSERT(sizeof(struct kvmi_get_version_reply) == 16 && offsetof(struct kvmi_get_version_reply, features) == 8);

/* 2 KVMI_VM_CHECK_COMMAND: is a command allowed? */
struct kvmi_vm_check_command {
    uint16_t id;
    uint16_t padding1;
    uint32_t padding2;
};
SEMBLURICK_ASSERT(sizeof(struct kvmi_vm_check_command) == 8 && offsetof(struct kvmi_vm_check_command, padding2) == 4);

/* 3 KVMI_VM_CHECK_EVENT: is an event allowed? */
struct kvmi_vm_check_event {
    uint16_t id;
    uint16_t padding1;
    uint32_t padding2;
};
SEMBLURICK_ASSERT(sizeof(struct kvmi_vm_check_event) == 8 && offsetof(struct kvmi_vm_check_event, padding2) == 4);

/* 4 KVMI_VM_GET_INFO: no data. */
struct kvmi_vm_get_info_reply {
    uint32_t vcpu_count;
    uint32_t padding[3];
};
SEMBLURICK_ASSERT(sizeof(struct kvmi_vm_get_info_reply) == 16);

/* 5 KVMI_VM_CONTROL_EVENTS: events 1 and 12. */
struct kvmi_vm_control_events {
    uint16_t event_id;
    uint8_t enable;
    uint8_t padding1;
    uint32_t padding2;
};
SEMBLURICK_ASSERT(sizeof(struct kvmi_vm_control_events) == 8 && offsetof(struct kvmi_vm_control_events, enable) == 2);

/* 6 KVMI_VM_READ_PHYSICAL: 1 to 4,096 bytes inside a page. The reply's data are these bytes. */
struct kvmi_vm_read_physical {
    uint64_t gpa;
    uint64_t size;
};
SEMBLURICK_ASSERT(sizeof(struct kvmi_vm_read_physical) == 16 && offsetof(struct kvmi_vm_read_physical, size) == 8);

/* 7 KVMI_VM_WRITE_PHYSICAL: likewise; then the bytes to write. */
struct kvmi_vm_write_physical {
    uint64_t gpa;
    uint64_t size;
};
SEMBLURICK_ASSERT(sizeof(struct kvmi_vm_write_physical) == 16 && offsetof(struct kvmi_vm_write_physical, size) == 8);

/* 8 KVMI_VCPU_GET_INFO: struct kvmi_vcpu_hdr alone. */
struct kvmi_vcpu_get_info_reply {
    uint64_t tsc_speed;
};
SEMBLURICK_ASSERT(sizeof(struct kvmi_vcpu_get_info_reply) == 8);

/* 9 KVMI_VCPU_PAUSE, behind struct kvmi_vcpu_hdr. */
struct kvmi_vcpu_pause {
    uint8_t wait;  /* 1: the vCPU is out of the guest before the reply, or, with replies off, anything more is sent */
    uint8_t padding1;
    uint16_t padding2;
    uint32_t padding3;
};
SEMBLURICK_ASSERT(sizeof(struct kvmi_vcpu_pause) == 8 && offsetof(struct kvmi_vcpu_pause, padding3) == 4);

/* 10 KVMI_VCPU_CONTROL_EVENTS, behind struct kvmi_vcpu_hdr: events 3, 4, 5, 7 to 11 and 14. */
struct kvmi_vcpu_control_events {
    uint16_t event_id;
    uint8_t enable;
    uint8_t padding1;
    uint32_t padding2;
};
SEMBLURICK_ASSERT(sizeof(struct kvmi_vcpu_control_events) == 8 && offsetof(struct kvmi_vcpu_control_events, enable) == 2);

/* 11 KVMI_VCPU_CONTROL_CR, behind struct kvmi_vcpu_hdr. */
struct kvmi_vcpu_control_cr {
    uint8_t enable;
    uint8_t padding1;
    uint16_t padding2;
    uint32_t cr;  /* 0, 3 or 4 */
};
SEMBLURICK_ASSERT(sizeof(struct kvmi_vcpu_control_cr) == 8 && offsetof(struct kvmi_vcpu_control_cr, cr) == 4);

/* 12 KVMI_VCPU_CONTROL_MSR, behind struct kvmi_vcpu_hdr. */
struct kvmi_vcpu_control_msr {
    uint8_t enable;
    uint8_t padding1;
    uint16_t padding2;
    uint32_t msr;  /* 0 to 0x1FFF, or 0xC0000000 to 0xC0001FFF */
};
SEMBLURICK_ASSERT(sizeof(struct kvmi_vcpu_control_msr) == 8 && offsetof(struct kvmi_vcpu_control_msr, msr) == 4);

/* 13 KVMI_VM_SET_PAGE_ACCESS; then `count` entries, which act in order; with EINVAL none acts. Access 7 forgets a page. An entry for one
 * more page below rwx finds no room where SEMBLURICK_PAGE_LIMIT of them stand when its turn comes, whatever a later entry forgets: ENOMEM.
 * In revision 1 it is skipped, and the others act; in revision 2 (since 7) none acts. */
struct kvmi_vm_set_page_access {
    uint16_t count;
    uint16_t view;
    uint32_t padding;
};
struct kvmi_page_access_entry {
    uint64_t gpa;
    uint8_t access;  /* 0, or of enum kvmi_page_access R, R + W, X, R + X or all; X alone, since 3, only where the host's settings
                        have execute_only: else EINVAL */
    uint8_t padding1;
    uint16_t padding2;
    uint32_t padding3;
};
SEMBLURICK_ASSERT(sizeof(struct kvmi_vm_set_page_access) == 8 && offsetof(struct kvmi_vm_set_page_access, view) == 2);
SEMBLURICK_ASSERT(sizeof(struct kvmi_page_access_entry) == 16 && offsetof(struct kvmi_page_access_entry, access) == 8);

/* 14 KVMI_VCPU_CONTROL_SINGLESTEP, behind struct kvmi_vcpu_hdr. */
struct kvmi_vcpu_control_singlestep {
    uint8_t enable;
    uint8_t padding[7];
};
SEMBLURICK_ASSERT(sizeof(struct kvmi_vcpu_control_singlestep) == 8);

/* 15 KVMI_VM_CONTROL_CMD_RESPONSE: replies on or off. */
struct kvmi_vm_control_cmd_response {
    uint8_t enable;
    uint8_t now;    /* 1: from this message's own reply on; 0: from the next message on */
    uint8_t flags;  /* with enable 0, bit 0: errors are told by CMD_ERROR events */
    uint8_t padding1;
    uint32_t padding2;
};
SEMBLURICK_ASSERT(sizeof(struct kvmi_vm_control_cmd_response) == 8 && offsetof(struct kvmi_vm_control_cmd_response, flags) == 2);

/* 16 KVMI_EVENT_REPLY, behind struct kvmi_vcpu_hdr; the header has the event's seq. It gets no reply. To a CR and to an MSR event, and
 * since 5 to a PF event, their struct follows, whatever the action is (since 2). */
struct kvmi_event_reply {
    uint8_t action;  /* enum kvmi_action */
    uint8_t event;   /* enum kvmi_event_id */
    uint16_t padding1;
    uint32_t padding2;
};
struct kvmi_event_cr_reply {
    uint64_t new_val;  /* what the register is to hold */
};
struct kvmi_event_msr_reply {
    uint64_t new_val;
};
struct kvmi_event_pf_reply {
    uint64_t ctx_addr;      /* the guest virtual address of ctx_data[0] */
    uint32_t ctx_size;      /* how many bytes of ctx_data are supplied: at most 256, more close the session; 0: none */
    uint8_t padding1;
    uint8_t rep_complete;   /* 0 or 1: another closes the session */
    uint16_t padding2;
    uint8_t ctx_data[256];  /* what the guest is to read there; past ctx_size anything */
};
SEMBLURICK_ASSERT(sizeof(struct kvmi_event_reply) == 8 && offsetof(struct kvmi_event_reply, padding2) == 4);
SEMBLURICK_ASSERT(sizeof(struct kvmi_event_cr_reply) == 8 && sizeof(struct kvmi_event_msr_reply) == 8);
SEMBLURICK_ASSERT(sizeof(struct kvmi_event_pf_reply) == 272 && offsetof(struct kvmi_event_pf_reply, ctx_size) == 8);
SEMBLURICK_ASSERT(offsetof(struct kvmi_event_pf_reply, rep_complete) == 13 && offsetof(struct kvmi_event_pf_reply, ctx_data) == 16);

/* 17 KVMI_EVENT, to the tool: the register block by its parts; of regs and sregs, see enum semblurick_state. */
struct kvmi_event_arch {
    uint8_t mode;
    uint8_t padding[7];
    uint64_t regs[18];   /* Linux's struct kvm_regs */
    uint64_t sregs[39];  /* Linux's struct kvm_sregs */
    struct {
        uint64_t sysenter_cs;
        uint64_t sysenter_esp;
        uint64_t sysenter_eip;
        uint64_t efer;
        uint64_t star;
        uint64_t lstar;
        uint64_t cstar;
        uint64_t pat;
        uint64_t shadow_gs;
    } msrs;
};
struct kvmi_event {
    uint16_t size;  /* of this struct: 544 */
    uint16_t vcpu;
    uint8_t event;  /* enum kvmi_event_id */
    uint8_t padding[3];
    struct kvmi_event_arch arch;
    /* then, for some events, bytes of their own */
};
SEMBLURICK_ASSERT(sizeof(struct kvmi_event_arch) == SEMBLURICK_STATE_BYTES);
SEMBLURICK_ASSERT(offsetof(struct kvmi_event_arch, regs) == SEMBLURICK_STATE_REGS);
SEMBLURICK_ASSERT(offsetof(struct kvmi_event_arch, sregs) == SEMBLURICK_STATE_SREGS);
SEMBLURICK_ASSERT(offsetof(struct kvmi_event_arch, msrs) == SEMBLURICK_STATE_MSRS);
SEMBLURICK_ASSERT(sizeof(struct kvmi_event) == 544 && offsetof(struct kvmi_event, event) == 4);
SEMBLURICK_ASSERT(offsetof(struct kvmi_event, arch) == 8);

/* KVMI_EVENT_CMD_ERROR's own bytes, behind struct kvmi_event, whose vCPU and register block are 0. It awaits no reply. */
struct kvmi_event_cmd_error {
    int32_t err;
    uint32_t msg_seq;  /* the header of the command that failed */
    uint16_t msg_id;
    uint16_t padding[3];
};
SEMBLURICK_ASSERT(sizeof(struct kvmi_event_cmd_error) == 16 && offsetof(struct kvmi_event_cmd_error, msg_id) == 8);

/* The own bytes of the events that a host offers (since 2). HYPERCALL, XSETBV and CREATE_VCPU have none, nor has PAUSE_VCPU. */
struct kvmi_event_breakpoint {
    uint64_t gpa;  /* of the breakpoint instruction */
    uint8_t insn_len;
    uint8_t padding[7];
};
struct kvmi_event_cr {
    uint16_t cr;  /* 0, 3 or 4; no other has a switch */
    uint16_t padding[3];
    uint64_t old_value;
    uint64_t new_value;
};
struct kvmi_event_descriptor {
    uint8_t descriptor;  /* IDTR, GDTR, LDTR or TR, by a number that host and tool agree on */
    uint8_t write;       /* 1: it is written; 0: it is read */
    uint8_t padding[6];
};
struct kvmi_event_msr {
    uint32_t msr;  /* 0 to 0x1FFF, or 0xC0000000 to 0xC0001FFF; no other has a switch */
    uint32_t padding;
    uint64_t old_value;
    uint64_t new_value;
};
struct kvmi_event_pf {  /* since 5 */
    uint64_t gva;     /* the address that faulted; all ones: not known */
    uint64_t gpa;     /* where that is in guest memory */
    uint8_t access;   /* what the guest tried, of enum kvmi_page_access; with R it reads */
    uint8_t padding1;
    uint16_t view;    /* whose page faulted. kvmi.rst calls it padding2: left 0 it names view 0, the usual one */
    uint32_t padding3;
};
struct kvmi_event_singlestep {
    uint8_t failed;
    uint8_t padding[7];
};
struct kvmi_event_cpuid {
    uint32_t function;  /* eax */
    uint32_t index;     /* ecx */
    uint8_t insn_length;
    uint8_t padding1[3];
    uint32_t padding2;
};
SEMBLURICK_ASSERT(sizeof(struct kvmi_event_breakpoint) == 16 && offsetof(struct kvmi_event_breakpoint, insn_len) == 8);
SEMBLURICK_ASSERT(sizeof(struct kvmi_event_cr) == 24 && offsetof(struct kvmi_event_cr, old_value) == 8);
SEMBLURICK_ASSERT(sizeof(struct kvmi_event_descriptor) == 8 && offsetof(struct kvmi_event_descriptor, write) == 1);
SEMBLURICK_ASSERT(sizeof(struct kvmi_event_msr) == 24 && offsetof(struct kvmi_event_msr, old_value) == 8);
SEMBLURICK_ASSERT(sizeof(struct kvmi_event_pf) == 24 && offsetof(struct kvmi_event_pf, access) == 16);
SEMBLURICK_ASSERT(offsetof(struct kvmi_event_pf, view) == 18);
SEMBLURICK_ASSERT(sizeof(struct kvmi_event_singlestep) == 8);
SEMBLURICK_ASSERT(sizeof(struct kvmi_event_cpuid) == 16 && offsetof(struct kvmi_event_cpuid, insn_length) == 8);
SEMBLURICK_ASSERT(sizeof(struct kvmi_msg_hdr) + sizeof(struct kvmi_event) + sizeof(struct kvmi_event_cr) == SEMBLURICK_EVENT_MAX);
SEMBLURICK_ASSERT(SEMBLURICK_ENTRY_OUT == 0 + SEMBLURICK_EVENT_MAX);
#endif

#ifdef __cplusplus
}
#endif

#undef SEMBLURICK_ASSERT
#undef SEMBLURICK_CAST
#undef SEMBLURICK_U32_ENUM
#undef SEMBLURICK_CHECKED
#endif
