/* A second translation unit that has the header: it links with the first. It takes KVMI's names from elsewhere, and holds the layout
 * of the register block against the kernel's own header, where there is one. */
#define SEMBLURICK_NO_KVMI_NAMES
#include "semblurick.h"
#include "semblurick.h"

#ifdef __cplusplus
#define SAME(a, b) static_assert((a) == (b) + 0, #a)
#else
#define SAME(a, b) _Static_assert((a) == (b) + 0, #a)
#endif

#if defined(__has_include)
#if __has_include(<asm/kvm.h>)
#include <asm/kvm.h>
#define HAS_KVM
#endif
#endif

#ifdef HAS_KVM
#define REG(member, name) SAME(8 + offsetof(struct kvm_regs, member), SEMBLURICK_STATE_##name)
#define SREG(member, name) SAME(152 + offsetof(struct kvm_sregs, member), SEMBLURICK_STATE_##name)
SAME(sizeof(struct kvm_regs), SEMBLURICK_STATE_SREGS - SEMBLURICK_STATE_REGS);
SAME(sizeof(struct kvm_sregs), SEMBLURICK_STATE_MSRS - SEMBLURICK_STATE_SREGS);
SAME(sizeof(struct kvm_segment), 24);
SAME(sizeof(struct kvm_dtable), 16);
REG(rax, RAX); REG(rbx, RBX); REG(rcx, RCX); REG(rdx, RDX); REG(rsi, RSI); REG(rdi, RDI); REG(rsp, RSP); REG(rbp, RBP);
REG(r8, R8); REG(r15, R15); REG(rip, RIP); REG(rflags, RFLAGS);
SREG(cs, CS); SREG(ds, DS); SREG(es, ES); SREG(fs, FS); SREG(gs, GS); SREG(ss, SS); SREG(tr, TR); SREG(ldt, LDT);
SREG(gdt, GDT); SREG(idt, IDT); SREG(cr0, CR0); SREG(cr2, CR2); SREG(cr3, CR3); SREG(cr4, CR4); SREG(cr8, CR8);
SREG(efer, EFER); SREG(apic_base, APIC_BASE); SREG(interrupt_bitmap, INTERRUPT_BITMAP);
#endif
SAME(SEMBLURICK_STATE_MSRS + 9 * 8, SEMBLURICK_STATE_BYTES);
SAME(offsetof(struct semblurick_result, length), 72);
SAME(offsetof(struct semblurick_result, padding), 80);
SAME(offsetof(struct semblurick_result, reserved), 88);
SAME(sizeof(struct semblurick_result), 96);
SAME(offsetof(struct semblurick_settings, revision), 32);
SAME(sizeof(struct semblurick_settings), 40);
SAME(offsetof(struct semblurick_session, vm_events), sizeof(struct semblurick_settings));
SAME(sizeof(struct semblurick_session), 80);

size_t second_unit(void);
size_t second_unit(void) {
    static struct semblurick guest;
    static uint8_t bytes[8];
    static struct semblurick_result one;          /* of zeros, so that nothing is fed */
    static struct semblurick_batch_result several;
    struct semblurick_settings s = SEMBLURICK_SETTINGS;
    const struct semblurick_memory memory = semblurick_memory_of(bytes + 4, 4);
    bool is_wrong = semblurick_fed(bytes, memory, &one) || semblurick_batch_fed(bytes, memory, &several);
    one.at = several.at = 1, one.length = several.length = 2;
    one.source = SEMBLURICK_FED_MESSAGE, several.source = SEMBLURICK_FED_GUEST;
    is_wrong |= semblurick_fed(bytes, memory, &one) != bytes + 1 || semblurick_batch_fed(bytes, memory, &several) != bytes + 5;
    one.source = SEMBLURICK_FED_GUEST, several.source = SEMBLURICK_FED_MESSAGE;
    is_wrong |= semblurick_fed(bytes, memory, &one) != bytes + 5 || semblurick_batch_fed(bytes, memory, &several) != bytes + 1;
    is_wrong |= semblurick_fresh(&guest, &s) != SEMBLURICK_HANDLED || !semblurick_is_open(&guest);

    /* KVMI_VM_CHECK_COMMAND, which is always allowed: its last byte is padding */
    static uint8_t check[16] = {2, 0, 8, 0, 0, 0, 0, 0, 1}, out[SEMBLURICK_MESSAGE_OUT];
    for (uint8_t last = 0; last < 2; last++) {
        check[15] = last;
        is_wrong |= semblurick_message(&guest, check, sizeof check, semblurick_output_of(out, sizeof out), semblurick_no_memory(), &one) != SEMBLURICK_HANDLED;
        is_wrong |= one.count != 16 || out[8] != (last ? 0xEA : 0) || one.padding != (last ? 15 : 0) || one.reserved[0] != 0;
    }
    return is_wrong ? 0 : sizeof guest;
}
