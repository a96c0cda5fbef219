//! The own bytes of the events that a host offers: what an event has behind the register block.
//!
//! The fields have kvmi.rst's names, but for a page fault's view, and `bytes` lays them out as it does, with zeros for the padding.
//! `KVMI_EVENT_HYPERCALL`, `KVMI_EVENT_XSETBV` and `KVMI_EVENT_CREATE_VCPU` have no own bytes: they are offered with `&[]`.
//!
//! ```
//! use semblurick::own;
//!
//! let cr3 = own::Cr { cr: 3, old_value: 0x1000, new_value: 0x2000 };
//! assert_eq!(cr3.bytes(), [3, 0, 0, 0, 0, 0, 0, 0, 0, 0x10, 0, 0, 0, 0, 0, 0, 0, 0x20, 0, 0, 0, 0, 0, 0]);
//! ```

/// A struct with a method that lays its fields out, each as a number at an offset.
macro_rules! own {
    ($(#[$doc:meta])* $name:ident: $size:literal {
        $($(#[$field_doc:meta])* $field:ident: $type:ty as $number:ident @ $at:literal,)*
    }) => {
        $(#[$doc])*
        #[derive(Clone, Copy, Debug, Default, PartialEq, Eq, Hash)]
        pub struct $name {
            $($(#[$field_doc])* pub $field: $type,)*
        }

        impl $name {
            /// The bytes, for [`Session::enter_event`](crate::Session::enter_event).
            #[must_use]
            #[inline]
            pub fn bytes(&self) -> [u8; $size] {
                let mut bytes = [0; $size];
                $(
                    let number = $number::from(self.$field).to_le_bytes();
                    bytes[$at..$at + number.len()].copy_from_slice(&number);
                )*
                bytes
            }
        }
    };
}

own! {
    /// Of [`Event::Breakpoint`](crate::Event::Breakpoint): a breakpoint was reached.
    ///
    /// ```
    /// let int3 = semblurick::own::Breakpoint { gpa: 0x1234, insn_len: 1 };
    /// assert_eq!(int3.bytes(), [0x34, 0x12, 0, 0, 0, 0, 0, 0, 1, 0, 0, 0, 0, 0, 0, 0]);
    /// ```
    Breakpoint: 16 {
        /// Where the breakpoint instruction stands, a guest physical address.
        gpa: u64 as u64 @ 0,
        /// How long it is.
        insn_len: u8 as u8 @ 8,
    }
}

own! {
    /// Of [`Event::Cr`](crate::Event::Cr): a control register is about to change.
    Cr: 24 {
        /// Which one: 0, 3 or 4. No other has a switch, so that its event is passed over.
        cr: u16 as u16 @ 0,
        /// What it holds.
        old_value: u64 as u64 @ 8,
        /// What the guest writes.
        new_value: u64 as u64 @ 16,
    }
}

own! {
    /// Of [`Event::Descriptor`](crate::Event::Descriptor): a descriptor table register is accessed.
    ///
    /// ```
    /// let lidt = semblurick::own::Descriptor { descriptor: 1, write: true };
    /// assert_eq!(lidt.bytes(), [1, 1, 0, 0, 0, 0, 0, 0]);
    /// ```
    Descriptor: 8 {
        /// IDTR, GDTR, LDTR or TR, by a number that host and tool agree on.
        descriptor: u8 as u8 @ 0,
        /// Whether it is written.
        write: bool as u8 @ 1,
    }
}

own! {
    /// Of [`Event::Msr`](crate::Event::Msr): a model specific register is about to change.
    ///
    /// ```
    /// let lstar = semblurick::own::Msr { msr: 0xC000_0082, old_value: 1, new_value: 2 };
    /// assert_eq!(lstar.bytes(), [0x82, 0, 0, 0xC0, 0, 0, 0, 0, 1, 0, 0, 0, 0, 0, 0, 0, 2, 0, 0, 0, 0, 0, 0, 0]);
    /// ```
    Msr: 24 {
        /// Which one: 0 to 0x1FFF, or 0xC0000000 to 0xC0001FFF. No other has a switch, so that its event is passed over.
        msr: u32 as u32 @ 0,
        /// What it holds.
        old_value: u64 as u64 @ 8,
        /// What the guest writes.
        new_value: u64 as u64 @ 16,
    }
}

own! {
    /// Of [`Event::Pf`](crate::Event::Pf): the guest accesses a page whose rights forbid it.
    ///
    /// ```
    /// use semblurick::{own, Access};
    ///
    /// let read = own::Pf { gva: u64::MAX, gpa: 0x1234, access: Access::R.bits(), view: 3 };
    /// let bytes = [[0xFF; 8], [0x34, 0x12, 0, 0, 0, 0, 0, 0], [1, 0, 3, 0, 0, 0, 0, 0]].concat();
    /// assert_eq!(read.bytes(), bytes[..]);
    /// ```
    Pf: 24 {
        /// The guest virtual address that faulted; [`u64::MAX`]: not known.
        gva: u64 as u64 @ 0,
        /// The guest physical address that it is. Where its page stands at rwx in the view the event is passed over.
        gpa: u64 as u64 @ 8,
        /// What the guest tried, R 1, W 2, X 4: [`Access::bits`](crate::Access::bits). With R it reads, and is fed where the tool
        /// continues: [`Feed`](crate::Feed).
        access: u8 as u8 @ 16,
        /// The view whose page faulted. kvmi.rst has padding here: 0 is view 0, the usual one.
        view: u16 as u16 @ 18,
    }
}

own! {
    /// Of [`Event::Singlestep`](crate::Event::Singlestep): an instruction was executed, or could not be stepped.
    ///
    /// ```
    /// assert_eq!(semblurick::own::Singlestep { failed: true }.bytes(), [1, 0, 0, 0, 0, 0, 0, 0]);
    /// ```
    Singlestep: 8 {
        /// Whether the step failed.
        failed: bool as u8 @ 0,
    }
}

own! {
    /// Of [`Event::Cpuid`](crate::Event::Cpuid): a cpuid instruction is executed.
    ///
    /// ```
    /// let features = semblurick::own::Cpuid { function: 7, index: 1, insn_length: 2 };
    /// assert_eq!(features.bytes(), [7, 0, 0, 0, 1, 0, 0, 0, 2, 0, 0, 0, 0, 0, 0, 0]);
    /// ```
    Cpuid: 16 {
        /// What stands in eax.
        function: u32 as u32 @ 0,
        /// What stands in ecx.
        index: u32 as u32 @ 4,
        /// How long the instruction is.
        insn_length: u8 as u8 @ 8,
    }
}
