//! KVMI's names: messages, events, errors, and sets of them.

use core::fmt;

macro_rules! numbered {
    ($(#[$doc:meta])* $name:ident: $repr:ident { $($variant:ident = $number:literal => $text:literal,)* }) => {
        $(#[$doc])*
        #[derive(Clone, Copy, PartialEq, Eq, Hash, PartialOrd, Ord)]
        #[repr($repr)]
        #[non_exhaustive]
        pub enum $name {
            $(#[doc = $text] $variant = $number,)*
        }

        impl $name {
            /// All of them, by number.
            pub const ALL: &'static [$name] = &[$($name::$variant,)*];

            /// The one with a number, if there is one.
            #[must_use]
            pub const fn from_number(number: $repr) -> Option<$name> {
                match number {
                    $($number => Some($name::$variant),)*
                    _ => None,
                }
            }

            /// Its number on the wire.
            #[must_use]
            pub const fn number(self) -> $repr {
                self as $repr
            }

            /// Its name.
            #[must_use]
            pub const fn name(self) -> &'static str {
                match self {
                    $($name::$variant => $text,)*
                }
            }
        }

        impl fmt::Display for $name {
            fn fmt(&self, f: &mut fmt::Formatter<'_>) -> fmt::Result {
                f.pad(self.name())
            }
        }

        impl fmt::Debug for $name {
            fn fmt(&self, f: &mut fmt::Formatter<'_>) -> fmt::Result {
                f.write_str(self.name())
            }
        }
    };
}

numbered! {
    /// A message of the tool.
    Command: u16 {
        GetVersion = 1 => "KVMI_GET_VERSION",
        VmCheckCommand = 2 => "KVMI_VM_CHECK_COMMAND",
        VmCheckEvent = 3 => "KVMI_VM_CHECK_EVENT",
        VmGetInfo = 4 => "KVMI_VM_GET_INFO",
        VmControlEvents = 5 => "KVMI_VM_CONTROL_EVENTS",
        VmReadPhysical = 6 => "KVMI_VM_READ_PHYSICAL",
        VmWritePhysical = 7 => "KVMI_VM_WRITE_PHYSICAL",
        VcpuGetInfo = 8 => "KVMI_VCPU_GET_INFO",
        VcpuPause = 9 => "KVMI_VCPU_PAUSE",
        VcpuControlEvents = 10 => "KVMI_VCPU_CONTROL_EVENTS",
        VcpuControlCr = 11 => "KVMI_VCPU_CONTROL_CR",
        VcpuControlMsr = 12 => "KVMI_VCPU_CONTROL_MSR",
        VmSetPageAccess = 13 => "KVMI_VM_SET_PAGE_ACCESS",
        VcpuControlSinglestep = 14 => "KVMI_VCPU_CONTROL_SINGLESTEP",
        VmControlCmdResponse = 15 => "KVMI_VM_CONTROL_CMD_RESPONSE",
        EventReply = 16 => "KVMI_EVENT_REPLY",
    }
}

numbered! {
    /// An event.
    Event: u16 {
        Unhook = 1 => "KVMI_EVENT_UNHOOK",
        PauseVcpu = 2 => "KVMI_EVENT_PAUSE_VCPU",
        Hypercall = 3 => "KVMI_EVENT_HYPERCALL",
        Breakpoint = 4 => "KVMI_EVENT_BREAKPOINT",
        Cr = 5 => "KVMI_EVENT_CR",
        Trap = 6 => "KVMI_EVENT_TRAP",
        Xsetbv = 7 => "KVMI_EVENT_XSETBV",
        Descriptor = 8 => "KVMI_EVENT_DESCRIPTOR",
        Msr = 9 => "KVMI_EVENT_MSR",
        Pf = 10 => "KVMI_EVENT_PF",
        Singlestep = 11 => "KVMI_EVENT_SINGLESTEP",
        CreateVcpu = 12 => "KVMI_EVENT_CREATE_VCPU",
        CmdError = 13 => "KVMI_EVENT_CMD_ERROR",
        Cpuid = 14 => "KVMI_EVENT_CPUID",
    }
}

/// Its number on the wire: what the lookups of events and [`Session::enter_event`](crate::Session::enter_event) take.
impl From<Event> for u32 {
    #[inline]
    fn from(event: Event) -> u32 {
        event.number().into()
    }
}

numbered! {
    /// What a tool's reply to an event says of the vCPU. Every event can be continued or crashed; a breakpoint, a descriptor event
    /// and a page fault can also be retried.
    Action: u8 {
        Continue = 0 => "KVMI_EVENT_ACTION_CONTINUE",
        Retry = 1 => "KVMI_EVENT_ACTION_RETRY",
        Crash = 2 => "KVMI_EVENT_ACTION_CRASH",
    }
}

numbered! {
    /// An error of a reply. Its number is the negative one that the reply holds.
    Errno: i32 {
        Eperm = -1 => "EPERM",
        Enoent = -2 => "ENOENT",
        Eagain = -11 => "EAGAIN",
        Enomem = -12 => "ENOMEM",
        Ebusy = -16 => "EBUSY",
        Einval = -22 => "EINVAL",
        Eopnotsupp = -95 => "EOPNOTSUPP",
        Enosys = -1000 => "ENOSYS",
    }
}

macro_rules! set {
    ($(#[$doc:meta])* $name:ident of $item:ident) => {
        $(#[$doc])*
        #[derive(Clone, Copy, PartialEq, Eq, Hash, Default)]
        pub struct $name(u32);

        impl $name {
            /// None of them.
            pub const NONE: $name = $name(0);

            /// All of them.
            pub const ALL: $name = $name(!0);

            /// Bit k for number k; bits that no number has are kept and stand for nothing.
            #[must_use]
            pub const fn from_bits(bits: u32) -> $name {
                $name(bits)
            }

            /// Bit k for number k.
            #[must_use]
            pub const fn bits(self) -> u32 {
                self.0
            }

            /// The set with one more.
            #[must_use]
            pub const fn with(self, item: $item) -> $name {
                $name(self.0 | 1 << item.number())
            }

            /// The set with one less.
            #[must_use]
            pub const fn without(self, item: $item) -> $name {
                $name(self.0 & !(1 << item.number()))
            }

            /// Whether one is in the set.
            #[must_use]
            pub const fn has(self, item: $item) -> bool {
                self.0 >> item.number() & 1 == 1
            }
        }

        impl fmt::Debug for $name {
            fn fmt(&self, f: &mut fmt::Formatter<'_>) -> fmt::Result {
                f.debug_set().entries($item::ALL.iter().filter(|item| self.has(**item))).finish()
            }
        }

        impl fmt::Display for $name {
            fn fmt(&self, f: &mut fmt::Formatter<'_>) -> fmt::Result {
                fmt::Debug::fmt(self, f)
            }
        }

        impl FromIterator<$item> for $name {
            fn from_iter<I: IntoIterator<Item = $item>>(items: I) -> $name {
                items.into_iter().fold($name::NONE, $name::with)
            }
        }
    };
}

set! {
    /// A set of commands.
    CommandSet of Command
}

set! {
    /// A set of events.
    EventSet of Event
}
