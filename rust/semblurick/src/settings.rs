//! What a host allows and has.

use crate::{ffi, CommandSet, EventSet};

/// A setter for each field, by the field's name.
macro_rules! setters {
    ($($(#[$doc:meta])* $name:ident: $type:ty,)*) => {
        $(
            $(#[$doc])*
            #[must_use]
            pub const fn $name(mut self, $name: $type) -> Self {
                self.$name = $name;
                self
            }
        )*
    };
}

/// What the host allows and has; fixed for a session.
///
/// A host begins from [`Settings::new`], where nothing is allowed and nothing supported, and says by name what differs. A setting that
/// is new in a later version then breaks no build. A capability that is new is absent, and what needs it is refused until the host
/// names it, even where an earlier version took it: access 4 without [`execute_only`](Settings::execute_only). The
/// [`revision`](Settings::revision) is 1 until the host names 2.
///
/// ```
/// use semblurick::{Event, EventSet, Features, Settings, CommandSet};
///
/// const SETTINGS: Settings = Settings::new(4)
///     .views(2)
///     .commands(CommandSet::ALL)
///     .events(EventSet::NONE.with(Event::PauseVcpu).with(Event::Pf))
///     .features(Features::NONE.singlestep(1))
///     .execute_only(true);
/// assert_eq!((SETTINGS.vcpus, SETTINGS.views, SETTINGS.descriptors), (4, 2, false));
/// ```
#[derive(Clone, Debug, PartialEq, Eq, Hash)]
#[non_exhaustive]
pub struct Settings {
    /// 1 to [`MAX_VCPUS`](crate::MAX_VCPUS).
    pub vcpus: u32,
    /// 1 to [`MAX_VIEWS`](crate::MAX_VIEWS).
    pub views: u32,
    /// The commands that the tool may use; 1, 2, 3 and 16 it may always use.
    pub commands: CommandSet,
    /// The events that the tool may use.
    pub events: EventSet,
    /// Told by `KVMI_VCPU_GET_INFO`.
    pub tsc_speed: u64,
    /// Told by `KVMI_GET_VERSION`.
    pub features: Features,
    /// Descriptor events can be caught.
    pub descriptors: bool,
    /// The host has taken breakpoints for itself.
    pub breakpoints_taken: bool,
    /// The processor has execute-only pages. Without it access 4 is refused, in `KVMI_VM_SET_PAGE_ACCESS` and in images.
    pub execute_only: bool,
    /// The revision of the protocol that the tool speaks: 1 or 2. Told by `KVMI_GET_VERSION`.
    pub revision: u32,
}

impl Settings {
    /// One view, nothing allowed and nothing supported, revision 1, as the C header's `SEMBLURICK_SETTINGS`.
    #[must_use]
    pub const fn new(vcpus: u32) -> Settings {
        Settings {
            vcpus,
            views: 1,
            commands: CommandSet::NONE,
            events: EventSet::NONE,
            tsc_speed: 0,
            features: Features::NONE,
            descriptors: false,
            breakpoints_taken: false,
            execute_only: false,
            revision: 1,
        }
    }

    /// One view, everything allowed and supported, breakpoints free, revision 1. It says of the processor that it has execute-only pages:
    /// on one that lacks them a host adds `.execute_only(false)`.
    #[must_use]
    pub const fn allowing_all(vcpus: u32) -> Settings {
        Settings::new(vcpus)
            .commands(CommandSet::ALL)
            .events(EventSet::ALL)
            .features(Features::ALL)
            .descriptors(true)
            .execute_only(true)
    }

    setters! {
        /// How many views there are.
        views: u32,
        /// The commands that the tool may use.
        commands: CommandSet,
        /// The events that the tool may use.
        events: EventSet,
        /// The TSC's speed, which `KVMI_VCPU_GET_INFO` tells.
        tsc_speed: u64,
        /// The features, which `KVMI_GET_VERSION` tells.
        features: Features,
        /// Whether descriptor events can be caught.
        descriptors: bool,
        /// Whether the host has taken breakpoints for itself.
        breakpoints_taken: bool,
        /// Whether the processor has execute-only pages, access 4 (EPT; bit 0 of `IA32_VMX_EPT_VPID_CAP`, MSR 0x48C). Without it a
        /// message that asks for access 4 gets EINVAL, and an image that holds it is refused. `KVMI_GET_VERSION` does not tell it.
        ///
        /// ```
        /// use semblurick::{Access, Refusal, Session, Settings, MESSAGE_OUT};
        ///
        /// let has = Settings::allowing_all(1);
        /// let lacks = has.clone().execute_only(false);
        /// let mut out = [0; MESSAGE_OUT];
        ///
        /// // KVMI_VM_SET_PAGE_ACCESS, seq 7: page 2 of view 0 to r-x, page 3 to --x
        /// let message = [
        ///     13, 0, 40, 0, 7, 0, 0, 0, 2, 0, 0, 0, 0, 0, 0, 0, //
        ///     0, 0x20, 0, 0, 0, 0, 0, 0, 5, 0, 0, 0, 0, 0, 0, 0, //
        ///     0, 0x30, 0, 0, 0, 0, 0, 0, 4, 0, 0, 0, 0, 0, 0, 0,
        /// ];
        ///
        /// // without it: the reply has EINVAL, -22, and neither entry has acted
        /// let mut session = Session::fresh(&lacks)?;
        /// let answer = session.message(&message, &mut out, &mut [])?;
        /// assert_eq!(answer.bytes(), [13, 0, 8, 0, 7, 0, 0, 0, 0xEA, 0xFF, 0xFF, 0xFF, 0, 0, 0, 0]);
        /// assert_eq!(session.page_count(), 0);
        ///
        /// // with it
        /// let mut session = Session::fresh(&has)?;
        /// let answer = session.message(&message, &mut out, &mut [])?;
        /// assert_eq!(answer.bytes(), [13, 0, 8, 0, 7, 0, 0, 0, 0, 0, 0, 0, 0, 0, 0, 0]);
        /// assert_eq!((session.page_count(), session.access(0, 3)), (2, Access::X));
        ///
        /// // an image that holds such a page is for a host that has them, too
        /// let mut image = vec![0; session.image_size()];
        /// session.write_image(&mut image)?;
        /// assert_eq!(Session::from_image(&lacks, &image).err(), Some(Refusal::Forbidden { offset: 32 }));
        /// assert_eq!(Session::from_image(&has, &image)?.access(0, 3), Access::X);
        /// # Ok::<(), Refusal>(())
        /// ```
        execute_only: bool,
        /// The revision of the protocol that the tool speaks, 1 or 2, which `KVMI_GET_VERSION` reports. Every constructor has 1; with a
        /// number other than these two, in C also where settings are filled by hand without it, no session begins:
        /// [`Refusal::BadSettings`](crate::Refusal::BadSettings). An image has none, so that a new host names it as the old one did.
        ///
        /// In revision 2 `KVMI_VM_SET_PAGE_ACCESS` is all or nothing. Its entries act in order; where one of them finds no room, since
        /// [`PAGE_LIMIT`](crate::PAGE_LIMIT) pages stand below rwx when its turn comes, the error is ENOMEM and none acts. In revision 1
        /// that one is skipped, and the others act. All else is the same in both.
        ///
        /// ```
        /// use semblurick::{Access, Errno, Refusal, Session, Settings, MESSAGE_OUT, PAGE_LIMIT};
        ///
        /// // KVMI_VM_SET_PAGE_ACCESS: pages of view 0, and what it allows of each
        /// let set = |entries: &[(u64, u8)]| {
        ///     let [low, high] = (8 + 16 * entries.len() as u16).to_le_bytes();
        ///     let mut message = vec![13, 0, low, high, 7, 0, 0, 0];
        ///     message.extend((entries.len() as u64).to_le_bytes());
        ///     for (page, access) in entries {
        ///         message.extend((page << 12).to_le_bytes());
        ///         message.extend([*access, 0, 0, 0, 0, 0, 0, 0]);
        ///     }
        ///     message
        /// };
        /// let most: Vec<_> = (0..PAGE_LIMIT as u64).map(|page| (page, 5)).collect();
        /// let mut out = [0; MESSAGE_OUT];
        ///
        /// for revision in [1, 2] {
        ///     let mut session = Session::fresh(&Settings::allowing_all(1).revision(revision))?;
        ///     assert_eq!(session.message(&set(&most), &mut out, &mut [])?.error(), None);
        ///
        ///     // one page more, to r--, and then page 3 to rwx: the first of the two finds no room
        ///     let error = session.message(&set(&[(5000, 1), (3, 7)]), &mut out, &mut [])?.error();
        ///     assert_eq!(error, Some(Errno::Enomem));
        ///     assert_eq!(session.access(0, 5000), Access::RWX);
        ///     assert_eq!(session.access(0, 3).bits(), if revision == 1 { 7 } else { 5 });
        ///
        ///     // in the other order there is room
        ///     let error = session.message(&set(&[(4, 7), (5000, 1)]), &mut out, &mut [])?.error();
        ///     assert_eq!(error, None);
        ///     assert_eq!((session.access(0, 4), session.access(0, 5000)), (Access::RWX, Access::R));
        /// }
        /// assert_eq!(Session::fresh(&Settings::new(1).revision(3)).err(), Some(Refusal::BadSettings));
        /// # Ok::<(), Refusal>(())
        /// ```
        revision: u32,
    }

    #[inline]
    pub(crate) fn raw(&self) -> ffi::Settings {
        let f = self.features;
        ffi::Settings {
            vcpus: self.vcpus,
            views: self.views,
            commands: self.commands.bits(),
            events: self.events.bits(),
            tsc_speed: self.tsc_speed,
            features: [f.singlestep, f.vmfunc, f.eptp, f.ve, f.spp],
            descriptors: self.descriptors.into(),
            breakpoints_taken: self.breakpoints_taken.into(),
            execute_only: self.execute_only.into(),
            revision: self.revision,
        }
    }

    pub(crate) fn of(raw: &ffi::Settings) -> Settings {
        let [singlestep, vmfunc, eptp, ve, spp] = raw.features;
        Settings {
            vcpus: raw.vcpus,
            views: raw.views,
            commands: CommandSet::from_bits(raw.commands),
            events: EventSet::from_bits(raw.events),
            tsc_speed: raw.tsc_speed,
            features: Features { singlestep, vmfunc, eptp, ve, spp },
            descriptors: raw.descriptors != 0,
            breakpoints_taken: raw.breakpoints_taken != 0,
            execute_only: raw.execute_only != 0,
            revision: raw.revision,
        }
    }
}

/// [`Settings::new`] with one vCPU.
impl Default for Settings {
    fn default() -> Settings {
        Settings::new(1)
    }
}

/// The five feature bytes; a feature is there where its byte is not 0.
#[derive(Clone, Copy, Debug, Default, PartialEq, Eq, Hash)]
#[non_exhaustive]
pub struct Features {
    /// Single-stepping: `KVMI_VCPU_CONTROL_SINGLESTEP` needs it.
    pub singlestep: u8,
    /// VMFUNC.
    pub vmfunc: u8,
    /// EPTP switching.
    pub eptp: u8,
    /// Virtualization exceptions.
    pub ve: u8,
    /// Subpage protection.
    pub spp: u8,
}

impl Features {
    /// None of them.
    pub const NONE: Features = Features { singlestep: 0, vmfunc: 0, eptp: 0, ve: 0, spp: 0 };

    /// All of them, each byte 1.
    pub const ALL: Features = Features { singlestep: 1, vmfunc: 1, eptp: 1, ve: 1, spp: 1 };

    setters! {
        /// Single-stepping.
        singlestep: u8,
        /// VMFUNC.
        vmfunc: u8,
        /// EPTP switching.
        eptp: u8,
        /// Virtualization exceptions.
        ve: u8,
        /// Subpage protection.
        spp: u8,
    }
}
