//! vCPU records that a host keeps in a list of its own: the ready mark and the CR switch, set there.
//!
//! ```
//! use semblurick::{vcpu_list, Refusal, Vcpu};
//!
//! let mut vcpus = [Vcpu::default(); 3];
//! assert_eq!(vcpu_list::set_cr(&mut vcpus, 1, 3, true), Err(Refusal::NotApplicable)); // not ready
//! vcpu_list::ready(&mut vcpus, 1)?;
//! vcpu_list::set_cr(&mut vcpus, 1, 3, true)?;
//! assert_eq!((vcpus[1].ready, vcpus[1].crs), (1, 2));
//! assert_eq!(vcpu_list::ready(&mut vcpus, 3), Err(Refusal::BadVcpu));
//! # Ok::<(), Refusal>(())
//! ```

use crate::{ffi, Refusal};

pub use crate::ffi::Vcpu;

fn told(number: u32) -> Result<(), Refusal> {
    match number {
        0 => Ok(()),
        number => Err(Refusal::of(number, 0)),
    }
}

/// Marks the vCPU at an index ready; all other records stay as they are.
///
/// # Errors
/// [`Refusal::BadVcpu`] where the index is not below the list's length.
#[inline]
pub fn ready(vcpus: &mut [Vcpu], index: usize) -> Result<(), Refusal> {
    // SAFETY: the list is borrowed for this call alone.
    told(unsafe { ffi::semblurick_list_ready(vcpus.as_mut_ptr(), vcpus.len(), index) })
}

/// Sets the switch of a control register, 0, 3 or 4, of the vCPU at an index; all other records stay as they are.
///
/// # Errors
/// [`Refusal::BadVcpu`] where the index is not below the list's length; then [`Refusal::NotApplicable`] where it is another register
/// or the vCPU is not ready.
#[inline]
pub fn set_cr(vcpus: &mut [Vcpu], index: usize, cr: u32, on: bool) -> Result<(), Refusal> {
    // SAFETY: the list is borrowed for this call alone.
    told(unsafe { ffi::semblurick_list_cr(vcpus.as_mut_ptr(), vcpus.len(), index, cr, on.into()) })
}
