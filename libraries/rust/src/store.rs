//! Emulators' variable files, as edk2's OVMF keeps them.

use crate::error::Error;
use crate::library;

/// What a variable file has of the variables that the standard names (UEFI 2.10, 3.3), as a set of what a machine keeps,
/// [`MachineState::variables`](crate::MachineState): the data of Boot####, BootOrder, BootNext and Timeout comes after its
/// attributes. What no set can hold is left out.
///
/// # Errors
///
/// A fault `Store..`, otherwise [`MachineTooLong`](crate::Fault::MachineTooLong); [`Error::NoMemory`].
pub fn vars(file: &[u8]) -> Result<Vec<u8>, Error> {
    library::store_vars(file)
}

/// The bytes of a variable file once its Boot####, BootOrder, BootNext and Timeout are those of a set of what a machine
/// keeps: those that the set hasn't got are deleted, and all other variables stay.
///
/// # Errors
///
/// A fault `Set..`, otherwise [`MachineNoData`](crate::Fault::MachineNoData), otherwise a fault `Store..`;
/// [`Error::NoMemory`].
pub fn with(file: &[u8], set: &[u8]) -> Result<Vec<u8>, Error> {
    library::store_with(file, set)
}
