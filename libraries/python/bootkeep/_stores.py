"""Emulators' variable files, as edk2's OVMF keeps them."""

from __future__ import annotations

from ctypes import byref
from typing import Union

from ._buffers import ROOM, Bytes, bytes_in, bytes_of
from ._library import RawRefusal, library
from ._sets import BootVariables


def store_vars(file: Bytes) -> bytes:
    """What a variable file has of the variables that the standard names (UEFI 2.10, 3.3), as a set of what a machine keeps,
    :attr:`MachineState.variables`: the data of Boot####, BootOrder, BootNext and Timeout comes after its attributes. What
    no set can hold is left out. ``Refused`` has a kind ``STORE_..``, otherwise ``MACHINE_TOO_LONG``.
    """
    refusal, given = RawRefusal(), bytes_in(file)
    return bytes_of(
        lambda *out: library.bootkeep_store_vars(*given, *out, byref(refusal)), given[1], refusal
    )


def store_with(file: Bytes, variables: Union[BootVariables, Bytes]) -> bytes:
    """The bytes of a variable file once its Boot####, BootOrder, BootNext and Timeout are those of a set of what a machine
    keeps: those that the set hasn't got are deleted, and all other variables stay. ``Refused`` has a kind ``SET_..``,
    otherwise ``MACHINE_NO_DATA``, otherwise ``STORE_..``."""
    refusal, given = RawRefusal(), (*bytes_in(file), *bytes_in(variables))
    room = given[1] + ROOM
    return bytes_of(
        lambda *out: library.bootkeep_store_with(*given, *out, byref(refusal)), room, refusal
    )
