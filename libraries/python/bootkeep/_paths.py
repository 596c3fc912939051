"""Device paths (UEFI 2.10, chapter 10)."""

from __future__ import annotations

from ctypes import byref, c_size_t
from dataclasses import dataclass
from typing import Callable, Iterable, Tuple, Union

from ._buffers import Bytes, bytes_in, bytes_of, utf8
from ._faults import BytesLeft, failure, number_in
from ._library import RawRefusal, library
from ._numbers import DONE
from ._values import Value

#: How many bytes the header of a node has.
HEADER = 4

#: The node that ends a path, and the type of those that end something.
END = bytes.fromhex("7fff0400")
END_KIND = 0x7F

#: The type and the subtype of the name of a file.
FILE_KIND, FILE_SUB = 4, 4


def path_text_and_len(data: Bytes) -> Tuple[str, int]:
    """The text of the device path at the start of the bytes, and how many bytes the path takes. What comes after its
    end is left. ``Refused`` has a kind ``PATH_..`` and the place of the node with the fault."""
    return _text_and_len(library.bootkeep_path_text, data)


def path_text(data: Bytes) -> str:
    """The text of the device path that the bytes are, all of them (UEFI 2.10, 10.3 and 10.6), in the one spelling that is
    printed. ``Refused`` as of :func:`path_text_and_len`; :class:`BytesLeft` if bytes come after the path.
    """
    return _whole(path_text_and_len(data), data)


def path_names_and_len(data: Bytes) -> Tuple[str, int]:
    """The text for a person of the device path at the start of the bytes, and how many bytes the path takes.
    ``Refused`` as of :func:`path_text_and_len`."""
    return _text_and_len(library.bootkeep_path_names, data)


def path_names(data: Bytes) -> str:
    """The text for a person of the device path that the bytes are, all of them: each node of the standard has its name
    and its fields (UEFI 2.10, 10.3). :func:`path_parse` reads it. ``Refused`` and :class:`BytesLeft` as of
    :func:`path_text`."""
    return _whole(path_names_and_len(data), data)


def _whole(read: Tuple[str, int], data: Bytes) -> str:
    """The text, unless bytes come after the path of which it is."""
    text, end = read
    count = len(bytes_in(data)[0]) - end
    if count > 0:
        raise BytesLeft(end, count)
    return text


def _text_and_len(call: Callable[..., int], data: Bytes) -> Tuple[str, int]:
    """A text of the device path at the start of the bytes, and how many bytes the path takes."""
    taken, refusal, given = c_size_t(), RawRefusal(), bytes_in(data)
    text = bytes_of(lambda *out: call(*given, *out, byref(taken), byref(refusal)), refusal=refusal)
    return text.decode("utf-8"), taken.value


def path_check(data: Bytes) -> int:
    """How many bytes the device path at the start of the bytes takes. ``Refused`` as of :func:`path_text_and_len`."""
    taken, refusal = c_size_t(), RawRefusal()
    status = library.bootkeep_path_check(*bytes_in(data), byref(taken), byref(refusal))
    if status != DONE:
        raise failure(status, refusal)
    return taken.value


def path_parse(text: str) -> bytes:
    """The bytes of the device path that the text stands for: that of :func:`path_text` or :func:`path_names`, and other
    spellings besides. ``Refused`` has a kind ``TEXT_..`` and the place in the text, in bytes of its UTF-8.
    """
    return _parsed(library.bootkeep_path_parse, text)


def path_parse_exact(text: str) -> bytes:
    """The same for texts as :func:`path_text` gives them, and other spellings of these: the names of most nodes are
    refused."""
    return _parsed(library.bootkeep_path_parse_exact, text)


def _parsed(call: Callable[..., int], text: str) -> bytes:
    """The bytes of the device path of which a call reads the text."""
    refusal, given = RawRefusal(), bytes_in(utf8(text))
    return bytes_of(lambda *out: call(*given, *out, byref(refusal)), refusal=refusal)


@dataclass(frozen=True)
class Node:
    """A node of a device path. As a text it is that of a path of this node alone."""

    #: Its type, as 4 of the nodes of media.
    kind: int
    #: Its subtype, as 4 of the names of files among these.
    sub: int
    #: What comes after its header of four bytes.
    data: bytes = b""

    def __post_init__(self) -> None:
        """``OverflowError`` is of a type or a subtype with more than 8 bits, and of data with more than 65,531 bytes."""
        number_in(self.kind, 8)
        number_in(self.sub, 8)
        number_in(len(self.data) + HEADER, 16)

    @classmethod
    def from_text(cls, text: str) -> Node:
        """The node that the text stands for, as of :func:`path_parse`: ``Pci(0x1,0x0)``. ``Refused`` as there;
        ``ValueError`` is of a text of no node, or of several."""
        nodes = DevicePath.from_text(text).nodes
        if len(nodes) != 1:
            raise ValueError(f"{text!r:.80} stands for {len(nodes)} nodes, and one is wanted")
        return nodes[0]

    @classmethod
    def file(cls, name: str) -> Node:
        """The node of a file, by its name from the root, with backslashes: ``\\EFI\\BOOT\\BOOTX64.EFI``. Any name will do,
        also one with letters that stand for something else in a text of a path. ``ValueError`` is of a zero character,
        which would end the name, and of half of a pair of surrogates.
        """
        if "\0" in name:
            raise ValueError(f"the name has a zero character at {name.index(chr(0))}")
        return cls(FILE_KIND, FILE_SUB, f"{name}\0".encode("utf-16-le"))

    @property
    def is_end(self) -> bool:
        """Whether it ends an instance of a path, of which another one follows."""
        return self.kind == END_KIND

    def __bytes__(self) -> bytes:
        length = len(self.data) + HEADER
        return bytes([self.kind, self.sub]) + length.to_bytes(2, "little") + self.data

    def __str__(self) -> str:
        return str(DevicePath.from_nodes([self]))


class DevicePath(Value):
    """A device path (UEFI 2.10, chapter 10), with the node that ends it::

        path = DevicePath.from_text("PciRoot(0x0)/Pci(0x1,0x0)/File(\\\\EFI\\\\a.efi)")
        other = path.replace(-1, Node.file("\\\\EFI\\\\b.efi"))

    As a text it has the names and the fields of its nodes, for a person, and :meth:`from_text` reads that as the same
    path.
    """

    __slots__ = ()

    @classmethod
    def from_bytes(cls, data: Bytes) -> DevicePath:
        """The path that the bytes are, all of them. ``Refused`` has a kind ``PATH_..`` and the place of the node with the
        fault; :class:`BytesLeft` is of bytes after the path, of which :func:`path_check` tells how many it has.
        """
        held, count = bytes_in(data)
        end = path_check(held)
        if end < count:
            raise BytesLeft(end, count - end)
        return cls._of(held)

    @classmethod
    def from_text(cls, text: str) -> DevicePath:
        """The path that the text stands for, as of :func:`path_parse`. ``Refused`` as there."""
        return cls._of(path_parse(text))

    @classmethod
    def from_nodes(cls, nodes: Iterable[Node]) -> DevicePath:
        """The path of these nodes, without the one that ends it. ``Refused`` and :class:`BytesLeft` as of
        :meth:`from_bytes`, of a node of type 0x7F that ends no instance."""
        return cls.from_bytes(b"".join(map(bytes, nodes)) + END)

    @classmethod
    def _of(cls, data: bytes) -> DevicePath:
        """The path of bytes that the library accepts."""
        path = cls.__new__(cls)
        path._set(_data=data)
        return path

    @property
    def nodes(self) -> Tuple[Node, ...]:
        """The nodes, without the one that ends the path. Between two instances is the node that ends the first."""
        nodes, at = [], 0
        while at < len(self._data) - len(END):
            end = at + int.from_bytes(self._data[at + 2 : at + HEADER], "little")
            nodes.append(Node(self._data[at], self._data[at + 1], self._data[at + HEADER : end]))
            at = end
        return tuple(nodes)

    def replace(self, at: int, node: Node) -> DevicePath:
        """The path with this node in the place of that which :attr:`nodes` has at ``at``, which counts from the end if it
        is negative. ``IndexError`` is of one that isn't there; ``Refused`` and :class:`BytesLeft` as of
        :meth:`from_nodes`."""
        nodes = list(self.nodes)
        nodes[at] = node
        return self.from_nodes(nodes)

    @property
    def exact_text(self) -> str:
        """The text of :func:`path_text`, which is the same for good, and in which most nodes are digits."""
        return path_text(self._data)

    def __str__(self) -> str:
        return path_names(self._data)

    def __repr__(self) -> str:
        return f"DevicePath.from_text({str(self)!r})"


def paths_in(data: bytes) -> Tuple[DevicePath, ...]:
    """The paths that the bytes are, one after the other."""
    paths, start = [], 0
    while start < len(data):
        end = start + path_check(data[start:])
        paths.append(DevicePath.from_bytes(data[start:end]))
        start = end
    return tuple(paths)


def list_of(paths: Iterable[Union[DevicePath, str, Bytes]]) -> bytes:
    """The bytes of the paths, one after the other. A text is read by :func:`path_parse`."""
    if isinstance(paths, (DevicePath, str, bytes, bytearray, memoryview)):
        raise TypeError("paths are wanted, and not one path: put it into a list")
    return b"".join(
        path_parse(path) if isinstance(path, str) else bytes_in(path)[0] for path in paths
    )
