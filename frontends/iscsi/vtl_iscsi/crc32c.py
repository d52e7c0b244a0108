"""CRC-32C, the digest of RFC 7143 (13.1): reflected polynomial 82F63B78h.

A byte at a time Python makes some ten megabytes a second. A long piece is shortened first, as one whole number: the
polynomial x^5685 + x^1362 + x^426 + 1 is a multiple of the digest's, and so is each of its powers of two, which has
its exponents times that power. So what stands first in a message is replaced by three copies of itself further on,
by shifts of whole numbers, until little is left."""

_POLYNOMIAL = 0x82F63B78
_DEGREE, _NEXT, _THIRD = 5685, 5685 - 1362, 5685 - 426
_SHORT = 1024


def _table() -> list[int]:
    table = []
    for byte in range(256):
        for _ in range(8):
            byte = byte >> 1 ^ (_POLYNOMIAL if byte & 1 else 0)
        table.append(byte)
    return table


_TABLE = _table()


def _shortened(message: int, bits: int) -> tuple[int, int]:
    """A shorter message with the same remainder: the first bit of a message is the lowest of the number."""
    power = 1 << max(bits // _DEGREE, 1).bit_length() - 1
    while power:
        while (gone := min(bits - _DEGREE * power, _NEXT * power) // 8 * 8) > 0:
            head = message & (1 << gone) - 1
            message ^= head << _NEXT * power ^ head << _THIRD * power ^ head << _DEGREE * power
            message >>= gone
            bits -= gone
        power >>= 1
    return message, bits


def crc32c(data: bytes | bytearray | memoryview, before: int = 0) -> int:
    """The digest of these bytes, behind others whose digest is `before`."""
    value = before ^ 0xFFFFFFFF
    if len(data) > _SHORT:
        bits = len(data) * 8
        message, bits = _shortened(int.from_bytes(data, "little") ^ value, bits)
        data, value = message.to_bytes(bits // 8, "little"), 0
    for byte in data:
        value = _TABLE[(value ^ byte) & 0xFF] ^ value >> 8
    return value ^ 0xFFFFFFFF
