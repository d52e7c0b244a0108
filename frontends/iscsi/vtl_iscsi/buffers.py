"""Memory for long data that is used again: new memory costs more than the copy into it.

A buffer is given out anew once nobody looks at it any more, which Python knows: a bytearray that a memoryview looks at
changes its length by no means. All that is given out is written before it is read."""

_LEAST = 65_536
# lengths, and how many of each are kept
_KINDS = ((270_336, 8), (1_100_032, 4))


def _is_free(buffer: bytearray) -> bool:
    try:
        buffer.append(buffer.pop())
    except BufferError:
        return False
    return True


class Buffers:
    def __init__(self) -> None:
        self._kept: dict[int, list[bytearray]] = {length: [] for length, _ in _KINDS}

    def take(self, size: int) -> memoryview:
        if size < _LEAST:
            return memoryview(bytearray(size))
        for length, most in _KINDS:
            if size <= length:
                return memoryview(self._of(length, most))[:size]
        return memoryview(bytearray(size))

    def _of(self, length: int, most: int) -> bytearray:
        kept = self._kept[length]
        for buffer in kept:
            if _is_free(buffer):
                return buffer
        made = bytearray(length)
        if len(kept) < most:
            kept.append(made)
        return made


BUFFERS = Buffers()
