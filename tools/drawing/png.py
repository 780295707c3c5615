"""Files of the format PNG, of 8-bit r, g, b."""
import struct
import zlib


def differences(w, h, rgb):
    """Each row as the format's filter 2, its difference from the row above."""
    above = bytes(3 * w)
    for y in range(h):
        row = rgb[3 * w * y:3 * w * (y + 1)]
        yield b'\2' + (bytes(3 * w) if row == above else bytes((new - old) & 255 for new, old in zip(row, above)))
        above = row


def packed(w, h, rgb):
    """The file of a picture of w by h pixels."""
    rows = zlib.compress(b''.join(differences(w, h, rgb)), 9)
    chunks = (b'IHDR', struct.pack('>IIBBBBB', w, h, 8, 2, 0, 0, 0)), (b'IDAT', rows), (b'IEND', b'')
    return b'\x89PNG\r\n\x1a\n' + b''.join(struct.pack('>I', len(body)) + kind + body + struct.pack('>I', zlib.crc32(kind + body))
                                           for kind, body in chunks)


def unpacked(data):
    """The head and the rows of a file that `packed` made: these agree where another zlib packs the same picture otherwise."""
    body = data[41:data.rindex(b'IEND') - 8]
    return data[:33], zlib.decompress(body)
