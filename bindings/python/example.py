"""A white square, blurred and given a shadow, written as an image file's bytes; and a call that is refused."""
import corbelrush
from corbelrush import Edge, Refused

W, H = 8, 4
WEIGHTS = (0.25, 0.5, 0.25)

# With numpy: picture = numpy.zeros((H, W, 4), numpy.uint8). Without it, a shape over any bytes:
picture = memoryview(bytearray(4 * W * H)).cast('B', (H, W, 4))
for y in range(1, 3):
    for x in range(2, 5):
        for c in range(4):
            picture[y, x, c] = 255

corbelrush.blur(picture, WEIGHTS, n=1, edge=Edge.NONE)
corbelrush.shadow(picture, WEIGHTS, dx=1, dy=1, colour=(0.0, 0.0, 0.5, 0.75))
for y in range(H):
    print(' '.join('%3d' % picture[y, x, 3] for x in range(W)))

print('premultiplied:', corbelrush.check(picture) is None)
print('image file of', len(corbelrush.pam_write(picture)), 'bytes')

try:
    corbelrush.blur(picture, WEIGHTS, n=15)
except Refused as refused:
    print(refused)
