"""soften IN OUT: a PAM file, blurred by 1, 4, 6, 4, 1 over 16 with one decimation, written as a PAM file."""
import sys
from pathlib import Path

import corbelrush


def main(source, target):
    picture = corbelrush.pam_read(Path(source).read_bytes())
    weights = [weight / 16 for weight in (1, 4, 6, 4, 1)]
    corbelrush.blur(picture, weights, n=1, edge=corbelrush.Edge.DUPLICATE)
    Path(target).write_bytes(corbelrush.pam_write(picture))


if __name__ == '__main__':
    if len(sys.argv) != 3:
        sys.exit('usage: soften IN OUT')
    try:
        main(*sys.argv[1:])
    except corbelrush.Refused as refused:
        sys.exit(f'soften: {refused}')
