"""The font of labels.

docs/INSTRUCTIONS.md, "Labels", shows its characters. A point is two digits, its column from 0 to 4 and
its row from 0 to 6; ` / ` separates polylines, and a polyline of one point is a dot.
"""

FONT = r"""
! 26 22 / 20
" 16 14 / 36 34
# 10 16 / 30 36 / 02 42 / 04 44
$ 45 05 03 43 41 01 / 26 20
% 00 46 / 05 / 41
& 40 04 05 16 25 24 01 10 20 42
' 26 24
( 36 24 22 30
) 16 24 22 10
* 21 25 / 02 44 / 04 42
+ 21 25 / 03 43
, 21 10
- 03 43
. 20
/ 00 46
0 10 01 05 16 36 45 41 30 10 / 01 45
1 15 26 20 / 10 30
2 05 16 36 45 44 00 40
3 05 16 36 45 44 33 13 / 33 42 41 30 10 01
4 30 36 02 42
5 46 06 03 33 42 41 30 10 01
6 45 36 16 05 01 10 30 41 42 33 03
7 06 46 10
8 13 04 05 16 36 45 44 33 13 02 01 10 30 41 42 33
9 01 10 30 41 45 36 16 05 04 13 43
: 24 / 21
; 24 / 21 10
< 45 03 41
= 04 44 / 02 42
> 05 43 01
? 05 16 36 45 44 22 / 20
@ 32 34 14 12 42 45 36 16 05 01 10 40
A 00 04 26 44 40 / 03 43
B 00 06 36 45 44 33 03 / 33 42 41 30 00
C 45 36 16 05 01 10 30 41
D 00 06 26 44 42 20 00
E 46 06 00 40 / 03 33
F 46 06 00 / 03 33
G 45 36 16 05 01 10 30 41 43 23
H 06 00 / 46 40 / 03 43
I 16 36 / 26 20 / 10 30
J 46 41 30 10 01
K 06 00 / 46 02 / 13 40
L 06 00 40
M 00 06 23 46 40
N 00 06 40 46
O 10 01 05 16 36 45 41 30 10
P 00 06 36 45 44 33 03
Q 10 01 05 16 36 45 41 30 10 / 22 40
R 00 06 36 45 44 33 03 / 23 40
S 45 36 16 05 04 13 33 42 41 30 10 01
T 06 46 / 26 20
U 06 01 10 30 41 46
V 06 20 46
W 06 10 23 30 46
X 00 46 / 06 40
Y 06 23 46 / 23 20
Z 06 46 00 40
[ 36 16 10 30
\ 06 40
] 16 36 30 10
^ 04 26 44
_ 00 40
` 16 24
{ 36 25 24 13 22 21 30
| 26 20
} 16 25 24 33 22 21 10
~ 03 14 32 43
"""


def polylines(text):
    """The polylines of a line of the font, as lists of points."""
    return [[(int(p[0]), int(p[1])) for p in line.split()] for line in text.split(" / ")]


GLYPHS = {ord(line[0]): polylines(line[2:]) for line in FONT.strip().splitlines()}
# A small letter has the strokes of its capital.
GLYPHS.update({small: GLYPHS[small - 32] for small in range(ord("a"), ord("z") + 1)})


def strokes(byte):
    """The strokes of a character, each by its two points on the grid."""
    for points in GLYPHS.get(byte, []):
        yield from zip(points, points[1:] or points)
