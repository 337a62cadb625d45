"""V.90 Table 1, the universal set of PCM codewords, as printed in source document 001.

Each printed row holds two Ucodes, and for each its µ-law octet, µ-law linear value, A-law octet
and A-law linear value. The octets are those of the positive codewords. Thirteen rows of the source
text have a Cyrillic В or С where the Latin letter is meant: Ucodes 6, 8, 9, 12, 15, 30, 34, 35, 37,
38, 44, 45 and 52 with the Ucode printed beside each. Here they are Latin.

octet_of and value_of read the printed table, and the codec of the model uses it. octet_by_rule and
value_by_rule are the rules of the same octets and linear values as arithmetic; they read nothing of
the table.
"""

MU, A = 0, 1

PRINTED = """
  0 FF    0 D5    8    64 BF  1980 95  2112
  1 FE    8 D4   24    65 BE  2108 94  2240
  2 FD   16 D7   40    66 BD  2236 97  2368
  3 FC   24 D6   56    67 BC  2364 96  2496
  4 FB   32 D1   72    68 BB  2492 91  2624
  5 FA   40 D0   88    69 BA  2620 90  2752
  6 F9   48 D3  104    70 B9  2748 93  2880
  7 F8   56 D2  120    71 B8  2876 92  3008
  8 F7   64 DD  136    72 B7  3004 9D  3136
  9 F6   72 DC  152    73 B6  3132 9C  3264
 10 F5   80 DF  168    74 B5  3260 9F  3392
 11 F4   88 DE  184    75 B4  3388 9E  3520
 12 F3   96 D9  200    76 B3  3516 99  3648
 13 F2  104 D8  216    77 B2  3644 98  3776
 14 F1  112 DB  232    78 B1  3772 9B  3904
 15 F0  120 DA  248    79 B0  3900 9A  4032
 16 EF  132 C5  264    80 AF  4092 85  4224
 17 EE  148 C4  280    81 AE  4348 84  4480
 18 ED  164 C7  296    82 AD  4604 87  4736
 19 EC  180 C6  312    83 AC  4860 86  4992
 20 EB  196 C1  328    84 AB  5116 81  5248
 21 EA  212 C0  344    85 AA  5372 80  5504
 22 E9  228 C3  360    86 A9  5628 83  5760
 23 E8  244 C2  376    87 A8  5884 82  6016
 24 E7  260 CD  392    88 A7  6140 8D  6272
 25 E6  276 CC  408    89 A6  6396 8C  6528
 26 E5  292 CF  424    90 A5  6652 8F  6784
 27 E4  308 CE  440    91 A4  6908 8E  7040
 28 E3  324 C9  456    92 A3  7164 89  7296
 29 E2  340 C8  472    93 A2  7420 88  7552
 30 E1  356 CB  488    94 A1  7676 8B  7808
 31 E0  372 CA  504    95 A0  7932 8A  8064
 32 DF  396 F5  528    96 9F  8316 B5  8448
 33 DE  428 F4  560    97 9E  8828 B4  8960
 34 DD  460 F7  592    98 9D  9340 B7  9472
 35 DC  492 F6  624    99 9C  9852 B6  9984
 36 DB  524 F1  656   100 9B 10364 B1 10496
 37 DA  556 F0  688   101 9A 10876 B0 11008
 38 D9  588 F3  720   102 99 11388 B3 11520
 39 D8  620 F2  752   103 98 11900 B2 12032
 40 D7  652 FD  784   104 97 12412 BD 12544
 41 D6  684 FC  816   105 96 12924 BC 13056
 42 D5  716 FF  848   106 95 13436 BF 13568
 43 D4  748 FE  880   107 94 13948 BE 14080
 44 D3  780 F9  912   108 93 14460 B9 14592
 45 D2  812 F8  944   109 92 14972 B8 15104
 46 D1  844 FB  976   110 91 15484 BB 15616
 47 D0  876 FA 1008   111 90 15996 BA 16128
 48 CF  924 E5 1056   112 8F 16764 A5 16896
 49 CE  988 E4 1120   113 8E 17788 A4 17920
 50 CD 1052 E7 1184   114 8D 18812 A7 18944
 51 CC 1116 E6 1248   115 8C 19836 A6 19968
 52 CB 1180 E1 1312   116 8B 20860 A1 20992
 53 CA 1244 E0 1376   117 8A 21884 A0 22016
 54 C9 1308 E3 1440   118 89 22908 A3 23040
 55 C8 1372 E2 1504   119 88 23932 A2 24064
 56 C7 1436 ED 1568   120 87 24956 AD 25088
 57 C6 1500 EC 1632   121 86 25980 AC 26112
 58 C5 1564 EF 1696   122 85 27004 AF 27136
 59 C4 1628 EE 1760   123 84 28028 AE 28160
 60 C3 1692 E9 1824   124 83 29052 A9 29184
 61 C2 1756 E8 1888   125 82 30076 A8 30208
 62 C1 1820 EB 1952   126 81 31100 AB 31232
 63 C0 1884 EA 2016   127 80 32124 AA 32256
"""


def rows():
    """(Ucode, µ-law octet, µ-law linear, A-law octet, A-law linear), Ucode 0 first."""
    found = []
    for line in PRINTED.split("\n"):
        words = line.split()
        for five in (words[:5], words[5:]):
            if five:
                ucode, mu, mu_linear, a, a_linear = five
                found.append((int(ucode), int(mu, 16), int(mu_linear), int(a, 16), int(a_linear)))
    return sorted(found)


_MU_OCTETS = [row[1] for row in rows()]
_MU_LINEAR = [row[2] for row in rows()]
_A_OCTETS = [row[3] for row in rows()]
_A_LINEAR = [row[4] for row in rows()]

OCTETS = (_MU_OCTETS, _A_OCTETS)
LINEAR = (_MU_LINEAR, _A_LINEAR)
UCODES = tuple({octet: ucode for ucode, octet in enumerate(column)} for column in OCTETS)


def octet_of(law, sign, ucode):
    """The printed octet of a Ucode: sign 1 is positive, and a negative octet lacks the top bit."""
    return OCTETS[law][ucode] if sign else OCTETS[law][ucode] & 0x7F


def octet_by_rule(law, sign, ucode):
    """The octet of a Ucode by arithmetic: no conditional and no look-up.

    FF XOR u in µ-law and D5 XOR u in A-law, less the top bit's 128 where the sign is 0.
    """
    constant = 0xFF - (0xFF - 0xD5) * law
    return (constant ^ ucode) - 128 * (1 - sign)


def ucode_of(law, octet):
    """The Ucode of an octet, whatever its sign."""
    return UCODES[law][octet | 0x80]


def value_of(law, ucode):
    """The printed linear value of a Ucode, which has no sign."""
    return LINEAR[law][ucode]


def value_by_rule(law, ucode):
    """The linear value of a Ucode by arithmetic: eight Uchords of 16 equal steps each.

    In µ-law the steps are 8, 16, 32 and so on, and Uchord s begins at 132 × (2^s - 1). In A-law
    they are 16, 16, 32 and so on, and values stand half a step above a multiple of it: the first
    16 multiples in Uchord 0, the next 16 in each other.
    """
    uchord, place = divmod(ucode, 16)
    if law == MU:
        return 132 * (2**uchord - 1) + 8 * 2**uchord * place
    step = 16 * 2 ** max(uchord - 1, 0)
    return step * (16 * min(uchord, 1) + place) + step // 2


def linear_of(law, octet):
    """The table's linear value with the octet's sign."""
    value = value_of(law, ucode_of(law, octet))
    return value if octet & 0x80 else -value
