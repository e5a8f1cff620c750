"""How often the cases of each name must have each answer at the least, written as documents.py
counts; `lent` is a lent call that was taken, `nil` a nil opening by value that was taken and `nil
lent` a lent one, each with the number after it where it was refused. Of what would have been taken
`open`, `open nil`, `close` and `finish` say that such an event is listed, `nothing` that none is,
and `depth` how many elements are open, where none or 64 are."""

TOTALS = {"S": 14000, "C": 3200, "E": 16800, "J": 34300, "V": 2800, "P": 1024, "Q": 300, "W": 7400,
          "N": 9000, "X": 2900}

LEAST = {
    "S samples": "3 0, 1 2, 1 4, 1 8, 1 9, 1 24, 6 cases",
    "S buffers": "11 0, 21 1, 3 2, 2 3, 2 4, 2 8, 3 9, 3 24, 42 cases",
    "S limits": "21 0, 8 2, 5 3, 52 4, 11 5, 3 6, 2 7, 4 8, 8 24, 104 cases",
    "S structures": "30 0, 8 8, 30 9, 15 24, 68 cases",
    "S cut": "48 2, 48 cases",
    "S every byte": "42 0, 168 2, 40 3, 268 4, 4 6, 29 7, 2 8, 38 9, 18 24, 588 cases",
    "S after DONE": "2 2, 25 3, 3 4, 1 7, 1 8, 1 9, 31 cases",
    "S repeats": "1 0, 9 3, 8 4, 20 6, 1 7, 4 8, 9 24, 51 cases",
    "S random bytes": "1 0, 144 2, 16 3, 66 4, 11 6, 4 7, 1 8, 240 cases",
    "S damaged": "5 0, 62 2, 80 3, 82 4, 44 6, 10 7, 38 8, 2 9, 20 24, 350 cases",
    "S random": "84 0, 30 8, 180 9, 161 24, 385 cases",
    "S words": "80 9, 8 24, 80 cases",
    "S expressions, samples": "2 0, 1 8, 2 9, 1 24, 9 cases",
    "S expressions, by hand": "7 0, 1 24, 16 cases",
    "S expressions, competition": "2 0, 12 9, 2 24, 21 cases",
    "S expressions, no tree": "6 8, 1 24, 8 cases",
    "S expressions, buffers": "2 0, 10 1, 2 3, 2 9, 2 21, 2 22, 20 cases",
    "S expressions, order": "48 0, 81 2, 90 3, 15 21, 13 24, 234 cases",
    "S expressions, every text": "136 0, 22 8, 344 21, 59 24, 503 cases",
    "S expressions, outside": "1 0, 10 2, 55 3, 2 24, 71 cases",
    "S expressions, types": "4 0, 1 2, 1 3, 10 4, 2 5, 6 7, 1 8, 3 21, 1 24, 28 cases",
    "S expressions, brackets": "28 0, 2 2, 1 3, 1 4, 2 21, 29 23, 6 24, 62 cases",
    "S expressions, uses": "1 0, 3 2, 1 3, 2 4, 1 21, 18 22, 5 24, 33 cases",
    "S expressions, steps": "1 2, 1 3, 2 4, 12 5, 4 21, 1 22, 1 23, 6 24, 32 cases",
    "S expressions, large": "7 0, 17 24, 40 cases",
    "S expressions, empty": "6 0, 3 9, 29 24, 43 cases",
    "S expressions, not given": "4 3, 53 7, 4 8, 1 9, 4 21, 1 24, 66 cases",
    "S expressions, cut": "1 0, 103 2, 16 3, 5 4, 3 7, 130 cases",
    "S expressions, damaged":
        "48 0, 279 2, 254 3, 254 4, 1 6, 45 7, 4 8, 2 9, 151 21, 19 24, 1043 cases",
    "S expressions, random": "51 0, 25 8, 33 9, 115 24, 225 cases",
    "S roots, counts": "1 0, 1 2, 1 3, 3 4, 9 5, 8 24, 31 cases",
    "S roots, repeats": "17 6, 17 cases",
    "S roots, range": "14 4, 14 cases",
    "S roots, order": "19 2, 36 3, 1 6, 1 24, 58 cases",
    "S roots, by hand": "4 0, 8 9, 12 24, 48 cases",
    "S roots, no tree": "2 7, 7 8, 1 9, 10 cases",
    "S roots, buffers": "4 1, 1 8, 1 9, 6 cases",
    "S roots, damaged": "1 0, 6 2, 4 3, 15 4, 10 6, 1 8, 3 9, 1 24, 45 cases",
    "S roots, random": "1 0, 3 8, 5 9, 11 24, 39 cases",
    "S nil, places": "31 0, 37 3, 68 cases",
    "S nil, twice": "32 0, 35 6, 67 cases",
    "S nil, after": "3 0, 26 2, 25 3, 5 4, 1 24, 64 cases",
    "S nil, inside": "1 0, 2 2, 15 3, 3 6, 1 24, 22 cases",
    "S nil, first number": "4 2, 5 3, 5 6, 1 7, 15 cases",
    "S nil, limits": "1 0, 1 5, 4 6, 1 24, 9 cases",
    "S nil, by hand": "14 0, 16 9, 10 24, 82 cases",
    "S nil, long": "1 0, 1 9, 2 cases",
    "S nil, no tree": "5 8, 2 24, 10 cases",
    "S nil, buffers": "4 1, 1 8, 1 9, 6 cases",
    "S nil, cut": "97 2, 97 cases",
    "S nil, stray bytes": "5 0, 136 2, 87 3, 90 4, 28 6, 15 7, 4 8, 4 21, 5 24, 385 cases",
    "S nil, damaged": "7 0, 17 2, 34 3, 21 4, 25 6, 7 7, 4 8, 7 9, 2 21, 21 24, 150 cases",
    "S nil, random": "20 0, 9 8, 32 9, 67 24, 153 cases",
    "S reduced": "455 0, 3 1, 168 9, 626 cases",
    "S unused, by hand": "3 0, 13 24, 16 cases",
    "S unused, written": "13 0, 13 cases",
    "S unused, competing": "2 9, 2 24, 5 cases",
    "S unused, no tree": "2 8, 2 cases",
    "S unused, buffers": "3 1, 3 24, 6 cases",
    "S unused, longest": "1 0, 1 2, 4 3, 1 5, 1 6, 8 cases",
    "S unused, limits": "5 0, 1 8, 27 24, 33 cases",
    "S unused, expressions": "20 0, 193 24, 213 cases",
    "S unused, damaged": "1 0, 31 2, 30 3, 40 4, 11 6, 8 7, 3 8, 8 21, 16 24, 150 cases",
    "S unused, random": "50 0, 10 8, 20 9, 200 24, 280 cases",
    "C samples": "2 13, 1 14, 1 17, 68 lent, 3 lent refused, 14 ok, 46 type, 5 cases",
    "C no schema": "9 10, 2 18, 1 lent, 4 lent refused, 3 ok, 2 type, 2 cases",
    "C every refusal":
        "126 11, 480 12, 248 13, 66 15, 177 16, 21 17, 108 18, 26 lent, 601 lent refused, 33 ok, "
        "27 type, 6 cases",
    "C levels":
        "1 11, 7 12, 5 13, 5 14, 5 15, 3 16, 2 18, 226 lent, 15 lent refused, 190 ok, 220 type, 3 "
        "cases",
    "C large": "1 13, 1 16, 1 17, 1 18, 30 lent, 7 lent refused, 35 ok, 34 type, 3 cases",
    "C readings made up":
        "1113 10, 176 11, 73 12, 221 13, 4 14, 41 15, 118 16, 41 17, 109 18, 161 lent, 993 lent "
        "refused, 136 ok, 185 type, 85 cases",
    "C schemas made up":
        "617 10, 180 11, 361 13, 178 15, 11 16, 8 17, 9 18, 456 lent, 759 lent refused, 522 ok, "
        "355 type, 186 cases",
    "C random schemas":
        "51 11, 14 12, 52 13, 10 15, 47 16, 18 17, 32 18, 309 lent, 694 lent refused, 266 ok, 340 "
        "type, 220 cases",
    "C walks":
        "62 11, 18 12, 49 13, 10 15, 19 16, 8 17, 31 18, 150 lent, 109 lent refused, 156 ok, 146 "
        "type, 24 cases",
    "C long":
        "5 11, 4 12, 13 13, 1 14, 5 16, 7 18, 98 lent, 449 lent refused, 75 ok, 105 type, 6 cases",
    "C random values":
        "148 10, 15 11, 15 12, 64 13, 7 14, 16 15, 43 16, 12 17, 28 18, 47 lent, 700 lent "
        "refused, 31 ok, 67 type, 130 cases",
    "C expressions":
        "127 11, 253 12, 210 13, 47 15, 175 16, 37 17, 91 18, 275 lent, 460 lent refused, 269 ok, "
        "314 type, 46 cases",
    "C roots":
        "261 11, 322 12, 561 13, 186 15, 429 16, 4 17, 78 18, 56 lent, 924 lent refused, 111 ok, "
        "111 type, 26 cases",
    "C roots made up":
        "69 10, 3 12, 31 13, 16 15, 4 16, 2 17, 2 18, 94 lent, 214 lent refused, 102 ok, 99 type, "
        "36 cases",
    "C nil":
        "9 10, 310 11, 1039 12, 750 13, 15 14, 127 15, 238 16, 52 17, 201 18, 266 lent, 2173 lent "
        "refused, 41 nil, 2 nil 10, 50 nil 11, 171 nil 12, 195 nil 13, 3 nil 14, 45 nil lent, 3 "
        "nil lent 10, 81 nil lent 11, 181 nil lent 12, 187 nil lent 13, 3 nil lent 14, 225 ok, "
        "295 type, 140 cases",
    "C nil made up":
        "396 10, 44 11, 35 12, 131 13, 9 14, 25 15, 48 16, 26 17, 41 18, 82 lent, 738 lent "
        "refused, 13 nil, 68 nil 10, 7 nil 11, 7 nil 12, 31 nil 13, 3 nil 14, 15 nil lent, 54 nil "
        "lent 10, 17 nil lent 11, 6 nil lent 12, 33 nil lent 13, 3 nil lent 14, 79 ok, 69 type, "
        "111 cases",
    "C nil, kept sets": "6 lent, 1 nil, 2 nil lent, 7 ok, 6 type, 6 cases",
    "C nil, none nillable":
        "33 11, 105 12, 286 13, 63 lent, 550 lent refused, 16 nil 11, 52 nil 12, 143 nil 13, 16 "
        "nil lent 11, 52 nil lent 12, 143 nil lent 13, 28 ok, 87 type, 15 cases",
    "C reduced":
        "786 10, 945 11, 666 12, 2143 13, 141 14, 473 15, 1042 16, 458 17, 640 18, 2831 lent, "
        "3622 lent refused, 82 nil, 2 nil 10, 58 nil 11, 37 nil 12, 238 nil 13, 70 nil lent, 2 "
        "nil lent 10, 37 nil lent 11, 44 nil lent 12, 224 nil lent 13, 2416 ok, 3190 type, 571 "
        "cases",
    "C unused":
        "163 11, 20 12, 92 13, 36 15, 43 16, 16 17, 25 18, 190 lent, 193 lent refused, 14 nil, 8 "
        "nil 11, 1 nil 12, 8 nil 13, 19 nil lent, 7 nil lent 11, 3 nil lent 12, 10 nil lent 13, "
        "205 ok, 181 type, 64 cases",
    "E samples": "3 0, 1 11, 1 13, 1 14, 1 17, 2 19, 1 20, 8 cases",
    "E cut": "7 0, 123 19, 129 cases",
    "E buffers": "46 0, 46 11, 46 12, 46 19, 116 20, 298 cases",
    "E after the finish": "46 11, 42 19, 88 cases",
    "E stray bytes": "6 11, 364 12, 22 13, 2 15, 23 16, 40 18, 287 19, 744 cases",
    "E every byte": "2 0, 1 11, 253 12, 1 13, 2 16, 1 18, 382 19, 640 cases",
    "E every event": "150 11, 516 12, 329 13, 86 15, 238 16, 23 17, 123 18, 50 20, 1514 cases",
    "E levels": "11 0, 9 12, 3 13, 17 14, 2 16, 4 18, 7 19, 36 20, 87 cases",
    "E no schema": "74 10, 74 19, 147 cases",
    "E large": "1 0, 2 11, 1 13, 1 14, 1 17, 1 18, 2 19, 1 20, 8 cases",
    "E large schemas": "10 0, 15 13, 3 17, 30 cases",
    "E random, valid": "132 0, 450 cases",
    "E random, buffers": "52 20, 330 cases",
    "E random, damaged":
        "14 0, 5 11, 28 12, 31 13, 16 15, 22 16, 22 17, 15 18, 123 19, 26 20, 1110 cases",
    "E random, any bytes": "41 12, 10 13, 1 15, 1 16, 12 18, 56 19, 1 20, 120 cases",
    "E expressions":
        "83 0, 4 10, 38 11, 166 12, 158 13, 2 14, 28 15, 118 16, 22 17, 47 18, 139 19, 29 20, 873 "
        "cases",
    "E roots": "3 0, 7 11, 11 12, 22 13, 1 14, 7 15, 3 16, 1 17, 2 18, 4 19, 1 20, 85 cases",
    "E nil":
        "37 0, 2 10, 13 11, 35 12, 37 13, 3 14, 6 15, 3 16, 4 17, 4 18, 44 19, 14 20, 377 cases",
    "E nil, stray bytes": "1 0, 1 11, 36 12, 3 13, 27 19, 283 cases",
    "E nil, none nillable": "16 11, 51 12, 141 13, 544 cases",
    "E reduced":
        "110 0, 27 11, 83 12, 68 13, 29 15, 27 16, 22 17, 27 18, 84 19, 113 20, 600 cases",
    "E unused": "50 0, 150 10, 200 cases",
    "E unused, written":
        "25 0, 6 11, 19 12, 58 13, 14 15, 12 16, 11 17, 15 18, 34 19, 3 20, 200 cases",
    "J samples": "4 0, 1 2, 1 4, 1 8, 1 9, 2 13, 1 14, 2 17, 1 24, 10 cases",
    "J random":
        "1011 0, 170 8, 280 9, 164 11, 364 12, 522 13, 254 15, 324 16, 425 17, 337 18, 954 19, "
        "7927 24, 12210 cases",
    "J damaged":
        "7 0, 105 2, 65 3, 175 4, 51 6, 40 7, 27 8, 1 12, 7 13, 1 16, 5 17, 1 18, 1 19, 87 24, "
        "538 cases",
    "J deep": "13 0, 36 12, 3 13, 65 14, 7 16, 17 17, 18 18, 99 19, 162 24, 360 cases",
    "J big files": "1 4, 29 5, 1 8, 4 24, 32 cases",
    "J sizes": "2 0, 1 2, 3 3, 1 5, 1 11, 1 14, 1 17, 1 18, 1 19, 1 24, 3 too long, 12 cases",
    "J words": "80 9, 8 24, 80 cases",
    "J expressions":
        "44 0, 8 2, 10 8, 21 9, 16 11, 31 12, 26 13, 1 14, 25 15, 10 16, 29 17, 13 18, 42 19, 230 "
        "24, 453 cases",
    "J roots": "16 0, 4 8, 9 9, 1 11, 1 12, 10 13, 1 15, 1 18, 25 24, 68 cases",
    "J nil":
        "28 0, 9 8, 47 9, 2 11, 4 12, 18 13, 1 14, 5 15, 1 16, 3 17, 1 18, 7 19, 122 24, 277 "
        "cases",
    "J nil, none nillable": "2 12, 23 13, 8 24, 68 cases",
    "J reduced":
        "400 0, 37 9, 85 11, 170 12, 280 13, 4 14, 140 15, 145 16, 160 17, 155 18, 430 19, 2000 "
        "cases",
    "J unused": "54 0, 1 13, 1 17, 165 24, 222 cases",
    "J unused, written": "200 0, 200 cases",
    "V samples":
        "7 judge 0, 13 judge 1, 4 judge 10, 1 judge 8, 2 judge 9, 8 search 0, 13 search 1, 4 "
        "search 10, 2 search 9, 27 cases",
    "V limits":
        "99 judge 0, 9 judge 1, 186 judge 10, 6 judge 8, 4 judge 9, 106 search 0, 9 search 1, 186 "
        "search 10, 4 search 9, 305 cases",
    "V structures": "15 judge 0, 4 judge 8, 15 judge 9, 19 search 0, 15 search 9, 34 cases",
    "V by puts":
        "15 judge 0, 9 judge 1, 2 judge 8, 3 judge 9, 17 search 0, 9 search 1, 3 search 9, 30 "
        "cases",
    "V random":
        "30 judge 0, 42 judge 1, 5 judge 10, 4 judge 8, 8 judge 9, 34 search 0, 42 search 1, 5 "
        "search 10, 8 search 9, 200 cases",
    "V words": "80 judge 9, 80 search 9, 80 cases",
    "V expressions": "50 judge 0, 5 judge 8, 30 judge 9, 55 search 0, 30 search 9, 85 cases",
    "V roots":
        "8 judge 0, 4 judge 1, 4 judge 8, 21 judge 9, 13 search 0, 4 search 1, 21 search 9, 36 "
        "cases",
    "V roots made up":
        "6 judge 0, 13 judge 10, 1 judge 9, 6 search 0, 13 search 10, 1 search 9, 52 cases",
    "V nil":
        "26 judge 0, 2 judge 1, 6 judge 8, 49 judge 9, 63 search 0, 2 search 1, 49 search 9, 115 "
        "cases",
    "V nil made up":
        "17 judge 0, 1 judge 8, 19 judge 9, 2 judge 10, 17 search 0, 19 search 9, 2 search 10, "
        "136 cases",
    "V reduced":
        "240 judge 0, 29 judge 1, 90 judge 10, 18 judge 8, 49 judge 9, 259 search 0, 29 search 1, "
        "90 search 10, 49 search 9, 427 cases",
    "P pairs": "512 inside, 16 outside, 528 cases",
    "Q sets":
        "71 below no, 85 below yes, 123 has no, 33 has yes, 68 meets no, 87 meets yes, 156 cases",
    "W by hand": "99 0, 4 8, 7 9, 49 20, 160 cases",
    "W second pass": "213 0, 2 9, 215 cases",
    "W numbers": "10 2, 17 3, 5 4, 5 5, 2 6, 2 7, 2 8, 5 9, 5 21, 2 22, 2 23, 59 cases",
    "W same": "25 0, 25 20, 51 cases",
    "W limits": "65 0, 1 8, 65 20, 131 cases",
    "W expressions": "548 0, 91 20, 640 cases",
    "W cut": "33 2, 33 cases",
    "W every byte": "20 0, 57 2, 21 3, 79 4, 1 6, 8 7, 2 8, 1 9, 190 cases",
    "W commands": "84 0, 14 2, 82 3, 7 4, 72 6, 7 7, 26 8, 10 21, 304 cases",
    "W random": "1136 0, 59 8, 114 9, 191 20, 1500 cases",
    "W damaged": "37 0, 86 2, 99 3, 110 4, 33 6, 28 7, 12 8, 13 9, 9 20, 21 21, 450 cases",
    "N known":
        "1 0, 1 11, 1 12, 7 13, 1 14, 1 15, 1 16, 2 17, 2 18, 2 19, 5 close, 7 depth 0, 1 depth "
        "64, 1 finish, 2 nothing, 9 open, 4 open nil, 15 cases",
    "N cut":
        "34 0, 610 19, 412 close, 136 depth 0, 34 finish, 34 nothing, 367 open, 115 open nil, 644 "
        "cases",
    "N every event":
        "51 11, 152 12, 132 13, 26 15, 60 16, 5 17, 30 18, 237 close, 147 depth 0, 53 finish, 51 "
        "nothing, 221 open, 92 open nil, 455 cases",
    "N stray bytes":
        "2 0, 6 11, 212 12, 25 13, 1 15, 12 16, 20 18, 139 19, 253 close, 84 depth 0, 25 finish, "
        "16 nothing, 241 open, 82 open nil, 415 cases",
    "N after the finish": "25 11, 18 19, 42 depth 0, 42 nothing, 42 cases",
    "N after the root": "11 12, 21 13, 11 15, 42 depth 0, 42 finish, 42 cases",
    "N depths":
        "16 0, 54 12, 45 13, 10 14, 6 15, 8 16, 23 17, 264 18, 385 19, 554 close, 82 depth 0, 51 "
        "depth 64, 25 finish, 23 nothing, 708 open, 248 open nil, 808 cases",
    "N nil depths":
        "64 13, 128 19, 191 close, 1 depth 0, 2 depth 64, 1 finish, 32 open, 32 open nil, 192 "
        "cases",
    "N widest":
        "1 11, 11 12, 23 13, 1 14, 13 18, 40 19, 60 close, 29 depth 0, 2 depth 64, 18 finish, 1 "
        "nothing, 30 open, 24 open nil, 88 cases",
    "N large": "1 0, 1 13, 1 14, 1 19, 3 close, 1 depth 0, 2 depth 64, 1 nothing, 1 open, 3 cases",
    "N no schema": "25 10, 20 19, 45 depth 0, 45 nothing, 45 cases",
    "N limits":
        "158 10, 16 12, 92 13, 265 19, 75 close, 435 depth 0, 319 nothing, 166 open, 22 open nil, "
        "529 cases",
    "N made up":
        "4 10, 2 12, 124 13, 15 17, 157 19, 74 close, 149 depth 0, 4 finish, 58 nothing, 164 "
        "open, 52 open nil, 301 cases",
    "N random":
        "79 0, 26 11, 45 12, 182 13, 50 15, 40 16, 41 17, 44 18, 135 19, 232 close, 308 depth 0, "
        "88 finish, 122 nothing, 313 open, 74 open nil, 640 cases",
    "N random values":
        "85 0, 5 10, 18 11, 11 12, 44 13, 27 15, 17 16, 3 17, 20 18, 102 19, 121 close, 174 depth "
        "0, 17 finish, 124 nothing, 125 open, 57 open nil, 330 cases",
    "X known":
        "2 0, 1 2, 1 8, 1 9, 1 11, 1 12, 8 13, 1 14, 1 15, 1 16, 2 17, 2 18, 3 19, 1 24, 5 close, "
        "9 depth 0, 1 depth 64, 2 finish, 3 nothing, 11 open, 4 open nil, 1 too long, 21 cases",
    "X deep":
        "13 0, 6 12, 23 13, 23 14, 4 17, 22 18, 35 19, 86 close, 20 depth 0, 41 depth 64, 18 "
        "nothing, 55 open, 22 open nil, 124 cases",
    "X sizes":
        "1 0, 1 2, 1 3, 1 5, 1 18, 1 close, 1 depth 0, 1 nothing, 1 open, 1 too long, 4 cases",
    "X refused": "13 8, 45 9, 60 24, 118 cases",
    "X damaged": "33 2, 23 3, 30 4, 13 6, 5 7, 2 8, 1 9, 6 21, 13 24, 125 cases",
    "X random":
        "232 0, 38 11, 80 12, 321 13, 75 15, 66 16, 58 17, 60 18, 192 19, 356 close, 619 depth 0, "
        "149 finish, 310 nothing, 477 open, 105 open nil, 1120 cases",
}


def counts_of(text):
    """The numbers by answer."""
    return {answer: int(number) for number, answer in
            (part.split(" ", 1) for part in text.split(", "))}


def too_rare(totals, counts):
    """The letters, names and answers that came up too rarely."""
    rare = [f"{letter}: {totals[letter]}, not {number}" for letter, number in TOTALS.items()
            if totals[letter] < number]
    for name, text in LEAST.items():
        for answer, number in counts_of(text).items():
            found = counts.get(name, {}).get(answer, 0)
            if found < number:
                rare.append(f"{name}, {answer}: {found}, not {number}")
    return rare
