tests/shown/letters.txt: refusal 11: The field has the wrong size
line 3, field 4

    [..]............................................................|7||
                                                                     ^

field 4 of 0200 is COD_GEN: a number of exactly 2 digits
its size in bytes: 1
