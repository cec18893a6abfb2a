tests/shown/letters_down.txt: refusal 7: The line ends too early: fields are missing
line 3, field 4

    [..]..............................................................|.
                                                                       ^

field 4 of 0200 is COD_GEN: a number of exactly 2 digits
0200 has 5 fields
