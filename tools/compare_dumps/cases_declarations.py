"""Cases of declarations other than names, and of what is told about declarations."""

# ENDED of cases.py stands behind each: it ends the declarations and gives the code ! the level 1.
DECLARATIONS = [
    # Types, sizes and codes.
    ("types_all_1", "$var event 1 e e $end $var integer 32 i i $end $var parameter 1 p p $end $var real 64 ! a $end $var reg 1 ! a $end", "111"),
    ("types_all_2", "$var realtime 1 t t $end $var supply0 1 s s $end $var supply1 1 o o $end $var time 64 u u $end $var tri 1 ! a $end", "111"),
    ("types_all_3", "$var triand 1 n n $end $var trior 1 o o $end $var trireg 1 r r $end $var tri0 1 0 0 $end $var tri1 1 ! a $end", "111"),
    ("types_all_4", "$var wand 1 n n $end $var wor 1 o o $end $var wire 1 ! a $end", "111"),
    ("types", "$var @logic 1 ! a $end", 2411),
    ("type_end", "$var @$end", 2411),
    ("size", "$var wire 01 ! a $end", "111"),
    ("size_0", "$var wire 0 ! a $end", 2501),
    ("size_2_32_and_1", "$var wire 4294967297 ! a $end", 2501),
    ("size_40_digits", "$var wire 1000000000000000000000000000000000000001 ! a $end", 2501),
    ("size_end", "$var wire @$end", 2412),
    ("size_word", "$var wire @one ! a $end", 2412),
    ("endcode", "$var wire 1 @$end a $end", 2413),
    ("code_not_ascii", "$var wire 1 @\x80 a $end", 2413),
    # Declared never, once or twice.
    ("never", "$var wire 1 ! b $end", 2501),
    ("never_this_case", "$var wire 1 ! A $end", 2501),
    ("never_this_length", "$var wire 1 ! ab $end", 2501),
    ("wide", "$var wire 8 ! a $end", 2501),
    ("wide_and_one_bit", "$var wire 8 ? a [7:0] $end $var wire 1 ! a $end", "111"),
    ("alias", "$var wire 1 ! a $end $var wire 1 ! a $end", 2502),
    ("twice", "$var wire 1 ! a $end $var wire 1 ? a $end", 2502),
    ("three_times", "$var wire 1 ! a $end $var reg 1 ? a $end $var real 1 ; a $end", 2502),
    ("twice_by_glued_index", "$var wire 1 ! a[0] $end $var wire 1 ? a[1] $end", 2502),
    ("twice_escaped", "$var wire 1 ! a $end $var wire 1 ? \\a $end", 2502),
    ("twice_then_break", "$var wire 1 ! a $end $var wire 1 ! a $end @#0", 2406),
    # Scopes.
    ("nest", "$upscope $end $upscope $end $var wire 1 ! a $end $scope module m $end", "111"),
    ("scope_types", "$scope begin b $end $scope fork f $end $scope function n $end $scope module m $end $scope task t $end $var wire 1 ! a $end", "111"),
    ("scope_names", "$scope module 0 $end $scope begin gen[0] $end $scope module $unit $end $scope task \\t[x $end $var wire 1 ! a $end", "111"),
    ("scope_type", "$scope @struct s $end", 2409),
    ("scope_type_end", "$scope @$end", 2409),
    ("scope_name_end", "$scope module @$end", 2410),
    ("scope_name_utf8", "$scope module @m\xc5\x9b $end", 2410),
    ("scope_two_words", "$scope module a @b $end", 2407),
    ("upscope_word", "$upscope @a $end", 2407),
    # Timescales.
    ("scale1", "$var wire 1 ! a $end", "111", {"name": "\\a"}),
    ("scale1_twice", "$timescale 1ns $end $timescale 100 fs $end $var wire 1 ! a $end", "111"),
    ("scale_units", "$timescale 1s $end $timescale 10 ms $end $timescale 100us $end $timescale 1 ps $end $var wire 1 ! a $end", "111"),
    ("scale_2", "$timescale @2 ns $end", 2408),
    ("scale_without_unit", "$timescale 10 @$end", 2408),
    ("scale_glued_end", "$timescale 1 @ns$end", 2408),
    ("scale_two_units", "$timescale 1ns @ns $end", 2407),
    ("scale_not_ended", "$timescale 1 ns @$var wire 1 ! a $end", 2407),
    # Skipped text.
    ("ascii", "$date \x00\xff\xef\xbb\xbf $end $version x$end $var $End $end $comment $end $var wire 1 ! a $end", "111"),
    ("skipped_to_the_first_end", "$comment $var wire 1 ! a $end", 2501),
    # Words that are no declaration.
    ("loose_end_before", "@$end", 2405),
    ("skipkey_before", "@$dumpports x $end", 2405),
    ("time_before", "$var wire 1 ! a $end @#0", 2406),
    ("change_before", "$var wire 1 ! a $end @1!", 2406),
    ("block_before", "$var wire 1 ! a $end @$dumpvars 1! $end", 2406),
    ("word_before", "@META samplerate: 24000000", 2406),
    ("bom", "@\xef\xbb\xbf$date x $end", 2406),
    ("vt_before", "@\x0b$var wire 1 ! a $end", 2406),
]

# The whole text.
WHOLE = [
    ("at_end", "$var wire 1 ! b $end @$enddefinitions junk", 2501),
    ("at_end_twice", "$var wire 1 ! a $end $var wire 1 ! a $end @$enddefinitions", 2502),
    ("end_with_word", "$var wire 1 ! a $end $enddefinitions @junk $end", 2407),
    ("end_and_nothing", "$var wire 1 ! a $end $enddefinitions $end", ""),
    ("end_without_level", "$var wire 1 ! a $end $enddefinitions $end\n", (2424, 0)),
    # The text ends early.
    ("ends_empty", "", 2404),
    ("ends_blank", " \r\n\t\f", 2404),
    ("ends_in_definitions", "$var wire 1 ! a $end $enddefinitions", 2404),
    ("ends_before_definitions", "$var wire 1 ! a $end\n", 2404),
    ("ends_at_var", "$var", 2404),
    ("ends_at_type", "$var wire ", 2404),
    ("ends_at_code", "$var wire 1 !", 2404),
    ("ends_at_name", "$var wire 1 ! a", 2404),
    ("ends_at_index", "$var wire 1 ! a [0]", 2404),
    ("ends_in_index", "$var wire 1 ! a[3\n:", 2404),
    ("ends_at_scope", "$scope", 2404),
    ("ends_at_upscope", "$upscope", 2404),
    ("ends_at_timescale", "$timescale", 2404),
    ("ends_at_unit", "$timescale 1ns", 2404),
    ("ends_in_comment", "$comment x", 2404),
]

# Text, number, and the unit in femtoseconds.
SCALES = [
    ("unit_ns", "$timescale 1ns $end $enddefinitions $end", 0, 10**6),
    ("unit_100_s", "$timescale 100 s $end $enddefinitions", 0, 10**17),
    ("unit_fs", "$timescale\n1\nfs\n$end $enddefinitions junk", 0, 1),
    ("unit_10_ms", "$timescale 10ms $end $enddefinitions $end #x", 0, 10**13),
    ("unit_last", "$timescale 10us $end $timescale 100ps $end $enddefinitions $end $timescale 1s $end", 0, 10**5),
    ("unit_none", "$enddefinitions $end", 0, 0),
    ("unit_wrong", "$timescale 5ns $end $enddefinitions $end", 24, None),
    ("unit_then_break", "$timescale 1ns $end #0 $enddefinitions $end", 24, None),
    ("unit_then_end", "$timescale 1ns $end", 24, None),
    ("unit_of_two_names", "$var wire 1 ! a $end $var wire 1 ! a $end $timescale 1 us $end $enddefinitions $end", 0, 10**9),
]

# Text, the byte from which on a variable is asked for, number, and the four numbers about it.
VARIABLES = [
    ("variable_first", "$var wire 1 ! a $end $enddefinitions $end", 0, 0, (20, 14, 1, 1)),
    ("variable_none", "$var wire 1 ! a $end $enddefinitions $end", 20, 0, (21, 0, 0, 0)),
    ("variable_none_again", "$var wire 1 ! a $end $enddefinitions $end", 21, 0, (21, 0, 0, 0)),
    ("variable_index", "$var wire 8 ! bus[7:0] $end #0", 0, 0, (27, 14, 3, 8)),
    ("variable_escaped", "$date x $end\n$var reg 01 ! \\e[0] [3] $end", 0, 0, (41, 28, 4, 1)),
    ("variable_backslash", "$var reg 0 ! \\ $end", 0, 0, (19, 13, 1, 0)),
    ("variable_below_2_62", "$var reg 4611686018427387903 ! a $end", 0, 0, (37, 31, 1, 2**62 - 1)),
    ("variable_2_62", "$var reg 4611686018427387904 ! a $end", 0, 0, (37, 31, 1, 2**62)),
    ("variable_2_64_and_8", "$var reg 18446744073709551624 ! a $end", 0, 0, (38, 32, 1, 2**62)),
    ("variable_break_before", "#0 $var wire 1 ! a $end", 0, 24, None),
    ("variable_break_within", "$var wire 1 ! a b $end", 0, 24, None),
    ("variable_break_behind", "$var wire 1 ! a $end #0", 0, 0, (20, 14, 1, 1)),
    ("variable_at_break", "$var wire 1 ! a $end #0", 20, 24, None),
    ("variable_at_the_end", "$var wire 1 ! a $end", 20, 24, None),
    ("variable_behind_the_end", "$var wire 1 ! a $end", 21, 24, None),
    ("variable_not_ended", "$var wire 1 ! a", 0, 24, None),
]
