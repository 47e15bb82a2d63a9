"""Cases of the arguments, the levels and the order in which refusals are decided."""

TOP = 2**32 - 1

# DECLARED of cases.py stands before each: the signal a has the code !.
SAMPLES = [
    # Arguments come first, in the order offset, period, count.
    ("offset_largest", "1!", "111", {"offset": TOP}),
    ("offset_2_32", "1!", 2401, {"offset": 2**32}),
    ("period_0", "1!", 2402, {"period": 0}),
    ("period_0_count_0", "1!", 2402, {"period": 0, "count": 0}),
    ("period_largest", "1!", "111", {"period": TOP}),
    ("period_2_32", "1!", 2402, {"period": 2**32}),
    ("count0", "1!", ""),
    ("count0_without_level", "x!", ""),
    ("count_1", "1!", "1"),
    ("count_4096", "1! #4095 0!", "1" * 4095 + "0"),
    ("count_4097", "1!", 2403, {"count": 4097}),
    ("count_65537", "1!", 2403, {"count": 65537}),
    ("offset_before_period", "1!", 2401, {"offset": 2**32, "period": 0, "count": 4097}),
    ("period_before_count", "1!", 2402, {"period": 0, "count": 4097}),
    ("argument_before_text", "#x", 2403, {"count": 4097}),
    # Levels.
    ("level_at_its_time", "#0 1! #5 0!", "10", {"offset": 4}),
    ("level_last_of_a_time", "#0 1! 0! 1! #1 1! 0! #2 0! #2 1!", "1011"),
    ("level_before_first_time", "1! #10 0!", "10", {"period": 10}),
    ("level_zero_after_first_changes", "1! #0 0!", "000"),
    ("past", "1! #5 0!", "00", {"offset": 100}),
    ("level_missing", "", (2424, 0), {"count": 1}),
    ("level_missing_at_last", "#0 1! #3 x!", (2424, 3), {"count": 4}),
    ("level_missing_behind", "#0 1! #3 x!", "111"),
    ("level_missing_between", "#0 1! #1 x! #2 0!", "100", {"period": 2}),
    ("levels_every_second", "#0 1! #1 0! #2 1! #3 0!", "110", {"period": 2}),
    ("offset_and_time", "1! #4294967295 0! #4294967296 1!", "01", {"offset": TOP}),
    ("period_and_time", "1! #4294967295 0! #8589934590 1!", "101", {"period": TOP}),
    ("offset_period_time", "0! #8589934589 x! #8589934590 1! #8589934591 0!", "01", {"offset": TOP, "period": TOP}),
    ("latest_sample", "1! #17592186040319 x! #17592186040320 0!", "1" * 4095 + "0", {"offset": TOP, "period": TOP}),
    # The whole text is read first. Then come the levels.
    ("early", "#0 1! #100 @x", 2419),
    ("early_count_0", "#0 1! @junk", 2423, {"count": 0}),
    ("early_fall", "#0 1! #100 @#99", 2601, {"count": 1}),
    ("order", "#0 x! #2 @#1", 2601),
    ("order_break", "#0 x! @U!", 2423),
]

# The whole text.
WHOLE = [
    ("carriage_returns", "$var wire 1 ! a $end\r\n$enddefinitions $end\r\n#0\r\n1!\r\n#2\r\n0!\r\n", "110"),
    ("no_last_line_feed", "$var wire 1 ! a $end\n$enddefinitions $end\n#0\n1!\n#2\n0!", "110"),
    ("white_space", "\r\n\t $var\twire\f1\r!\n\na \t$end\f$enddefinitions\r$end\t#0\f1!\r#2 \n 0!\f", "110"),
    ("code_long", f"$var wire 1 {'k' * 70} a $end $enddefinitions $end 1{'k' * 70} 0{'k' * 69} 0{'k' * 71}", "111"),
    ("code_two", "$var wire 1 !\" a $end $var wire 1 ! b $end $enddefinitions $end 1!\" 0! 0!\"!", "111"),
    ("code_digit", "$var wire 1 0 a $end $enddefinitions $end #0 10 #1 00 #2 100 x1", "100"),
    ("code_keyword", "$var wire 1 $var a $end $enddefinitions $end #0 1$var #1 0$var", "100"),
    ("signal_0", "$scope module s $end $var wire 1 ! 0 $end $upscope $end $enddefinitions $end #0 1! #2 0!", "110", {"name": "0"}),
    ("same_code", "$var wire 1 ! a $end $var wire 1 ! b $end $enddefinitions $end #0 1! #1 0!", "100"),
    ("same_code_other", "$var wire 1 ! a $end $var wire 1 ! b $end $enddefinitions $end #0 1! #1 0!", "100", {"name": "b"}),
    ("same_code_wide", "$var wire 8 ! w $end $var wire 1 ! a $end $enddefinitions $end 1! b00000000 ! #1 0!", "100"),
    ("bit_then_wide", "$var wire 1 ! a $end $var wire 8 ? a $end $enddefinitions $end 1! 0?", "111"),
    ("real1", "$var real 1 ! a $end $enddefinitions $end r1 !", (2424, 0)),
]
