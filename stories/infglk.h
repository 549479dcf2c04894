! The Glk calls and numbers that stories name, each call by its selector: those that storyhost has. Calls of
! pictures, sounds, dates and links aren't here. Debian's inform6-library comes without a file of this name.
System_file;

Constant style_Normal 0;
Constant style_Emphasized 1;
Constant style_Preformatted 2;
Constant style_Header 3;
Constant style_Subheader 4;
Constant style_Alert 5;
Constant style_Note 6;
Constant style_BlockQuote 7;
Constant style_Input 8;
Constant style_User1 9;
Constant style_User2 10;

Constant gestalt_Version 0;
Constant gestalt_CharInput 1;
Constant gestalt_LineInput 2;
Constant gestalt_CharOutput 3;
Constant gestalt_MouseInput 4;
Constant gestalt_Timer 5;
Constant gestalt_Graphics 6;
Constant gestalt_DrawImage 7;
Constant gestalt_Sound 8;
Constant gestalt_Hyperlinks 11;
Constant gestalt_Unicode 15;
Constant gestalt_UnicodeNorm 16;
Constant gestalt_LineInputEcho 17;
Constant gestalt_LineTerminators 18;
Constant gestalt_LineTerminatorKey 19;
Constant gestalt_DateTime 20;
Constant gestalt_ResourceStream 22;

Constant evtype_None 0;
Constant evtype_Timer 1;
Constant evtype_CharInput 2;
Constant evtype_LineInput 3;
Constant evtype_MouseInput 4;
Constant evtype_Arrange 5;
Constant evtype_Redraw 6;
Constant evtype_SoundNotify 7;
Constant evtype_Hyperlink 8;

Constant keycode_Unknown $FFFFFFFF;
Constant keycode_Left $FFFFFFFE;
Constant keycode_Right $FFFFFFFD;
Constant keycode_Up $FFFFFFFC;
Constant keycode_Down $FFFFFFFB;
Constant keycode_Return $FFFFFFFA;
Constant keycode_Delete $FFFFFFF9;
Constant keycode_Escape $FFFFFFF8;
Constant keycode_Tab $FFFFFFF7;
Constant keycode_PageUp $FFFFFFF6;
Constant keycode_PageDown $FFFFFFF5;
Constant keycode_Home $FFFFFFF4;
Constant keycode_End $FFFFFFF3;
Constant keycode_Func1 $FFFFFFEF;

Constant winmethod_Left 0;
Constant winmethod_Right 1;
Constant winmethod_Above 2;
Constant winmethod_Below 3;
Constant winmethod_Fixed $10;
Constant winmethod_Proportional $20;
Constant winmethod_NoBorder $100;
Constant winmethod_RightProportional $21;
Constant winmethod_AboveFixed $12;
Constant winmethod_BelowFixed $13;

Constant wintype_AllTypes 0;
Constant wintype_Pair 1;
Constant wintype_Blank 2;
Constant wintype_TextBuffer 3;
Constant wintype_TextGrid 4;
Constant wintype_Graphics 5;

Constant fileusage_Data 0;
Constant fileusage_SavedGame 1;
Constant fileusage_Transcript 2;
Constant fileusage_InputRecord 3;
Constant fileusage_TextMode $100;

Constant filemode_Write 1;
Constant filemode_Read 2;
Constant filemode_ReadWrite 3;
Constant filemode_WriteAppend 5;

Constant seekmode_Start 0;
Constant seekmode_Current 1;
Constant seekmode_End 2;

[ glk_exit _vararg_count r;
    @glk $0001 _vararg_count r;
    return r;
];

[ glk_gestalt _vararg_count r;
    @glk $0004 _vararg_count r;
    return r;
];

[ glk_window_iterate _vararg_count r;
    @glk $0020 _vararg_count r;
    return r;
];

[ glk_window_get_rock _vararg_count r;
    @glk $0021 _vararg_count r;
    return r;
];

[ glk_window_get_root _vararg_count r;
    @glk $0022 _vararg_count r;
    return r;
];

[ glk_window_open _vararg_count r;
    @glk $0023 _vararg_count r;
    return r;
];

[ glk_window_close _vararg_count r;
    @glk $0024 _vararg_count r;
    return r;
];

[ glk_window_get_size _vararg_count r;
    @glk $0025 _vararg_count r;
    return r;
];

[ glk_window_set_arrangement _vararg_count r;
    @glk $0026 _vararg_count r;
    return r;
];

[ glk_window_get_arrangement _vararg_count r;
    @glk $0027 _vararg_count r;
    return r;
];

[ glk_window_get_type _vararg_count r;
    @glk $0028 _vararg_count r;
    return r;
];

[ glk_window_get_parent _vararg_count r;
    @glk $0029 _vararg_count r;
    return r;
];

[ glk_window_clear _vararg_count r;
    @glk $002A _vararg_count r;
    return r;
];

[ glk_window_move_cursor _vararg_count r;
    @glk $002B _vararg_count r;
    return r;
];

[ glk_window_get_stream _vararg_count r;
    @glk $002C _vararg_count r;
    return r;
];

[ glk_window_set_echo_stream _vararg_count r;
    @glk $002D _vararg_count r;
    return r;
];

[ glk_window_get_echo_stream _vararg_count r;
    @glk $002E _vararg_count r;
    return r;
];

[ glk_set_window _vararg_count r;
    @glk $002F _vararg_count r;
    return r;
];

[ glk_window_get_sibling _vararg_count r;
    @glk $0030 _vararg_count r;
    return r;
];

[ glk_stream_iterate _vararg_count r;
    @glk $0040 _vararg_count r;
    return r;
];

[ glk_stream_open_file _vararg_count r;
    @glk $0042 _vararg_count r;
    return r;
];

[ glk_stream_open_memory _vararg_count r;
    @glk $0043 _vararg_count r;
    return r;
];

[ glk_stream_close _vararg_count r;
    @glk $0044 _vararg_count r;
    return r;
];

[ glk_stream_set_position _vararg_count r;
    @glk $0045 _vararg_count r;
    return r;
];

[ glk_stream_get_position _vararg_count r;
    @glk $0046 _vararg_count r;
    return r;
];

[ glk_stream_set_current _vararg_count r;
    @glk $0047 _vararg_count r;
    return r;
];

[ glk_stream_get_current _vararg_count r;
    @glk $0048 _vararg_count r;
    return r;
];

[ glk_fileref_create_by_name _vararg_count r;
    @glk $0061 _vararg_count r;
    return r;
];

[ glk_fileref_create_by_prompt _vararg_count r;
    @glk $0062 _vararg_count r;
    return r;
];

[ glk_fileref_destroy _vararg_count r;
    @glk $0063 _vararg_count r;
    return r;
];

[ glk_fileref_iterate _vararg_count r;
    @glk $0064 _vararg_count r;
    return r;
];

[ glk_fileref_delete_file _vararg_count r;
    @glk $0066 _vararg_count r;
    return r;
];

[ glk_fileref_does_file_exist _vararg_count r;
    @glk $0067 _vararg_count r;
    return r;
];

[ glk_put_char _vararg_count r;
    @glk $0080 _vararg_count r;
    return r;
];

[ glk_put_char_stream _vararg_count r;
    @glk $0081 _vararg_count r;
    return r;
];

[ glk_put_buffer _vararg_count r;
    @glk $0084 _vararg_count r;
    return r;
];

[ glk_put_buffer_stream _vararg_count r;
    @glk $0085 _vararg_count r;
    return r;
];

[ glk_set_style _vararg_count r;
    @glk $0086 _vararg_count r;
    return r;
];

[ glk_get_char_stream _vararg_count r;
    @glk $0090 _vararg_count r;
    return r;
];

[ glk_get_line_stream _vararg_count r;
    @glk $0091 _vararg_count r;
    return r;
];

[ glk_get_buffer_stream _vararg_count r;
    @glk $0092 _vararg_count r;
    return r;
];

[ glk_char_to_lower _vararg_count r;
    @glk $00A0 _vararg_count r;
    return r;
];

[ glk_char_to_upper _vararg_count r;
    @glk $00A1 _vararg_count r;
    return r;
];

[ glk_stylehint_set _vararg_count r;
    @glk $00B0 _vararg_count r;
    return r;
];

[ glk_select _vararg_count r;
    @glk $00C0 _vararg_count r;
    return r;
];

[ glk_select_poll _vararg_count r;
    @glk $00C1 _vararg_count r;
    return r;
];

[ glk_request_line_event _vararg_count r;
    @glk $00D0 _vararg_count r;
    return r;
];

[ glk_cancel_line_event _vararg_count r;
    @glk $00D1 _vararg_count r;
    return r;
];

[ glk_request_char_event _vararg_count r;
    @glk $00D2 _vararg_count r;
    return r;
];

[ glk_cancel_char_event _vararg_count r;
    @glk $00D3 _vararg_count r;
    return r;
];

[ glk_request_timer_events _vararg_count r;
    @glk $00D6 _vararg_count r;
    return r;
];

[ glk_schannel_iterate _vararg_count r;
    @glk $00F0 _vararg_count r;
    return r;
];

[ glk_put_char_uni _vararg_count r;
    @glk $0128 _vararg_count r;
    return r;
];

[ glk_get_buffer_stream_uni _vararg_count r;
    @glk $0131 _vararg_count r;
    return r;
];

[ glk_stream_open_file_uni _vararg_count r;
    @glk $0138 _vararg_count r;
    return r;
];

[ glk_stream_open_memory_uni _vararg_count r;
    @glk $0139 _vararg_count r;
    return r;
];

[ glk_request_char_event_uni _vararg_count r;
    @glk $0140 _vararg_count r;
    return r;
];

[ glk_request_line_event_uni _vararg_count r;
    @glk $0141 _vararg_count r;
    return r;
];

[ glk_set_echo_line_event _vararg_count r;
    @glk $0150 _vararg_count r;
    return r;
];

[ glk_set_terminators_line_event _vararg_count r;
    @glk $0151 _vararg_count r;
    return r;
];

[ glk_set_interrupt_handler _vararg_count r;
    @glk $0002 _vararg_count r;
    return r;
];

[ glk_tick _vararg_count r;
    @glk $0003 _vararg_count r;
    return r;
];

[ glk_gestalt_ext _vararg_count r;
    @glk $0005 _vararg_count r;
    return r;
];

[ glk_stream_get_rock _vararg_count r;
    @glk $0041 _vararg_count r;
    return r;
];

[ glk_stream_open_resource _vararg_count r;
    @glk $0049 _vararg_count r;
    return r;
];

[ glk_fileref_create_temp _vararg_count r;
    @glk $0060 _vararg_count r;
    return r;
];

[ glk_fileref_get_rock _vararg_count r;
    @glk $0065 _vararg_count r;
    return r;
];

[ glk_fileref_create_from_fileref _vararg_count r;
    @glk $0068 _vararg_count r;
    return r;
];

[ glk_put_string _vararg_count r;
    @glk $0082 _vararg_count r;
    return r;
];

[ glk_put_string_stream _vararg_count r;
    @glk $0083 _vararg_count r;
    return r;
];

[ glk_set_style_stream _vararg_count r;
    @glk $0087 _vararg_count r;
    return r;
];

[ glk_stylehint_clear _vararg_count r;
    @glk $00B1 _vararg_count r;
    return r;
];

[ glk_style_distinguish _vararg_count r;
    @glk $00B2 _vararg_count r;
    return r;
];

[ glk_style_measure _vararg_count r;
    @glk $00B3 _vararg_count r;
    return r;
];

[ glk_buffer_to_lower_case_uni _vararg_count r;
    @glk $0120 _vararg_count r;
    return r;
];

[ glk_buffer_to_upper_case_uni _vararg_count r;
    @glk $0121 _vararg_count r;
    return r;
];

[ glk_buffer_to_title_case_uni _vararg_count r;
    @glk $0122 _vararg_count r;
    return r;
];

[ glk_put_string_uni _vararg_count r;
    @glk $0129 _vararg_count r;
    return r;
];

[ glk_put_buffer_uni _vararg_count r;
    @glk $012A _vararg_count r;
    return r;
];

[ glk_put_char_stream_uni _vararg_count r;
    @glk $012B _vararg_count r;
    return r;
];

[ glk_put_string_stream_uni _vararg_count r;
    @glk $012C _vararg_count r;
    return r;
];

[ glk_put_buffer_stream_uni _vararg_count r;
    @glk $012D _vararg_count r;
    return r;
];

[ glk_get_char_stream_uni _vararg_count r;
    @glk $0130 _vararg_count r;
    return r;
];

[ glk_get_line_stream_uni _vararg_count r;
    @glk $0132 _vararg_count r;
    return r;
];

[ glk_stream_open_resource_uni _vararg_count r;
    @glk $013A _vararg_count r;
    return r;
];
