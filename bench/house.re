/* The dozen rules of a song house in bench.c, for the time that re2c takes to make a scanner of them. */
int house_rule(const char *text);

int house_rule(const char *text)
{
    const unsigned char *at = (const unsigned char *)text, *marker;
    /*!re2c
    re2c:define:YYCTYPE = "unsigned char";
    re2c:define:YYCURSOR = at;
    re2c:define:YYMARKER = marker;
    re2c:yyfill:enable = 0;
    d = [0-9];
    h = [0-9a-f];
    sign = ("#" | "b")?;
    "[" d d ":" d d "." d d "]"                                                                 { return 1; }
    [A-Za-z\x80-\xFF]+ ("'" [a-z]+)?                                                            { return 2; }
    ["] [A-Za-z0-9 ,.!?']* ["]                                                                  { return 3; }
    ("title" | "artist" | "album" | "key" | "tempo" | "offset" | "length" | "by") ":"           { return 4; }
    "#" h h h h h h                                                                             { return 5; }
    [A-G] sign ("m" | "maj" | "min" | "dim")? "7"?                                              { return 6; }
    [A-G] sign ("m" | "maj" "7"? | "dim" | "sus" [24])? "/" [A-G] sign                          { return 7; }
    d+ ("." d+)?                                                                                { return 8; }
    "{" [a-z_]+ (":" [A-Za-z0-9 ,.]+)? "}"                                                      { return 9; }
    "|:" | ":|" | "x" d d?                                                                      { return 10; }
    [ \t]+                                                                                      { return 11; }
    "\r"? "\n"                                                                                  { return 12; }
    *                                                                                           { return 0; }
    */
}
