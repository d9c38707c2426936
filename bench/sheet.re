/* The built-in book as a re2c scanner, which stores the same ten-byte records. */
#include "generated.h"
#include "zagvulem.h"

uint64_t re2c_lex(char *text, size_t text_len, uint8_t *records)
{
    const unsigned char *begin = (const unsigned char *)text, *at = begin, *limit = begin + text_len, *marker, *from;
    size_t tokens = 0;
    zgv_token token;
    for (;;) {
        from = at;
        /*!re2c
        re2c:define:YYCTYPE = "unsigned char";
        re2c:define:YYCURSOR = at;
        re2c:define:YYLIMIT = limit;
        re2c:define:YYMARKER = marker;
        re2c:yyfill:enable = 0;
        re2c:eof = 0;
        d = [0-9];
        "[" d d ":" d d "." d d "]"             { token.tag = 1; goto store; }
        [\x21-\x5A\x5C\x5E-\x7E\x80-\xFF]+      { token.tag = 2; goto store; }
        [\x20\x09]+                             { token.tag = 3; goto store; }
        "\n"                                    { token.tag = 4; goto store; }
        [\x5B\x5D]                              { token.tag = 5; goto store; }
        $                                       { break; }
        *                                       { break; }
        */
    store:
        token.place = (uint32_t)(from - begin);
        token.length = (uint32_t)(at - from);
        zgv_put_record(records, tokens++, token);
    }
    return (uint64_t)tokens << 28 | (uint64_t)(from - begin);
}
