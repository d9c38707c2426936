/* One rule, tag 1: "a", and any number of a's with a "b" behind them. */
#include "generated.h"
#include "zagvulem.h"

uint64_t re2c_hostile(char *text, size_t text_len, uint8_t *records)
{
    const unsigned char *begin = (const unsigned char *)text, *at = begin, *limit = begin + text_len, *marker, *from;
    size_t tokens = 0;
    zgv_token token;
    token.tag = 1;
    for (;;) {
        from = at;
        /*!re2c
        re2c:define:YYCTYPE = "unsigned char";
        re2c:define:YYCURSOR = at;
        re2c:define:YYLIMIT = limit;
        re2c:define:YYMARKER = marker;
        re2c:yyfill:enable = 0;
        re2c:eof = 0;
        "a" | "a"* "b"  { goto store; }
        $               { break; }
        *               { break; }
        */
    store:
        token.place = (uint32_t)(from - begin);
        token.length = (uint32_t)(at - from);
        zgv_put_record(records, tokens++, token);
    }
    return (uint64_t)tokens << 28 | (uint64_t)(from - begin);
}
