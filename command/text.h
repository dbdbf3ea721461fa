/* Text written into memory that is known to suffice: each function returns where the text ends. */
#ifndef TEXT_H
#define TEXT_H

#include <stdint.h>
#include <string.h>

/* A number of any size, in decimal. */
char *put_large(char *at, uint64_t number);

/* A literal. */
#define PUT(at, literal) ((char *)memcpy((at), (literal), sizeof(literal) - 1) + (sizeof(literal) - 1))

/* A number below 100, as two digits. */
static inline char *put_pair(char *at, uint32_t number)
{
    static const char pairs[] =
        "0001020304050607080910111213141516171819202122232425262728293031323334353637383940414243444546474849"
        "5051525354555657585960616263646566676869707172737475767778798081828384858687888990919293949596979899";
    memcpy(at, pairs + 2 * number, 2);
    return at + 2;
}

/* A number in decimal; at most 20 bytes. */
static inline char *put_number(char *at, uint64_t number)
{
    if (number >= 10000) {
        at = put_large(at, number / 10000);
        at = put_pair(at, (uint32_t)(number % 10000) / 100);
        return put_pair(at, (uint32_t)(number % 100));
    }
    uint32_t small = (uint32_t)number;
    if (small >= 1000) {
        at = put_pair(at, small / 100);
        return put_pair(at, small % 100);
    }
    if (small >= 100) {
        *at++ = (char)('0' + small / 100);
        return put_pair(at, small % 100);
    }
    if (small >= 10) {
        return put_pair(at, small);
    }
    *at = (char)('0' + small);
    return at + 1;
}

/* A string that is no literal, without its final zero. */
static inline char *put_string(char *at, const char *string)
{
    size_t length = strlen(string);
    memcpy(at, string, length);
    return at + length;
}

/* Three numbers with a separator of one byte between. */
static inline char *put_point(char *at, const uint32_t point[3], char separator)
{
    at = put_number(at, point[0]);
    *at++ = separator;
    at = put_number(at, point[1]);
    *at++ = separator;
    return put_number(at, point[2]);
}

#endif
