/* The reader of Jsonnet sources, for C. `rt lib` in crates/matigelo writes out/libmatigelo.a there, for x86-64 Linux, to link with the
   program. It allocates nothing and keeps nothing between calls, so several threads may call it at once. */
#ifndef MATIGELO_H
#define MATIGELO_H

#include <stddef.h>
#include <stdint.h>

#ifdef __cplusplus
extern "C" {
#endif

/* Sums of these are settings. */
#define MATIGELO_EXP_DESTRUCT 1u
#define MATIGELO_EXP_OBJECT_ITERATION 2u
#define MATIGELO_EXP_NULL_COAELSE 4u
#define MATIGELO_PUBLISHED_SIGNS 8u /* -a*b is (-a)*b; without it -(a*b) */

/* What an answer says; of the other fields those that a number does not use are 0.

   number                                          start and end; detail; length
    0  a tree, its image is in the output          length of the image
    1  a setting above 15
    2  a source above 65,000 bytes
    3  not UTF-8                                   start = end = bytes valid so far
    4  a bad lexeme                                the first one; its kind
    5  another lexeme is wanted                    the one that stands there; the kind that is wanted
    6  a field name or a pattern is wanted         the one that stands there; 1 field name, 2 pattern
    7  no expression begins so                     the one that stands there
    8  misplaced                                   current; 1 positional after named, 2 to 4 faults of an object comprehension
    9  a bad escape                                the literal; where the backslash of the first one stands
   10  not used; retired
   11  deeper than 200                             the one that stands there
   12  a tree, but its image has no room           length that is needed
   17  a number that no double holds               the literal

   start and end are bytes of the source, counted from 0. */
typedef struct {
    uint64_t number;
    uint64_t start;
    uint64_t end;
    uint64_t detail;
    uint64_t length;
} matigelo_answer;

/* Reads source_length bytes from source under setting. The image goes to output, which has output_length bytes; what is beyond it is cleared,
   and all is where the number is not 0.
   A pointer may be NULL where its length is 0; output and answer must overlap neither each other nor the source; the source must not
   change during the call; a length is at most PTRDIFF_MAX. Nothing else is asked: every setting and all bytes have an answer. An image has
   at most 16 bytes for each byte of its source. Reading recurses, at most 200 levels deep: 512 KiB of stack are enough. */
void matigelo_read(uint64_t setting, const uint8_t *source, size_t source_length, uint8_t *output, size_t output_length, matigelo_answer *answer);

/* What is said of a station's text, in the fields of matigelo_answer.

   number of a text                                start and end; length
    0  a tree, its image is in the output          length of the image
    2  a text above 65,000 bytes
    3  not UTF-8                                   start = end = bytes valid so far
   11  deeper than 200                             start = end = where the value or number begins
   12  a tree, but its image has no room           length that is needed
   17  a number that no double holds               the number without its minus sign
   19  not JSON                                    start = end = the first byte where no JSON text goes on

   2 and 3 come first, 12 last, the others as the reading meets them. */

/* Reads text_length bytes from text as JSON (RFC 8259). Image and output are as matigelo_read has them: objects keep their names in order, also one
   that comes twice, and a negative number is the prefix minus over a number. A text that both take has the same image from both. Strings may have \/,
   and may have no lone half of a pair and no control character that is not escaped.
   What is said of pointers and lengths above holds here too. Nothing recurses. */
void matigelo_json(const uint8_t *text, size_t text_length, uint8_t *output, size_t output_length, matigelo_answer *answer);

/* Reads a night's files in one call. They stand one behind the other in sources; ends says where each ends, counted from the start of sources, and
   parts where its part of output ends. Answer and part of each file are what matigelo_read gives for that source, setting and part; a refused file
   affects no other. The answers go to answers, five numbers for each file in the order of matigelo_answer.
   0 is handed back, or MATIGELO_LISTS: ends and parts are for unequal numbers of files, the list for the answers has not five numbers for each, an
   end goes backward, or the last is not its buffer's. Then no file is read, and output and answers are zero.
   What is said of pointers, lengths and the stack above holds here too; nothing is copied, and the stack is that of one file. */
#define MATIGELO_LISTS 20u
uint64_t matigelo_night(uint64_t setting, const uint8_t *sources, size_t sources_length, const size_t *ends, size_t ends_count,
                        uint8_t *output, size_t output_length, const size_t *parts, size_t parts_count, uint64_t *answers, size_t answers_count);

/* What is said of an image that is read back; fields that a number does not use are 0.

   the number                                      offset; count
    0  one tree                                    count of its records
   13  a tag that no record has                    the record's offset
   14  a length, a flag or an enum byte is wrong,
       or infix records with and without a place
       are mixed                                   the record's offset
   15  children are missing, or trees are left
       over at the end                             the record's offset; the image's length at the end
   16  a text, name, shape, root or span that no
       source gives                                the record's offset
   24  too few links                               count of the numbers that are needed

   The first bad record decides, and of one record the least number; 24 comes before all others. */
typedef struct {
    uint64_t number;
    uint64_t offset;
    uint64_t count;
} matigelo_back_answer;

/* How many links an image of so many bytes needs: two for every three bytes. */
#define MATIGELO_LINKS(length) ((length) / 3 * 2)

/* Reads an image back: whether image_length bytes are the records of one tree, as matigelo_read writes them (infix records from before they had
   a place are taken too). For each record i, in the order of the image, links[2 * i] is then its offset and links[2 * i + 1] the number of the
   first record of its own tree. So its children, the last first, are record i - 1, then the record before the first of that child's tree, and so
   on down to links[2 * i + 1]. The links behind are cleared, and all are where the number is not 0.
   A pointer may be NULL where its length is 0; links and answer must overlap neither each other nor the image; links_length is at most
   PTRDIFF_MAX / 8. Nothing else is asked: all bytes have an answer, at any length, and nothing recurses. */
void matigelo_back(const uint8_t *image, size_t image_length, size_t *links, size_t links_length, matigelo_back_answer *answer);

/* A listing of matigelo_mass: the object's offset in the image; 1 where it raises mass and not depth, 2 where depth and not mass, 0 where that is undecided;
   the bytes of the source in which the name of the first such field stands, 0 and 0 where it is undecided. */
typedef struct {
    size_t offset;
    size_t what;
    size_t start;
    size_t end;
} matigelo_listing;

/* The planner's list: each object of an image that has a fixed field mass marked plus and no such field depth, or the other way round, and each that has a
   computed field marked plus, in the order of the image. The answer is that of matigelo_back, but for

   the number, listed                              offset; count
    0  listed                                      count of the listings
   21  the list is too short                       count of the listings

   Four numbers are stored for each listing, in the order of matigelo_listing; what is behind them is cleared, and all is where the number is not 0. The links
   are for working, and are cleared. What is said of pointers above holds here too, and list_length is at most PTRDIFF_MAX / 8. */
void matigelo_mass(const uint8_t *image, size_t image_length, size_t *links, size_t links_length, size_t *list, size_t list_length, matigelo_back_answer *answer);

#ifdef __cplusplus
}
#endif

#endif
