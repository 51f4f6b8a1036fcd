/*
 * Dunnavish: position words of trams on stabling tracks, for programs in C.
 *
 * Ten calls on a track's card: check it, write the word of a position, read a received word, read one that came as levels, give the
 * start of a block, give the distance of a position in millimetres, of the trams on the track tell which cross a mark, which stand
 * within two marks, and which is the nearest to a mark, and release the track in a yard of sixteen tracks. Two calls on a Reed-Muller
 * code, which are given no card: make its card, and read a chunk of it by majority votes. One call on a yard alone: request a track of
 * it. docs/FORMAT.md says what the bytes of a card and of a word are, how a word is read, which card is made, what stands at a mark, and
 * what each refusal by a card, a code, a word or a list of trams means; what a yard is stands below. The archive is target/staticlib/libdunnavish.a, for x86-64 Linux;
 * `tools/build dunnavish` builds it. From the repository's root, link it as   cc -Iinclude program.c -Ltarget/staticlib -ldunnavish
 * (it needs memcpy and memset, and nothing else). The header is C99 or later, or C++.
 *
 * A call answers with its status: 0 (DUNNAVISH_OK), or the number of the one reason why it could not be served, below. Whenever
 * the status is not 0, nothing that was lent has changed. Every call ends, whatever the bytes, numbers and floats are.
 *
 * Arguments
 *   Every array is a pointer and the count of its elements (bytes of a card or a word; numbers, not bytes, of `values`, `lows`, `highs`
 *   and `yard`; floats, not bytes, of `levels` and `strength`).
 *   A card that a call is given is the card's 512 bytes, checked anew by each call. A card of any other length is answered
 *   DUNNAVISH_CARD_LENGTH. The three calls that are given none check none.
 *   A word is its d bits in dunnavish_word_bytes(d) bytes: bit p of the word is bit p % 8, lowest first, of byte p / 8. The spare
 *   bits of the last byte are zero. The levels of a word are d floats, level p that of bit p.
 *   `values` is where the call puts its answer. Its count must be exactly the call's (DUNNAVISH_CARD_VALUES and so on), or the
 *   call is answered DUNNAVISH_VALUE_COUNT before anything else is looked at. In the same way the count of `strength` must be
 *   exactly DUNNAVISH_STRENGTH_VALUES, that of `yard` exactly DUNNAVISH_YARD_NUMBERS, and the bytes of a card that is to be made exactly
 *   DUNNAVISH_CARD_BYTES.
 *   The trams of a track are `lows` and `highs`: tram i, counted from 0, stands from lows[i] to highs[i], both included. `yes` has an
 *   entry for each tram. Where the counts of these arrays are not equal, the call is answered DUNNAVISH_VALUE_COUNT in the same way.
 *   A yard is its 97 numbers, which the two calls that are given it read and change in place; any numbers may stand there.
 *   An array whose count is 0 may be NULL, which is what an empty vector hands over. A call never looks behind a pointer that comes
 *   with a count of 0, and answers as for any other array of a wrong count, or, given `lows`, `highs` and `yes`, as for no trams.
 *
 * What a call cannot check, and asks of its caller
 *   That at each pointer stand as many elements as its count says, aligned as uint16_t, uint32_t, int32_t and float are; that they can
 *   be read, and those that the call writes (`values`, `strength`, `yes`, `yard`, the word of dunnavish_write_word, the card of
 *   dunnavish_make_card) written; that nobody else changes them during the call; and that an array that the call writes overlaps no
 *   other one of the same call.
 *   dunnavish_read_levels also asks for the processor's default floating-point settings, those that a program starts with: sums rounded
 *   to the nearest, ties to even, subnormal numbers kept, no exception trapped. A program that is linked with -ffast-math or -Ofast
 *   starts with others: subnormal numbers count as zeros, so that a word of levels of 1e-40, say, is all erased and answered
 *   DUNNAVISH_CHUNK_UNREADABLE. Link without these flags, or call fesetenv(FE_DFL_ENV) in each thread before it reads levels.
 *
 * Who owns what
 *   The caller owns every array, before, during and after the call. The library keeps no pointer, allocates nothing and frees
 *   nothing.
 *
 * Threads
 *   The library has no state at all: no globals, nothing kept between calls. Any number of threads may call at the same time,
 *   as long as none writes an array that another one uses: threads that share a yard take turns. Calls from signal handlers are safe
 *   too, on other arrays than those of the call that is interrupted. (Sums and comparisons of levels may set the thread's floating-point
 *   exception flags, a level that is not a number the flag for an invalid operation.)
 *
 * Stack
 *   A call takes less than 2,048 bytes of stack, dunnavish_release less than 3,072, the same for every card, word, chunk, list of trams
 *   and yard; tests/c/stack_use.c measures it. (If memcpy and memset are bound lazily, the first calls add what the dynamic linker
 *   takes.) There is no recursion, no heap and no system call.
 */
#ifndef DUNNAVISH_H
#define DUNNAVISH_H

#include <stddef.h>
#include <stdint.h>

#ifdef __cplusplus
extern "C" {
#endif

/* The version of this header and its archive. */
#define DUNNAVISH_VERSION_MAJOR 0
#define DUNNAVISH_VERSION_MINOR 6
#define DUNNAVISH_VERSION_PATCH 0
#define DUNNAVISH_VERSION "0.6.0"

/* The bytes of a card, and of the widest word. */
#define DUNNAVISH_CARD_BYTES 512
#define DUNNAVISH_WIDEST_WORD_BYTES 40

/* The most trams that a track holds. */
#define DUNNAVISH_MOST_TRAMS 64

/* The tracks of a yard, and the most trams that wait for them in all. */
#define DUNNAVISH_TRACKS 16
#define DUNNAVISH_MOST_WAITING 32

/* The bytes of a word of so many bits. */
static inline size_t dunnavish_word_bytes(uint32_t bits)
{
    return bits / 8 + (bits % 8 != 0);
}

/*
 * The status of a call. The reasons are tested in the order of their numbers, except that 100 comes before all others, 14 between
 * 4 and 5, 13 before 8 and 10, 15 and 16 in the places of 6 and 8, 26 before 20, and in a release 26, 20 and 21 after the card's and
 * before the word's; the first that holds is the answer.
 */
enum dunnavish_status {
    DUNNAVISH_OK = 0,
    DUNNAVISH_CARD_LENGTH = 1,      /* card: not 512 bytes */
    DUNNAVISH_CARD_CHECK = 2,       /* card: the check in bytes 510 to 511 differs from the bytes before it */
    DUNNAVISH_CARD_LIMITS = 3,      /* card: n outside 1 to 64, or k outside 1 to 12 or above n */
    DUNNAVISH_CARD_STRAY_BITS = 4,  /* card: a row has a bit at n or above, or an unused row or byte 104 to 509 is not zero */
    DUNNAVISH_CARD_DEPENDENT = 5,   /* card: some nonempty set of rows sums to zero */
    DUNNAVISH_WORD_LENGTH = 6,      /* word: not exactly the bytes of this card's words */
    DUNNAVISH_OFF_THE_TRACK = 7,    /* position above the last one, or block above 2^k - 1 */
    DUNNAVISH_SPARE_BIT = 8,        /* received word: a spare bit is set; chunk: a bit at n or above is set */
    DUNNAVISH_SEPARATORS = 9,       /* received word: its separators read 0 1 0 or 1 0 1 */
    DUNNAVISH_CHUNK_UNREADABLE = 10, /* a chunk, or a code chunk that a word's rule names, has no codeword within the radius; of
                                        levels, none for which 2 * wrong + erased is below D */
    DUNNAVISH_CHUNKS_DIFFER = 11,   /* received word: rule 3, and the two code chunks read differently */
    DUNNAVISH_NO_BLOCK = 12,        /* received word: rule 1 before the first block, or rule 2 after the last */
    DUNNAVISH_CODE_LIMITS = 13,     /* Reed-Muller code: m outside 1 to 6, r above m, or k above 12; tested before 8 and 10 */
    DUNNAVISH_CARD_OFFSET = 14,     /* card: offset, bytes 100 to 103, outside -20,000 to 20,000 mm; tested between 4 and 5 */
    DUNNAVISH_LEVEL_COUNT = 15,     /* levels: not exactly the d of this card's words; in the place of 6 */
    DUNNAVISH_LEVEL_LIMITS = 16,    /* levels: not a number, infinite, or above 1,000,000 in magnitude; in the place of 8 */
    DUNNAVISH_PARITY_DIFFERS = 17,  /* received word: separator 1, under rule 2 separator 3, differs from the parity of the number of
                                       the codeword that was read; tested straight after 12 */
    DUNNAVISH_TRAM_COUNT = 18,      /* trams: more than 64 */
    DUNNAVISH_STRETCH_LIMITS = 19,  /* trams and marks, as given: low above high in a stretch or a pair of marks, or a high or a mark
                                       above the last position */
    DUNNAVISH_NO_SUCH_TRACK = 20,   /* yard: the track that is requested, or the card's, is above 15; tested after 26 */
    DUNNAVISH_WRONG_TRAM = 21,      /* yard: a requesting tram already holds or waits for any track, or a releasing tram is not the
                                       holder of the card's track */
    DUNNAVISH_WAITING_FULL = 22,    /* yard: the track that is requested is held, and 32 trams already wait over all tracks */
    DUNNAVISH_YARD_UNSOUND = 26,    /* yard, as handed in: a tram stands there twice, as holder or waiting, or waits for a track that is
                                       free or above 15, or more than 32 wait; tested before 20 */
    DUNNAVISH_VALUE_COUNT = 100     /* `values`, `strength`, `yard` or the card to be made has not the call's count, or those of `lows`,
                                       `highs` and `yes` are not equal; tested first */
};

/* What the status of a call on a card or a code says, in a few words: a constant string, never NULL, for any other number too. */
static inline const char *dunnavish_status_text(uint32_t status)
{
    switch (status) {
    case DUNNAVISH_OK: return "served";
    case DUNNAVISH_CARD_LENGTH: return "the card has not 512 bytes";
    case DUNNAVISH_CARD_CHECK: return "the card's check differs from its bytes";
    case DUNNAVISH_CARD_LIMITS: return "the card's n is outside 1 to 64, or its k outside 1 to 12 or above n";
    case DUNNAVISH_CARD_STRAY_BITS: return "a row of the card has a bit at n or above, or an unused row or byte is not zero";
    case DUNNAVISH_CARD_DEPENDENT: return "some nonempty set of the card's rows sums to zero";
    case DUNNAVISH_WORD_LENGTH: return "the word has not exactly the bytes of this card's words";
    case DUNNAVISH_OFF_THE_TRACK: return "the position is above the last, or the block above 2^k - 1";
    case DUNNAVISH_SPARE_BIT: return "a bit past the end of the received word or chunk is set";
    case DUNNAVISH_SEPARATORS: return "the separators of the received word read 0 1 0 or 1 0 1";
    case DUNNAVISH_CHUNK_UNREADABLE: return "a code chunk that is to be read has no codeword that is near enough";
    case DUNNAVISH_CHUNKS_DIFFER: return "the separators are alike, and the two code chunks read differently";
    case DUNNAVISH_NO_BLOCK: return "the received word points to a block before the first or after the last";
    case DUNNAVISH_CODE_LIMITS: return "the Reed-Muller code's m is outside 1 to 6, its r above m, or its k above 12";
    case DUNNAVISH_CARD_OFFSET: return "the card's offset is outside -20,000 to 20,000 mm";
    case DUNNAVISH_LEVEL_COUNT: return "the levels are not exactly as many as the bits of this card's words";
    case DUNNAVISH_LEVEL_LIMITS: return "a level is not a number, infinite, or above 1,000,000 in magnitude";
    case DUNNAVISH_PARITY_DIFFERS: return "a separator of the received word contradicts the parity of its codeword's number";
    case DUNNAVISH_TRAM_COUNT: return "there are more than 64 trams";
    case DUNNAVISH_STRETCH_LIMITS: return "a stretch or pair of marks has low above high, or a high or mark is above the last position";
    case DUNNAVISH_VALUE_COUNT: return "the count of values, of a strength, of a made card's bytes, or of lows, highs and yes, is not the call's";
    default: return "a status that this version does not have";
    }
}

/* The same of a call on a yard. */
static inline const char *dunnavish_yard_status_text(uint32_t status)
{
    switch (status) {
    case DUNNAVISH_NO_SUCH_TRACK: return "the track's number is above 15";
    case DUNNAVISH_WRONG_TRAM: return "the requesting tram already holds or waits for a track, or the releasing tram is not the holder";
    case DUNNAVISH_WAITING_FULL: return "the track is held, and 32 trams already wait";
    case DUNNAVISH_YARD_UNSOUND: return "the yard has a tram twice, a tram waiting for a free track, or more than 32 waiting";
    case DUNNAVISH_VALUE_COUNT: return "the count of values or of a yard is not the call's";
    default: return dunnavish_status_text(status);
    }
}

/* Check a card. Answers 0 to 5, 14, or 100. On 0 the seven values are those of the indices below. */
enum dunnavish_card_value {
    DUNNAVISH_CARD_N = 0,        /* n, the code's length in bits */
    DUNNAVISH_CARD_K = 1,        /* k, the number of rows: there are 2^k codewords */
    DUNNAVISH_CARD_TRACK = 2,    /* the track number */
    DUNNAVISH_CARD_DISTANCE = 3, /* D, the least Hamming distance of the code */
    DUNNAVISH_CARD_RADIUS = 4,   /* t, the radius: (D - 1) / 2 rounded down */
    DUNNAVISH_CARD_BITS = 5,     /* d, the bits of a word: at most 320, in at most DUNNAVISH_WIDEST_WORD_BYTES */
    DUNNAVISH_CARD_LAST = 6,     /* the last position on the track */
    DUNNAVISH_CARD_VALUES = 7    /* the count of `values` */
};
uint32_t dunnavish_check_card(const uint8_t *card, size_t card_bytes, uint32_t *values, size_t values_count);

/*
 * Write the word of a position into `word`, which has exactly the bytes of a word. Answers 0 to 7, or 14. Only on 0 is `word`
 * written, all of it, spare bits zero; what it held before does not matter.
 * It then differs in just one bit from the word of each neighbouring position, and is the word of no other position.
 */
uint32_t dunnavish_write_word(const uint8_t *card, size_t card_bytes, uint32_t position, uint8_t *word, size_t word_bytes);

/* The value of a code chunk that was not read. It is never a count of bits: a count is at most 31. */
#define DUNNAVISH_NOT_READ 4294967295u

/*
 * Read a received word. Answers 0 to 6, 8 to 12, 14, 17, or 100. On 0 the five values are those of the indices below. If five values
 * are lent and each of the word's five chunks has at most t damaged bits, the answer is 0, and the position is off by at most twice
 * the damaged bits of the word, and by at most these bits plus the residual. The answer is also 0, and both bounds hold, where the
 * divided chunk of the position's word is damaged arbitrarily and each other one has at most t damaged bits. A chunk is divided if
 * some, but not all, of the places in which w(i) and w(i+1), the words of codewords i and i+1, differ in it are taken from w(i+1),
 * i being the position's block: at most one chunk is, and none at a block's start or at the last position.
 *
 * To draw an error bar about the answer: decide on the greatest number of bits that you are ready to assume damaged in all. On either
 * side of the position the error bar reaches as many steps as this number and the residual together, and it ends where the track
 * does. It holds the tram's position if no more bits were damaged, and no more than t in any chunk that is not divided. A residual
 * above that number shows that one or the other is not so.
 *
 * The rule names the code chunks that are read: rule 1 names chunk 1, rule 2 chunk 2, and rule 3 both. The value of a chunk that
 * is read is the number of bits in which it, as received, differs from the codeword that it was read as: at most t, which is at
 * most 31. If each of the word's five chunks has at most t damaged bits, it is the number of damaged bits in the chunk. A chunk that
 * the rule does not name is not read, whatever it holds, and its value is DUNNAVISH_NOT_READ.
 *
 * Separator 1, under rule 2 separator 3, must be equal to the parity of the number of the codeword that was read; if it is not, the
 * answer is DUNNAVISH_PARITY_DIFFERS, where nothing that is tested before it holds. So a word mixed from two telegrams, with that
 * separator from one and the codeword from another whose number has the other parity, is never answered 0.
 */
enum dunnavish_read_value {
    DUNNAVISH_READ_POSITION = 0,    /* the position, from 0 to the last */
    DUNNAVISH_READ_RESIDUAL = 1,    /* in how many bits the received word differs from that position's word */
    DUNNAVISH_READ_RULE = 2,        /* the rule of the separators, 1 to 3 */
    DUNNAVISH_READ_CHUNK1_BITS = 3, /* in how many bits code chunk 1 differs from its codeword; DUNNAVISH_NOT_READ under rule 2 */
    DUNNAVISH_READ_CHUNK2_BITS = 4, /* in how many bits code chunk 2 differs from its codeword; DUNNAVISH_NOT_READ under rule 1 */
    DUNNAVISH_READ_VALUES = 5       /* the count of `values` */
};
uint32_t dunnavish_read_word(const uint8_t *card, size_t card_bytes, const uint8_t *word, size_t word_bytes, uint32_t *values,
                             size_t values_count);

/*
 * Read a received word whose bits came as levels, exactly d of them. A level below zero is a 1, one above zero a 0, and a zero of
 * either sign an erased bit (document 02 calls it lost). Any level, whatever its place, that is not a number, infinite or above
 * 1,000,000 in magnitude is answered DUNNAVISH_LEVEL_LIMITS; 1,000,000 itself is allowed. Answers 0 to 5, 9 to 12, 14 to 17, or 100.
 *
 * A separator reads 1 if the sum of its levels is below zero, and otherwise 0. They are added in order from zero in single precision,
 * each sum rounded to the nearest, ties to even. A code chunk reads as the codeword for which 2 * wrong + erased is below D (there is
 * at most one): wrong counts the unerased bits that differ from it, erased the erased ones. On 0 the five values are those of
 * dunnavish_read_word, at the same indices, with one difference: only unerased bits count, in the residual, by which the nearest
 * position is found, and in the bits of the chunks. The two floats are the receiver's strength, at the indices below. What is said
 * of dunnavish_read_word's separators and the codeword's number holds here too, of separators read by the sums of their levels.
 *
 * Where five values and two floats are lent: if there are d levels, each 1 or -1, status and values are those that
 * dunnavish_read_word answers for these bits. If there are d levels, each 1, -1 or 0, and, against the word of a position, each of
 * the five chunks has 2 * wrong + erased below D, the answer is 0, and the position answered is off by at most 2 * wrong + erased,
 * counted over the whole word.
 */
enum dunnavish_strength_value {
    DUNNAVISH_STRENGTH_SUM = 0,      /* the magnitudes of the d levels, added in order as a separator's levels are */
    DUNNAVISH_STRENGTH_GREATEST = 1, /* the greatest of these magnitudes */
    DUNNAVISH_STRENGTH_VALUES = 2    /* the count of `strength` */
};
uint32_t dunnavish_read_levels(const uint8_t *card, size_t card_bytes, const float *levels, size_t levels_count, uint32_t *values,
                               size_t values_count, float *strength, size_t strength_count);

/*
 * The count of `values` of dunnavish_block_start, dunnavish_millimetres, dunnavish_nearest_tram, dunnavish_request and
 * dunnavish_release, which put their answer into values[0]: a position, a signed distance, a place in the list, or what became of a
 * track.
 */
#define DUNNAVISH_NUMBER_VALUES 1

/* The position at which block `block` starts; blocks are 0 to 2^k - 1. Answers 0 to 5, 7, 14, or 100. */
uint32_t dunnavish_block_start(const uint8_t *card, size_t card_bytes, uint32_t block, uint32_t *values, size_t values_count);

/*
 * The distance of a position from the buffer face in millimetres: the card's offset, which is the distance of position 0, and 50
 * for each step. It is negative where the position lies before the face. Answers 0 to 5, 7, 14, or 100.
 */
uint32_t dunnavish_millimetres(const uint8_t *card, size_t card_bytes, uint32_t position, int32_t *values, size_t values_count);

/*
 * What stands at a mark. The three calls below are given the trams of a track, at most DUNNAVISH_MOST_TRAMS of them, each a stretch
 * from a low to a high position. Before any search a stretch is widened by 10 * t at both ends and cut to 0 and the last position;
 * DUNNAVISH_STRETCH_LIMITS looks at stretches and marks as they are given, and at the marks of no trams too.
 *
 * 10 * t is twice the most bits that five chunks within the radius can have damaged. So a stretch whose ends dunnavish_read_word read
 * from words of the true positions a and b, each damaged in at most t bits of every chunk, holds a and b once it is widened. What is
 * said of a and b below is said of such a tram, in a call that is answered 0. (Positions read from levels, or from words with more
 * damage, may be off by more than 10 * t.) Damage may read the low end of a short tram above its high end, which is
 * DUNNAVISH_STRETCH_LIMITS; given with its ends exchanged, the tram is covered as well.
 */

/*
 * Which trams cross a mark: low at most the mark, and high at least the mark, of the widened stretch. Answers 0 to 5, 14, 18, 19, or
 * 100. On 0 each entry of `yes` is 1 for a tram that does and 0 for one that does not, in the order of the list. If the mark lies between
 * a and b, the entry is 1: no such tram is missed. (A tram whose entry is 1 need not stand at the mark.)
 */
uint32_t dunnavish_trams_crossing(const uint8_t *card, size_t card_bytes, const uint32_t *lows, size_t lows_count,
                                  const uint32_t *highs, size_t highs_count, uint32_t mark, uint8_t *yes, size_t yes_count);

/*
 * Which trams stand wholly within two marks: low at least the first, and high at most the second, of the widened stretch. Answers 0 to
 * 5, 14, 18, 19, or 100. On 0 `yes` is left as by dunnavish_trams_crossing. If the entry of a tram is 1, a and b lie within the marks. (A
 * tram whose entry is 0 may stand within them.)
 */
uint32_t dunnavish_trams_within(const uint8_t *card, size_t card_bytes, const uint32_t *lows, size_t lows_count,
                                const uint32_t *highs, size_t highs_count, uint32_t first, uint32_t second, uint8_t *yes,
                                size_t yes_count);

/* The place of the nearest tram where there are no trams. It is never a place in a list: a place is at most 63. */
#define DUNNAVISH_NO_TRAM 4294967295u

/*
 * Which tram is the nearest to a mark. Its distance is from the mark to the nearer end of its widened stretch, and 0 where it crosses
 * the mark. Of trams at the same distance it is the one with the smaller widened low, and then the earlier in the list. Answers 0 to
 * 5, 14, 18, 19, or 100. On 0 values[0] is the tram's place in the list, from 0, or DUNNAVISH_NO_TRAM. No part of a tram between a and
 * b is nearer to the mark than the widened stretch of the tram that is answered. (Another tram may stand nearer than that one does.)
 */
uint32_t dunnavish_nearest_tram(const uint8_t *card, size_t card_bytes, const uint32_t *lows, size_t lows_count,
                                const uint32_t *highs, size_t highs_count, uint32_t mark, uint32_t *values, size_t values_count);

/*
 * The yard. Sixteen tracks, 0 to 15, each free or held by a tram; and the trams that wait, at most DUNNAVISH_MOST_WAITING over all
 * tracks, in the order in which they came, each for one track. Those that wait for a track are its queue. All 65,536 numbers of 16 bits
 * are trams, and none stands for nobody.
 *
 * A yard is DUNNAVISH_YARD_NUMBERS numbers, at the indices below; all zero is the empty yard. The holder's number of a free track means
 * nothing, and the waiting entries from the count on are never looked at. Any 97 numbers may be handed in: a yard with a tram twice, as
 * holder or waiting, with one that waits for a track that is free or above 15, or with a count above 32 is answered
 * DUNNAVISH_YARD_UNSOUND.
 *
 * A status other than 0, and DUNNAVISH_NOT_CLEAR, leave all 97 numbers exactly as they were. Any other answer writes all of them. Flags
 * are then 0 or 1. A track that is given to a tram has flag 1 and that tram, a freed one flag 0 and holder 0; every other track keeps
 * its holder's number. A tram that joins stands at the place that was the count. Where a waiting tram gets its track, all entries behind
 * its own move up by one, those from the count on too, and the last place becomes tram 0 and track 0. Other entries stay.
 *
 * What is proved of the order: where the yard was empty at first, and each call was given the yard that the last one left, a tram that
 * waits with q trams ahead of it in its queue holds its track after exactly q + 1 accepted releases of that track, and not before,
 * whatever other calls fall between. Such a yard is never answered DUNNAVISH_YARD_UNSOUND.
 */
enum dunnavish_yard_number {
    DUNNAVISH_YARD_HELD = 0,     /* 16 flags, of tracks 0 to 15: 0 is free, any other number held, for which a call writes 1 */
    DUNNAVISH_YARD_HOLDERS = 16, /* 16 trams, the holders of tracks 0 to 15 */
    DUNNAVISH_YARD_COUNT = 32,   /* how many trams wait */
    DUNNAVISH_YARD_TRAMS = 33,   /* 32 places: the trams that wait, in the order in which they came */
    DUNNAVISH_YARD_TRACKS = 65,  /* 32 places: the tracks that they wait for */
    DUNNAVISH_YARD_NUMBERS = 97  /* the count of `yard` */
};

/*
 * Request a track of the yard for a tram. It holds the track if that is free, and joins the end of its queue otherwise. Answers 0, or 26,
 * 20, 21 and 22, tested in this order, or 100. On 0 values[0] is one of the two below. A track that is free is given away however many
 * trams wait for others.
 */
enum dunnavish_request_value {
    DUNNAVISH_HOLDS = 0, /* the tram holds the track */
    DUNNAVISH_WAITS = 1  /* the track was held, and the tram waits for it */
};
uint32_t dunnavish_request(uint16_t *yard, size_t yard_count, uint16_t tram, uint32_t track, uint32_t *values, size_t values_count);

/*
 * Release a track: the tram that holds it sends a word. The track is the one whose number the card has. The word is read as by
 * dunnavish_read_word. If the position less 10 * t is above the mark, the release is accepted: the track is handed on to the first tram
 * of its queue, or freed if none waits for it. Otherwise the answer is DUNNAVISH_NOT_CLEAR, which is no refusal. The comparison is exact:
 * the difference may be negative, and any mark may be given, on the track or not. Answers 0, or, tested in this order, 100, the card's
 * reasons (1 to 4, 14, 5), 26, 20, 21, and the word's (6, 8 to 12, 17). On 0 values[0] is one of the three below. The tram that the track
 * was handed on to is then its holder, yard[DUNNAVISH_YARD_HOLDERS + track].
 *
 * 10 * t is twice the most bits that five chunks within the radius can have damaged. What is proved of the mark: where the word is that
 * of a true position with at most t damaged bits in each chunk, an accepted release means that the true position is above the mark; and
 * where the true position less 20 * t is above the mark, and 100, the card's reasons, 26, 20 and 21 do not hold, the release is accepted.
 */
enum dunnavish_release_value {
    DUNNAVISH_NOT_CLEAR = 0, /* the position less 10 * t is not above the mark, and the yard is as it was */
    DUNNAVISH_FREED = 1,     /* accepted: no tram waited for the track, and it is free */
    DUNNAVISH_HANDED_ON = 2  /* accepted: the first tram of the track's queue holds it */
};
uint32_t dunnavish_release(uint16_t *yard, size_t yard_count, uint16_t tram, const uint8_t *word, size_t word_bytes, uint32_t mark,
                           const uint8_t *card, size_t card_bytes, uint32_t *values, size_t values_count);

/*
 * Make the card of a Reed-Muller code for a track, into `card`, which has exactly DUNNAVISH_CARD_BYTES bytes. Answers 0, 13, or
 * 100. Only on 0 is `card` written, all of it; what it held before does not matter. The code of order r in m variables has
 * n = 2^m, a row for each set of at most r variables, k in all, and D = 2^(m-r). m is 1 to 6, r is 0 to m, and k is at most 12:
 * these are sixteen codes. The card's offset is 0.
 */
uint32_t dunnavish_make_card(uint16_t track, uint32_t r, uint32_t m, uint8_t *card, size_t card_bytes);

/*
 * Read one chunk of the code of order r in m variables by majority votes; place p of the chunk is the bit worth 2^p. Answers 0,
 * or 13, 8 and 10, tested in this order, or 100. On 0 the two values are those of the indices below. The codeword is the one
 * within the radius t, (D - 1) / 2 rounded down, of the chunk (there is at most one): what a search of all codewords finds.
 */
enum dunnavish_vote_value {
    DUNNAVISH_VOTE_NUMBER = 0, /* the codeword's number i, of c(i) on the card that dunnavish_make_card makes */
    DUNNAVISH_VOTE_BITS = 1,   /* in how many bits the chunk differs from that codeword, at most t */
    DUNNAVISH_VOTE_VALUES = 2  /* the count of `values` */
};
uint32_t dunnavish_vote_chunk(uint32_t r, uint32_t m, uint64_t chunk, uint32_t *values, size_t values_count);

#ifdef __cplusplus
}
#endif

#endif
