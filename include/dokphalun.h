/* Tangent frames for scanned steel: the calls of libdokphalun.a, for C and C++.
 *
 * An absent reading is not a good reading. A slot without a frame is twelve zero words, which as numbers would look like
 * smooth steel; and a frame that is there can be of no use, since a direction of it is zero. So ask every slot with
 * dokphalun_judged_slot, take nothing but DOKPHALUN_JUDGED_GOOD for a reading, and never take a slot's words for numbers yourself.
 *
 * A list is a pointer to its first element and a number of elements. The pointer is not null, not even for a list of no
 * elements, and it is aligned as its type asks (words and numbers to 4 bytes, packed numbers to 2). A lent list (answer, work,
 * card, verdicts, reasons, our own links) stands apart from every other list of the call. Any numbers whatever may be
 * handed in; each call ends, and a refusal alters no list. A call needs less than 12 KiB of stack.
 *
 * The archive says what it is: before its first call a program compares dokphalun_interface() with DOKPHALUN_INTERFACE and
 * dokphalun_slot_words() with DOKPHALUN_SLOT_WORDS, and calls nothing of an archive that says otherwise.
 */
#ifndef DOKPHALUN_H
#define DOKPHALUN_H

#include <math.h>
#include <stddef.h>
#include <stdint.h>
#include <string.h>

#ifdef __cplusplus
extern "C" {
#endif

/* The edition of the interface that this header declares: one more whenever a call, a list or a number of it no longer means
 * what it meant. */
#define DOKPHALUN_INTERFACE 3
/* The greatest number of faces that is accepted. */
#define DOKPHALUN_MOST_FACES 65536
/* The words of a slot, and of a card's record; and of a record of an old card, from before request E7. */
#define DOKPHALUN_SLOT_WORDS 12
#define DOKPHALUN_OLD_SLOT_WORDS 10
/* The words of work that a face needs. */
#define DOKPHALUN_WORK_WORDS 128
/* The entries a face of the lists that dokphalun_frames_by_islands works in besides. */
#define DOKPHALUN_ORDER_WORDS 4
#define DOKPHALUN_OWN_NUMBERS 32
#define DOKPHALUN_OWN_FRAME_WORDS 48
/* The words a face of the lists that dokphalun_links writes: links and groups, and orientations. */
#define DOKPHALUN_LINK_WORDS 6
#define DOKPHALUN_ORIENTATION_WORDS 2
/* What a face is given that is in no island. */
#define DOKPHALUN_NO_ISLAND UINT32_MAX
/* The bytes of a card's block, and the records that it holds; and those of an old card's. */
#define DOKPHALUN_BLOCK_BYTES 512
#define DOKPHALUN_BLOCK_RECORDS 10
#define DOKPHALUN_OLD_BLOCK_RECORDS 12
/* The bytes of a card, and of an old card, of so many records. */
#define DOKPHALUN_CARD_BYTES(records) \
    (((size_t)(records) + DOKPHALUN_BLOCK_RECORDS - 1) / DOKPHALUN_BLOCK_RECORDS * DOKPHALUN_BLOCK_BYTES)
#define DOKPHALUN_OLD_CARD_BYTES(records) \
    (((size_t)(records) + DOKPHALUN_OLD_BLOCK_RECORDS - 1) / DOKPHALUN_OLD_BLOCK_RECORDS * DOKPHALUN_BLOCK_BYTES)

#if defined(__GNUC__)
#define DOKPHALUN_ASK __attribute__((warn_unused_result))
#else
#define DOKPHALUN_ASK
#endif

/* What stands before a function that has a better one beside it; a compiler that has a way to warn says which. */
#if defined(__GNUC__) || defined(__clang__)
#define DOKPHALUN_DEPRECATED(instead) __attribute__((deprecated(instead)))
#elif defined(_MSC_VER)
#define DOKPHALUN_DEPRECATED(instead) __declspec(deprecated(instead))
#else
#define DOKPHALUN_DEPRECATED(instead)
#endif

/* What dokphalun_frames says: number 0, place 0 and how many slots it wrote; or a refusal's number, its place and 0. They are
 * checked in this order, and the first that applies is given:
 *   1  more than DOKPHALUN_MOST_FACES faces
 *   2  positions or normals are not three numbers a corner, or texture coordinates not two
 *   3  the threshold is NaN or infinite
 *   4  a corner of a face of 3 or 4 holds a NaN or infinity; place is the lowest such corner, counted from 0 over all faces
 *   7  a corner of a face of 3 or 4 has no normal: each of its three numbers is at most 2^-126 in size; place as for 4
 *   5  the answer list is shorter than DOKPHALUN_SLOT_WORDS a slot
 *   6  the work list is shorter than 128 words a face
 */
struct dokphalun_outcome {
    uint32_t number;
    uint32_t place;
    uint32_t slots;
};

/* What dokphalun_judge says: number 0, how many slots are DOKPHALUN_JUDGED_GOOD, and the lowest that is not, or the number of slots where all
 * are; or a refusal's number and zeros. All slots are good where `number` is 0, there is a slot, and `good` is how many there are; of no slot at
 * all `good` is 0 too, and nothing was read.
 *   1  the words are not whole slots, or 2^32 slots or more
 *   2  the list for the verdicts is shorter than one a slot
 */
struct dokphalun_judged {
    uint32_t number;
    uint32_t good;
    size_t first;
};

/* What a slot is worth, from its words alone. Only DOKPHALUN_JUDGED_GOOD is a reading. */
enum dokphalun_verdict {
    DOKPHALUN_JUDGED_ABSENT = 0, /* absent: the corner has no frame */
    DOKPHALUN_JUDGED_GOOD = 1, /* a frame with two directions, which can be packed */
    DOKPHALUN_JUDGED_LOST = 2, /* lost: a card's block is not there, or not as it was written */
    DOKPHALUN_JUDGED_BLANK = 3, /* the orientation is neither 0 nor 1, or a direction is NaN, infinite or has no number above 2^-126 in size */
    DOKPHALUN_JUDGED_LONG = 4, /* a number of a direction is beyond 1 by more than its last digits (bits 3F800008): it is packed as absent */
    DOKPHALUN_JUDGED_SHORT = 5 /* a direction is so short that all three numbers of it are packed as 0 */
};

/* Why a slot is absent. Each absent slot has one of the three, and no other slot has any. */
enum dokphalun_reason {
    DOKPHALUN_NO_REASON = 0, /* it is not absent */
    DOKPHALUN_UNWELDED = 1, /* its corner is one of a degenerate triangle whose face is no marked quad, and no sound corner is welded to it */
    DOKPHALUN_COPIES_ABSENT = 2, /* it copies a corner that is absent itself */
    DOKPHALUN_UNREACHED = 3 /* it belongs to sound triangles, all of them group_with_any, and no group reached it */
};

/* The lists of a mesh that dokphalun_part is asked of. */
enum dokphalun_list {
    DOKPHALUN_POSITIONS = 0,
    DOKPHALUN_NORMALS = 1,
    DOKPHALUN_TEXTURE = 2
};

/* Where a face's numbers stand in a list: from this place on, so many. */
struct dokphalun_span {
    size_t from;
    size_t count;
};

/* What dokphalun_labels says: number 0, place 0 and how many islands there are; or a refusal's number, its place and 0.
 *   1, 2, 4, 7, 6  as dokphalun_frames, in this order
 *   9  the list of labels is shorter than one a face
 */
struct dokphalun_labelled {
    uint32_t number;
    uint32_t place;
    uint32_t islands;
};

/* What dokphalun_examine says: three times 0, the lists are accepted; or a refusal's number, 0 and its place; or 0, the number
 * of the first objection that applies and its lowest place. Refusals 1, 2, 4, 7 and 6 are those of dokphalun_frames.
 * A row is a corner of a sound triangle, and the side that runs from it to the triangle's next corner: row 3t + i is of corner i
 * (0, 1, 2) of sound triangle t. Two corners are welded where all eight numbers are the same to the bit. docs/EXAMINER.md has
 * an example of each.
 *   1   a list is not 3N, 3N and N words long, N the number of sound triangles; place 0, 1, 2: links, groups, orientations
 *   2   a side is linked to a row that is not there; place is its row
 *   3   a side is linked to one that does not have the same two welded ends, run the opposite way; its row
 *   4   a side is linked to one that is not linked back to it; its row
 *   5   a side is unlinked, and so is another with the same two welded ends, run the opposite way; its row
 *   6   an orientation is neither 0 nor 1; place is the triangle
 *   7   a triangle that is not group_with_any has another orientation than step 3 gives it; the triangle
 *   8   a corner of a triangle that is not group_with_any is in no group; place is its row
 *   9   a corner is in a group with a lower row to whose corner it is not welded; its row
 *   10  a corner is in a group with a lower row whose triangle has the other orientation; its row
 *   11  a side links two triangles of one orientation, neither group_with_any, and the corners that meet at an end of it are not
 *       in one group; its row
 *   12  a corner is in a group with a lower row from which no chain of linked sides that end in the corner leads to it; its row
 */
struct dokphalun_examined {
    uint32_t refusal;
    uint32_t objection;
    uint32_t place;
};

/* What dokphalun_links says: number 0, place 0 and N, how many triangles are sound; or a refusal's number, its place and 0.
 *   1, 2, 4, 7, 6  as dokphalun_frames, in this order
 *   9  links or groups are shorter than DOKPHALUN_LINK_WORDS a face, or orientations than DOKPHALUN_ORIENTATION_WORDS
 */
struct dokphalun_handed {
    uint32_t number;
    uint32_t place;
    uint32_t sound;
};

/* What dokphalun_card_write and dokphalun_old_card_write say: number 0 and how many bytes it wrote; or a refusal's number and 0.
 *   1  the words are not whole records, are 2^32 records or more, or word 0 of one is neither 0 nor 1
 *   2  the card's list is too short
 */
struct dokphalun_written {
    uint32_t number;
    size_t bytes;
};

/* What dokphalun_card_read and dokphalun_old_card_read say: number 0 and how many bytes stand past the last whole block that
 * the total calls for; or refusal 2, the answer list is shorter than the words of so many records, and 0. */
struct dokphalun_found {
    uint32_t number;
    size_t past;
};

/* What dokphalun_card_next and dokphalun_old_card_next say: number 0, how many records the next block takes (none where the
 * card is whole) and the byte of the file at which it goes; or refusal 3, the card holds more than the total calls for, and zeros. */
struct dokphalun_next {
    uint32_t number;
    uint32_t records;
    size_t at;
};

/* What dokphalun_card_append and dokphalun_old_card_append say: number 0, how many blocks of 512 bytes were made and the byte
 * of the file at which they go; or a refusal's number and zeros.
 *   1  as dokphalun_card_write
 *   2  the list for the blocks is too short
 *   3  the card holds more than the total calls for
 *   4  the records are not those of the next blocks by count
 */
struct dokphalun_appended {
    uint32_t number;
    uint32_t blocks;
    size_t at;
};

/* What dokphalun_pack says: number 0 and how many numbers it wrote; or a refusal's number and 0.
 *   1  the words are not whole slots
 *   2  the list for the numbers is too short
 */
struct dokphalun_packed {
    uint32_t number;
    size_t count;
};

/* What dokphalun_unpack says: number 0 and 0; or a refusal's number and a place.
 *   1  the numbers are not whole sevens
 *   2  the answer list is shorter than eight words a slot
 *   3  seven numbers that dokphalun_pack cannot write; place is the slot
 */
struct dokphalun_unpacked {
    uint32_t number;
    size_t place;
};

/* The edition of the archive's interface, and the words of its slots: DOKPHALUN_INTERFACE and DOKPHALUN_SLOT_WORDS, unless the
 * archive is another than this header's. */
DOKPHALUN_ASK uint32_t dokphalun_interface(void);
DOKPHALUN_ASK uint32_t dokphalun_slot_words(void);

/* Frames of a mesh: corners stand in face order, three numbers each for positions and normals and two for texture.
 * The threshold is the cosine of the angle up to which tangents are joined; -1 sets no limit. Each corner of a face of
 * 3 or 4 takes a slot, by face and then by corner; other faces take none. */
DOKPHALUN_ASK struct dokphalun_outcome dokphalun_frames(
    const uint8_t *sizes, size_t faces,
    const float *positions, size_t position_numbers,
    const float *normals, size_t normal_numbers,
    const float *texture, size_t texture_numbers,
    float threshold,
    uint32_t *answer, size_t answer_words,
    uint32_t *work, size_t work_words);

/* The same words as from dokphalun_frames, and a byte for each slot: why it is absent (enum dokphalun_reason). Refusal 9, after all
 * others: the list of reasons is shorter than one a slot. Past the slots nothing is altered. */
DOKPHALUN_ASK struct dokphalun_outcome dokphalun_reasons(
    const uint8_t *sizes, size_t faces,
    const float *positions, size_t position_numbers,
    const float *normals, size_t normal_numbers,
    const float *texture, size_t texture_numbers,
    float threshold,
    uint32_t *answer, size_t answer_words,
    uint32_t *work, size_t work_words,
    uint8_t *reasons, size_t reason_bytes);

/* A verdict on each slot of a list, a byte each (enum dokphalun_verdict): of an answer, or of what dokphalun_card_read left. Past the
 * slots nothing is altered. The verdict looks at words 0 to 9. It says nothing else: the two directions of a good slot can be one and the same,
 * as those of a face whose corners stand on a line are.
 * WARNING: no old card's records here. Six of them are as long as five slots: they would be judged as five other slots, and not be refused.
 * Widen each with dokphalun_old_to_slot first, or ask dokphalun_judged_old_slot. */
DOKPHALUN_ASK struct dokphalun_judged dokphalun_judge(
    const uint32_t *answer, size_t answer_words,
    uint8_t *verdicts, size_t verdict_bytes);

/* The part of a list (enum dokphalun_list) that belongs to a face: where it stands, never a copy. It is empty, from 0 on, for a face
 * number that is not below faces, for lists that refusal 1 or 2 would catch, and for a list that there is not. Each call adds up the
 * sizes of the faces before. */
DOKPHALUN_ASK struct dokphalun_span dokphalun_part(
    const uint8_t *sizes, size_t faces,
    const float *positions, size_t position_numbers,
    const float *normals, size_t normal_numbers,
    const float *texture, size_t texture_numbers,
    uint32_t list, size_t face);

/* The islands of a mesh. Two faces of 3 or 4 are in one if a chain of faces, each sharing a welded corner with the next, leads
 * from one to the other. Each such face gets the lowest face number of its island, every other face DOKPHALUN_NO_ISLAND. */
DOKPHALUN_ASK struct dokphalun_labelled dokphalun_labels(
    const uint8_t *sizes, size_t faces,
    const float *positions, size_t position_numbers,
    const float *normals, size_t normal_numbers,
    const float *texture, size_t texture_numbers,
    uint32_t *labels, size_t label_words,
    uint32_t *work, size_t work_words);

/* The same words as from dokphalun_frames, made one island at a time. It works in five lists besides: labels (one entry a face, left
 * as dokphalun_labels leaves it), order (DOKPHALUN_ORDER_WORDS a face), own_sizes (one), own_numbers (DOKPHALUN_OWN_NUMBERS) and
 * own_frames (DOKPHALUN_OWN_FRAME_WORDS); the last four are left zero so far. Refusal 9, after all others: one of the five is too short. */
DOKPHALUN_ASK struct dokphalun_outcome dokphalun_frames_by_islands(
    const uint8_t *sizes, size_t faces,
    const float *positions, size_t position_numbers,
    const float *normals, size_t normal_numbers,
    const float *texture, size_t texture_numbers,
    float threshold,
    uint32_t *answer, size_t answer_words,
    uint32_t *work, size_t work_words,
    uint32_t *labels, size_t label_words,
    uint32_t *order, size_t order_words,
    uint8_t *own_sizes, size_t own_faces,
    float *own_numbers, size_t own_number_count,
    uint32_t *own_frames, size_t own_frame_words);

/* Examines lists that somebody else made for a mesh. Its N sound triangles are those of which no two positions are equal: faces
 * in order, one of a face of 3, two of a quad, cut by the shorter diagonal of its texture, where equal of its positions.
 *   links         3N words: 0 where the side of the row is not linked, else the row of the side beyond, plus 1
 *   groups        3N words: 0 where the corner of the row is in no group, else its group by any number
 *   orientations  N words: 1 where the texture runs round the triangle as its corners do, else 0
 * Work is as for dokphalun_frames, and is left zero so far unless the mesh is refused. */
DOKPHALUN_ASK struct dokphalun_examined dokphalun_examine(
    const uint8_t *sizes, size_t faces,
    const float *positions, size_t position_numbers,
    const float *normals, size_t normal_numbers,
    const float *texture, size_t texture_numbers,
    const uint32_t *links, size_t link_words,
    const uint32_t *groups, size_t group_words,
    const uint32_t *orientations, size_t orientation_words,
    uint32_t *work, size_t work_words);

/* The same lists as our own frames of a mesh rest on: the first 3N, 3N and N words are written, and those past them are left as they
 * were. They are always accepted by dokphalun_examine. */
DOKPHALUN_ASK struct dokphalun_handed dokphalun_links(
    const uint8_t *sizes, size_t faces,
    const float *positions, size_t position_numbers,
    const float *normals, size_t normal_numbers,
    const float *texture, size_t texture_numbers,
    uint32_t *links, size_t link_words,
    uint32_t *groups, size_t group_words,
    uint32_t *orientations, size_t orientation_words,
    uint32_t *work, size_t work_words);

/* Answer words to the bytes of a card. Cards are of two kinds: of DOKPHALUN_SLOT_WORDS a record, as answers have them, and old
 * ones of DOKPHALUN_OLD_SLOT_WORDS, from before request E7. To a reader of one kind each block of the other is lost.
 * WARNING: no old card's records here. Six of them are as long as five slots: they can be taken for five wrong ones and not be
 * refused. They go to dokphalun_old_card_write. */
DOKPHALUN_ASK struct dokphalun_written dokphalun_card_write(
    const uint32_t *answer, size_t answer_words,
    uint8_t *card, size_t card_bytes);

/* The records of a card that was written with so many, lost ones told apart. */
DOKPHALUN_ASK struct dokphalun_found dokphalun_card_read(
    const uint8_t *card, size_t card_bytes, uint32_t total,
    uint32_t *answer, size_t answer_words);

/* What comes next on a card of so many bytes, torn or whole. */
DOKPHALUN_ASK struct dokphalun_next dokphalun_card_next(size_t card_bytes, uint32_t total);

/* The bytes of the next block or blocks of a card of so many bytes, from their records: slots, and no old card's (the warning of
 * dokphalun_card_write). */
DOKPHALUN_ASK struct dokphalun_appended dokphalun_card_append(
    size_t card_bytes, uint32_t total,
    const uint32_t *records, size_t record_words,
    uint8_t *blocks, size_t block_bytes);

/* The same four of an old card: all lists of records have DOKPHALUN_OLD_SLOT_WORDS a record. */
DOKPHALUN_ASK struct dokphalun_written dokphalun_old_card_write(
    const uint32_t *records, size_t record_words,
    uint8_t *card, size_t card_bytes);
DOKPHALUN_ASK struct dokphalun_found dokphalun_old_card_read(
    const uint8_t *card, size_t card_bytes, uint32_t total,
    uint32_t *records, size_t record_words);
DOKPHALUN_ASK struct dokphalun_next dokphalun_old_card_next(size_t card_bytes, uint32_t total);
DOKPHALUN_ASK struct dokphalun_appended dokphalun_old_card_append(
    size_t card_bytes, uint32_t total,
    const uint32_t *records, size_t record_words,
    uint8_t *blocks, size_t block_bytes);

/* Frames packed for a viewer: seven numbers a slot, six directions times 32,767 and 1 or -1 for the orientation; a slot
 * without a frame is seven times -32,768.
 * WARNING: judge first. A slot that is DOKPHALUN_JUDGED_BLANK or DOKPHALUN_JUDGED_SHORT can be packed with three zeros for a direction (a frame
 * of zeros as 0 0 0 0 0 0 1): that is unpacked as present, and looks smooth. Make each slot that is not DOKPHALUN_JUDGED_GOOD twelve zeros
 * before it is packed, or pack none.
 * WARNING: no old card's records here. Six of them are as long as five slots: they are taken for five wrong ones and not refused.
 * Widen each with dokphalun_old_to_slot first. */
DOKPHALUN_ASK struct dokphalun_packed dokphalun_pack(
    const uint32_t *answer, size_t answer_words,
    int16_t *packed, size_t packed_numbers);

/* Packed frames read: eight words a slot, 1, six numbers and the orientation; an absent one is 0 and seven times -32,768.
 * WARNING: where the first three of the six numbers, or the last three, are 0, what was packed was of no use: take it as absent, though its first
 * word is 1. */
DOKPHALUN_ASK struct dokphalun_unpacked dokphalun_unpack(
    const int16_t *packed, size_t packed_numbers,
    uint32_t *answer, size_t answer_words);

/* What word 0 of a slot says. Only DOKPHALUN_PRESENT has a frame, and whether that is of use dokphalun_judge says. */
enum dokphalun_reading {
    DOKPHALUN_ABSENT = 0, /* the corner has no frame */
    DOKPHALUN_PRESENT = 1,
    DOKPHALUN_LOST = 2 /* a card's block is not there, or not as it was written: nothing is known */
};

/* Where a frame comes from. */
enum dokphalun_origin {
    DOKPHALUN_NOT_RECORDED = 0, /* there is no frame; or it is of an old card, or of a card whose word for it is none of these */
    DOKPHALUN_SINGLE = 1, /* one subgroup brought it */
    DOKPHALUN_COMBINED = 2, /* the two triangles of a quad brought one each, and they were combined */
    DOKPHALUN_COPIED = 3, /* copied to a corner of a degenerate triangle from a sound corner with the same numbers */
    DOKPHALUN_FILLED = 4 /* copied within a quad with one degenerate triangle, to the corner that the other one lacks */
};

/* The frame of a corner. Of a slot that is DOKPHALUN_JUDGED_GOOD both directions are finite and not zero; take any other as you take an absent
 * one. The magnitudes can be infinite or NaN. */
struct dokphalun_frame {
    float tangent[3];
    float bitangent[3];
    float mag_s;
    float mag_t;
    uint32_t preserving; /* 1 where the texture runs round the face as the corners do; 0 where it is mirrored */
    enum dokphalun_origin origin;
    uint32_t behind; /* how many triangles that are not group_with_any stand behind it; 0 where its origin is not recorded */
};

/* What the words say that slots and old cards' records have both. */
static inline enum dokphalun_reading dokphalun_old_words(const uint32_t *words, struct dokphalun_frame *frame)
{
    float numbers[8];
    size_t i;
    memcpy(numbers, words + 1, sizeof numbers);
    if (words[0] != 1)
        for (i = 0; i < 8; i++)
            numbers[i] = NAN;
    memcpy(frame->tangent, numbers, sizeof frame->tangent);
    memcpy(frame->bitangent, numbers + 3, sizeof frame->bitangent);
    frame->mag_s = numbers[6];
    frame->mag_t = numbers[7];
    frame->preserving = words[0] == 1 ? words[9] : 0;
    frame->origin = DOKPHALUN_NOT_RECORDED;
    frame->behind = 0;
    return words[0] == 1 ? DOKPHALUN_PRESENT : words[0] == 0 ? DOKPHALUN_ABSENT : DOKPHALUN_LOST;
}

/* What the words of a slot say. The frame is filled in where it is present; else its directions and magnitudes become NaN, so that an
 * answer that was not asked for does not look like zeros, and preserving, origin and behind, which have no NaN, 0. */
static inline enum dokphalun_reading dokphalun_new_words(const uint32_t *slot, struct dokphalun_frame *frame)
{
    enum dokphalun_reading reading = dokphalun_old_words(slot, frame);
    if (reading != DOKPHALUN_PRESENT)
        return reading;
    if (slot[10] < DOKPHALUN_SINGLE || slot[10] > DOKPHALUN_FILLED)
        return reading;
    frame->origin = (enum dokphalun_origin)slot[10];
    frame->behind = slot[11];
    return reading;
}

/* What word 0 of slot k of an answer list says. Deprecated: a frame that is present by word 0 can be of no use, and is filled in all the
 * same. dokphalun_judged_slot fills in good ones alone. */
DOKPHALUN_DEPRECATED("it goes by word 0: use dokphalun_judged_slot")
DOKPHALUN_ASK static inline enum dokphalun_reading dokphalun_slot(
    const uint32_t *answer, size_t k, struct dokphalun_frame *frame)
{
    return dokphalun_new_words(answer + DOKPHALUN_SLOT_WORDS * k, frame);
}

/* What word 0 of record k of an old card says, in the same way. Deprecated, as dokphalun_slot is. */
DOKPHALUN_DEPRECATED("it goes by word 0: use dokphalun_judged_old_slot")
DOKPHALUN_ASK static inline enum dokphalun_reading dokphalun_old_slot(
    const uint32_t *records, size_t k, struct dokphalun_frame *frame)
{
    return dokphalun_old_words(records + DOKPHALUN_OLD_SLOT_WORDS * k, frame);
}

/* The archive's verdict on slot k of an answer list. The frame is filled in where the slot is DOKPHALUN_JUDGED_GOOD; for every other verdict its
 * directions and magnitudes become NaN, and preserving, origin and behind 0. */
DOKPHALUN_ASK static inline enum dokphalun_verdict dokphalun_judged_slot(
    const uint32_t *answer, size_t k, struct dokphalun_frame *frame)
{
    const uint32_t nothing[DOKPHALUN_SLOT_WORDS] = {0}, *slot = answer + DOKPHALUN_SLOT_WORDS * k;
    uint8_t verdict = DOKPHALUN_JUDGED_LOST;
    struct dokphalun_judged judged = dokphalun_judge(slot, DOKPHALUN_SLOT_WORDS, &verdict, 1);
    enum dokphalun_reading reading = dokphalun_new_words(judged.good == 1 ? slot : nothing, frame);
    (void)reading; /* the verdict says more */
    return (enum dokphalun_verdict)verdict;
}

/* A record of an old card as a slot, for dokphalun_judge and dokphalun_pack: its words, and zeros, which say that the origin is not
 * recorded. The two lists stand apart. It is not for dokphalun_card_write: on a new card each frame has an origin, and the command
 * says NO ORIGIN of one that has none. */
static inline void dokphalun_old_to_slot(const uint32_t old[DOKPHALUN_OLD_SLOT_WORDS], uint32_t slot[DOKPHALUN_SLOT_WORDS])
{
    memset(slot, 0, DOKPHALUN_SLOT_WORDS * sizeof *slot);
    memcpy(slot, old, DOKPHALUN_OLD_SLOT_WORDS * sizeof *old);
}

/* The archive's verdict on record k of an old card, in the same way as dokphalun_judged_slot. Where its frame comes from is not recorded there. */
DOKPHALUN_ASK static inline enum dokphalun_verdict dokphalun_judged_old_slot(
    const uint32_t *records, size_t k, struct dokphalun_frame *frame)
{
    uint32_t slot[DOKPHALUN_SLOT_WORDS];
    dokphalun_old_to_slot(records + DOKPHALUN_OLD_SLOT_WORDS * k, slot);
    return dokphalun_judged_slot(slot, 0, frame);
}

#ifdef __cplusplus
}
#endif

#endif
