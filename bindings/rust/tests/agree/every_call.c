/* Makes every call of dokphalun.h on each case of its input. A line says what a call said, or what it left; by_rust.rs and by_words.rs say the same. */
#include "dokphalun.h"
#include <stdio.h>

/* dokphalun_slot and dokphalun_old_slot are called too */
#if defined(__GNUC__)
#pragma GCC diagnostic ignored "-Wdeprecated-declarations"
#endif

#define FACES 16
#define CORNERS 80
#define RECORDS 40

/* A case: a mesh, and records of any words. */
static struct {
    uint32_t faces, corners, threshold, row, length, records;
} in;
static float threshold, positions[3 * CORNERS], normals[3 * CORNERS], texture[2 * CORNERS];
static uint8_t sizes[FACES];
static uint32_t words[DOKPHALUN_SLOT_WORDS * RECORDS], old_words[DOKPHALUN_OLD_SLOT_WORDS * RECORDS];
#define MESH sizes, in.faces, positions, 3 * in.corners, normals, 3 * in.corners, texture, 2 * in.corners

/* The lists that are lent. */
static uint32_t answer[4 * DOKPHALUN_SLOT_WORDS * FACES], work[DOKPHALUN_WORK_WORDS * FACES];
static uint32_t labels[FACES], order[DOKPHALUN_ORDER_WORDS * FACES], own_frames[DOKPHALUN_OWN_FRAME_WORDS * FACES];
static float own_numbers[DOKPHALUN_OWN_NUMBERS * FACES];
static uint8_t own_sizes[FACES], reasons[4 * FACES], verdicts[RECORDS];
static uint32_t links[DOKPHALUN_LINK_WORDS * FACES], groups[DOKPHALUN_LINK_WORDS * FACES];
static uint32_t orientations[DOKPHALUN_ORIENTATION_WORDS * FACES];
static uint8_t card[DOKPHALUN_CARD_BYTES(RECORDS)], old_card[DOKPHALUN_OLD_CARD_BYTES(RECORDS)];
static int16_t packed[7 * RECORDS];
static uint32_t read_back[DOKPHALUN_SLOT_WORDS * RECORDS], old_read_back[DOKPHALUN_OLD_SLOT_WORDS * RECORDS];
#define LENT(list) list, sizeof list / sizeof *list

/* Takes so many words of the input. */
static int take(void *list, size_t count)
{
    return fread(list, 4, count, stdin) == count;
}

/* Takes a case; 0 where there is none. */
static int take_case(void)
{
    uint32_t size, i;
    if (!take(&in, 6) || in.faces > FACES || in.corners > CORNERS || in.records > RECORDS)
        return 0;
    memcpy(&threshold, &in.threshold, 4);
    for (i = 0; i < in.faces; i++) {
        if (!take(&size, 1))
            return 0;
        sizes[i] = (uint8_t)size;
    }
    if (!take(positions, 3 * in.corners) || !take(normals, 3 * in.corners) || !take(texture, 2 * in.corners)
        || !take(words, DOKPHALUN_SLOT_WORDS * in.records))
        return 0;
    for (i = 0; i < in.records; i++)
        memcpy(old_words + DOKPHALUN_OLD_SLOT_WORDS * i, words + DOKPHALUN_SLOT_WORDS * i, 4 * DOKPHALUN_OLD_SLOT_WORDS);
    return 1;
}

/* What a call said: three numbers. */
static void said(const char *name, size_t a, size_t b, size_t c)
{
    printf("%s %zu %zu %zu\n", name, a, b, c);
}

/* A list of words. */
static void list(const char *name, const uint32_t *all, size_t count)
{
    size_t i;
    printf("%s", name);
    for (i = 0; i < count; i++)
        printf(" %lu", (unsigned long)all[i]);
    printf("\n");
}

/* A list of bytes. */
static void bytes(const char *name, const uint8_t *all, size_t count)
{
    size_t i;
    printf("%s", name);
    for (i = 0; i < count; i++)
        printf(" %u", (unsigned)all[i]);
    printf("\n");
}

/* A list of packed numbers. */
static void shorts(const char *name, const int16_t *all, size_t count)
{
    size_t i;
    printf("%s", name);
    for (i = 0; i < count; i++)
        printf(" %d", (int)all[i]);
    printf("\n");
}

/* A number's bits. */
static uint32_t bits(float number)
{
    uint32_t word;
    memcpy(&word, &number, 4);
    return word;
}

/* The number of an origin, by its name. */
static unsigned long number(enum dokphalun_origin origin)
{
    switch (origin) {
    case DOKPHALUN_NOT_RECORDED: return 0;
    case DOKPHALUN_SINGLE: return 1;
    case DOKPHALUN_COMBINED: return 2;
    case DOKPHALUN_COPIED: return 3;
    case DOKPHALUN_FILLED: return 4;
    }
    return 5;
}

/* The word of a verdict, by its name. */
static const char *word(enum dokphalun_verdict verdict)
{
    switch (verdict) {
    case DOKPHALUN_JUDGED_ABSENT: return "absent";
    case DOKPHALUN_JUDGED_GOOD: return "present";
    case DOKPHALUN_JUDGED_LOST: return "lost";
    case DOKPHALUN_JUDGED_BLANK: return "blank";
    case DOKPHALUN_JUDGED_LONG: return "long";
    case DOKPHALUN_JUDGED_SHORT: return "short";
    }
    return "no verdict";
}

/* The fields of a frame; one that is not there has to be all NaN, and 0 where there is no NaN. */
static void fields(int there, struct dokphalun_frame f)
{
    const float numbers[8] = {f.tangent[0], f.tangent[1], f.tangent[2], f.bitangent[0], f.bitangent[1], f.bitangent[2], f.mag_s, f.mag_t};
    size_t i;
    for (i = 0; i < 8; i++)
        if (there)
            printf(" %lu", (unsigned long)bits(numbers[i]));
        else if (!isnan(numbers[i]))
            printf(" a number");
    if (there)
        printf(" %lu %lu %lu", (unsigned long)f.preserving, number(f.origin), (unsigned long)f.behind);
    else if (f.preserving != 0 || f.origin != DOKPHALUN_NOT_RECORDED || f.behind != 0)
        printf(" not 0");
}

/* A slot: the verdict on it, and its frame. What was filled in with the verdict has to be that frame where it is good, and nothing else. */
static void slot(enum dokphalun_verdict verdict, struct dokphalun_frame good, enum dokphalun_reading reading, struct dokphalun_frame f)
{
    printf("%s", word(verdict));
    fields(reading == DOKPHALUN_PRESENT, f);
    if (verdict != DOKPHALUN_JUDGED_GOOD)
        fields(0, good);
    else if (memcmp(&good, &f, sizeof f) != 0)
        printf(" another frame");
    printf("\n");
}

/* Each slot. */
static void slots(const uint32_t *all, size_t count)
{
    size_t k;
    for (k = 0; k < count; k++) {
        struct dokphalun_frame f, good;
        enum dokphalun_reading reading = dokphalun_slot(all, k, &f); /* by word 0, as it ever was */
        enum dokphalun_verdict verdict = dokphalun_judged_slot(all, k, &good);
        slot(verdict, good, reading, f);
    }
}

/* Each record of an old card. */
static void old_slots(const uint32_t *all, size_t count)
{
    size_t k;
    for (k = 0; k < count; k++) {
        struct dokphalun_frame f, good;
        enum dokphalun_reading reading = dokphalun_old_slot(all, k, &f);
        enum dokphalun_verdict verdict = dokphalun_judged_old_slot(all, k, &good);
        slot(verdict, good, reading, f);
    }
}

/* The parts of the lists that belong to each face, and to one past the last; and of no list. */
static void parts(void)
{
    size_t face;
    uint32_t list;
    for (face = 0; face <= in.faces; face++)
        for (list = DOKPHALUN_POSITIONS; list <= DOKPHALUN_TEXTURE + 1; list++) {
            struct dokphalun_span span = dokphalun_part(MESH, list, face);
            said("part", list, span.from, span.count);
        }
}

/* Frames, in one call and by islands, and the islands. */
static void frames(void)
{
    struct dokphalun_outcome one = dokphalun_frames(MESH, threshold, LENT(answer), LENT(work));
    struct dokphalun_outcome by;
    struct dokphalun_labelled labelled;
    said("frames", one.number, one.place, one.slots);
    slots(answer, one.slots);
    memset(answer, 0x5A, sizeof answer);
    by = dokphalun_frames_by_islands(
        MESH, threshold, LENT(answer), LENT(work), LENT(labels), LENT(order), LENT(own_sizes), LENT(own_numbers), LENT(own_frames));
    said("by islands", by.number, by.place, by.slots);
    slots(answer, by.slots);
    memset(labels, 0x5A, sizeof labels);
    labelled = dokphalun_labels(MESH, LENT(labels), LENT(work));
    said("labels", labelled.number, labelled.place, labelled.islands);
    list("of faces", labels, labelled.number == 0 ? in.faces : 0);
}

/* The number of a reason, by its name. */
static uint8_t why(uint8_t reason)
{
    switch ((enum dokphalun_reason)reason) {
    case DOKPHALUN_NO_REASON: return 0;
    case DOKPHALUN_UNWELDED: return 1;
    case DOKPHALUN_COPIES_ABSENT: return 2;
    case DOKPHALUN_UNREACHED: return 3;
    }
    return 4;
}

/* Frames again, and why slots are absent. */
static void explained(void)
{
    struct dokphalun_outcome made;
    size_t k;
    memset(answer, 0x5A, sizeof answer);
    memset(reasons, 0x5A, sizeof reasons);
    made = dokphalun_reasons(MESH, threshold, LENT(answer), LENT(work), LENT(reasons));
    said("reasons", made.number, made.place, made.slots);
    slots(answer, made.slots);
    for (k = 0; k < made.slots; k++)
        reasons[k] = why(reasons[k]);
    bytes("why", reasons, made.slots);
}

/* The records judged: how many are good, and the first that is not. */
static void judged(void)
{
    struct dokphalun_judged found = dokphalun_judge(words, DOKPHALUN_SLOT_WORDS * in.records, LENT(verdicts));
    said("judge", found.number, found.good, found.first);
    bytes("verdicts", verdicts, in.records);
}

/* The lists of so many triangles, examined. */
static void examine(size_t sound)
{
    struct dokphalun_examined found = dokphalun_examine(MESH, links, 3 * sound, groups, 3 * sound, orientations, sound, LENT(work));
    said("examine", found.refusal, found.objection, found.place);
}

/* Our own links, examined as they are, and with one word of groups, of orientations and of links changed, one after the other. */
static void hung(void)
{
    struct dokphalun_handed own = dokphalun_links(MESH, LENT(links), LENT(groups), LENT(orientations), LENT(work));
    size_t n = own.sound;
    said("links", own.number, own.place, n);
    list("links", links, 3 * n);
    list("groups", groups, 3 * n);
    list("orientations", orientations, n);
    examine(n);
    if (n == 0)
        return;
    groups[in.row % (3 * n)] += 1;
    examine(n);
    orientations[in.row % n] ^= 1;
    examine(n);
    links[in.row % (3 * n)] ^= 1;
    examine(n);
}

/* How much is read of a card of so many bytes. */
static size_t cut(size_t written)
{
    return written < in.length ? written : in.length;
}

/* The records to a card and back, the card with one byte turned; and the card read as an old one. */
static void cards(void)
{
    struct dokphalun_written written = dokphalun_card_write(words, DOKPHALUN_SLOT_WORDS * in.records, LENT(card));
    struct dokphalun_found found;
    said("write", written.number, written.bytes, 0);
    bytes("card", card, written.bytes);
    if (written.bytes > 0)
        card[in.row % written.bytes] ^= 1;
    found = dokphalun_card_read(card, cut(written.bytes), in.records, LENT(read_back));
    said("read", found.number, found.past, 0);
    slots(read_back, in.records);
    found = dokphalun_old_card_read(card, cut(written.bytes), in.records, LENT(read_back));
    said("read as old", found.number, found.past, 0);
    old_slots(read_back, in.records);
}

/* The same of an old card, which is read as a new one too. */
static void old_cards(void)
{
    struct dokphalun_written written = dokphalun_old_card_write(old_words, DOKPHALUN_OLD_SLOT_WORDS * in.records, LENT(old_card));
    struct dokphalun_found found;
    said("old write", written.number, written.bytes, 0);
    bytes("old card", old_card, written.bytes);
    if (written.bytes > 0)
        old_card[in.row % written.bytes] ^= 1;
    found = dokphalun_old_card_read(old_card, cut(written.bytes), in.records, LENT(read_back));
    said("old read", found.number, found.past, 0);
    old_slots(read_back, in.records);
    found = dokphalun_card_read(old_card, cut(written.bytes), in.records, LENT(read_back));
    said("read as new", found.number, found.past, 0);
    slots(read_back, in.records);
}

/* What comes next on a card of some length, and all that is left of it appended. */
static void appends(void)
{
    struct dokphalun_next next = dokphalun_card_next(in.length, in.records);
    size_t before = next.at / DOKPHALUN_BLOCK_BYTES * DOKPHALUN_BLOCK_RECORDS;
    size_t done = before < in.records ? before : in.records;
    struct dokphalun_appended added = dokphalun_card_append(
        in.length, in.records, words + DOKPHALUN_SLOT_WORDS * done, DOKPHALUN_SLOT_WORDS * (in.records - done), LENT(card));
    said("next", next.number, next.records, next.at);
    said("append", added.number, added.blocks, added.at);
    bytes("blocks", card, DOKPHALUN_BLOCK_BYTES * (size_t)added.blocks);
}

/* The same of an old card. */
static void old_appends(void)
{
    struct dokphalun_next next = dokphalun_old_card_next(in.length, in.records);
    size_t before = next.at / DOKPHALUN_BLOCK_BYTES * DOKPHALUN_OLD_BLOCK_RECORDS;
    size_t done = before < in.records ? before : in.records;
    struct dokphalun_appended added = dokphalun_old_card_append(in.length, in.records, old_words + DOKPHALUN_OLD_SLOT_WORDS * done,
        DOKPHALUN_OLD_SLOT_WORDS * (in.records - done), LENT(old_card));
    said("old next", next.number, next.records, next.at);
    said("old append", added.number, added.blocks, added.at);
    bytes("old blocks", old_card, DOKPHALUN_BLOCK_BYTES * (size_t)added.blocks);
}

/* How many records of both lists are not lost: those of twelve words, and those of ten. */
static void count(size_t *by_new, size_t *by_old)
{
    size_t k;
    *by_new = *by_old = 0;
    for (k = 0; k < in.records; k++) {
        struct dokphalun_frame f;
        *by_new += dokphalun_judged_slot(read_back, k, &f) != DOKPHALUN_JUDGED_LOST;
        *by_old += dokphalun_judged_old_slot(old_read_back, k, &f) != DOKPHALUN_JUDGED_LOST;
    }
}

/* A card with blocks of both kinds, as the kind that finds more: 0 old or 1 new, the bytes past it, and what the other kind finds. */
static void either(void)
{
    struct dokphalun_written written = dokphalun_card_write(words, DOKPHALUN_SLOT_WORDS * in.records, LENT(card));
    struct dokphalun_written old = dokphalun_old_card_write(old_words, DOKPHALUN_OLD_SLOT_WORDS * in.records, LENT(old_card));
    struct dokphalun_found as_new, as_old;
    size_t at, by_new, by_old;
    for (at = 0; at < old.bytes; at += DOKPHALUN_BLOCK_BYTES)
        if (in.row >> at / DOKPHALUN_BLOCK_BYTES & 1)
            memcpy(card + at, old_card + at, DOKPHALUN_BLOCK_BYTES);
    as_new = dokphalun_card_read(card, cut(written.bytes), in.records, LENT(read_back));
    as_old = dokphalun_old_card_read(card, cut(written.bytes), in.records, LENT(old_read_back));
    count(&by_new, &by_old);
    if (by_old > by_new) {
        said("either", as_old.number, as_old.past, by_new);
        old_slots(old_read_back, in.records);
    } else {
        said("either", as_new.number + 1, as_new.past, by_old);
        slots(read_back, in.records);
    }
}

/* The records of an old card as slots, and packed. */
static void widened(void)
{
    struct dokphalun_packed made;
    size_t k;
    memset(read_back, 0x5A, sizeof read_back);
    for (k = 0; k < in.records; k++)
        dokphalun_old_to_slot(old_words + DOKPHALUN_OLD_SLOT_WORDS * k, read_back + DOKPHALUN_SLOT_WORDS * k);
    list("widened", read_back, DOKPHALUN_SLOT_WORDS * in.records);
    slots(read_back, in.records);
    made = dokphalun_pack(read_back, DOKPHALUN_SLOT_WORDS * in.records, LENT(packed));
    said("pack widened", made.number, made.count, 0);
    shorts("packed widened", packed, made.count);
}

/* The records packed and read, and read again with one slot spoilt. */
static void packs(void)
{
    struct dokphalun_packed made = dokphalun_pack(words, DOKPHALUN_SLOT_WORDS * in.records, LENT(packed));
    struct dokphalun_unpacked found = dokphalun_unpack(packed, made.count, LENT(read_back));
    size_t i;
    said("pack", made.number, made.count, 0);
    shorts("packed", packed, made.count);
    said("unpack", found.number, found.place, 0);
    for (i = 0; i < in.records; i++)
        list(read_back[8 * i] == 1 ? "present" : "absent", read_back + 8 * i + 1, read_back[8 * i] == 1 ? 7 : 0);
    if (in.records > 0)
        packed[7 * (in.row % in.records) + 6] = 0;
    found = dokphalun_unpack(packed, made.count, LENT(read_back));
    said("unpack", found.number, found.place, 0);
}

int main(void)
{
    said("archive", dokphalun_interface(), dokphalun_slot_words(), 0);
    while (take_case()) {
        parts();
        frames();
        explained();
        judged();
        hung();
        cards();
        appends();
        old_cards();
        old_appends();
        either();
        widened();
        packs();
    }
    return 0;
}
