/* How much stack the calls on a mesh and on its answer take: each is made in a thread whose stack was painted before. A line for each call: its name, and the
 * bytes for one quad and for a sheet of as many as are accepted. */
#define _POSIX_C_SOURCE 200112L
#include "dokphalun.h"
#include <pthread.h>
#include <stdint.h>
#include <stdio.h>
#include <stdlib.h>

enum { STACK = 256 * 1024, PAINT = 0xA5, SIDE = 256 };

/* Lists of a mesh of quads, and those that some call takes besides. */
struct call {
    size_t faces;
    uint8_t *sizes, *own_sizes, *bytes;
    float *positions, *normals, *texture, *own_numbers;
    uint32_t *answer, *work, *labels, *order, *own_frames, *links, *groups, *ways;
    uint32_t (*made)(struct call *); /* makes the call, and says its number */
    uint32_t number;
    const unsigned char *entry;
};

#define MESH c->sizes, c->faces, c->positions, 12 * c->faces, c->normals, 12 * c->faces, c->texture, 8 * c->faces
#define ANSWER c->answer, 4 * c->faces * DOKPHALUN_SLOT_WORDS
#define WORK c->work, c->faces * DOKPHALUN_WORK_WORDS
#define LINKS c->links, DOKPHALUN_LINK_WORDS * c->faces, c->groups, DOKPHALUN_LINK_WORDS * c->faces

static uint32_t frames(struct call *c)
{
    return dokphalun_frames(MESH, -1.0f, ANSWER, WORK).number;
}

static uint32_t reasons(struct call *c)
{
    return dokphalun_reasons(MESH, -1.0f, ANSWER, WORK, c->bytes, 4 * c->faces).number;
}

/* Of the answer that the calls for frames leave: each slot is good. */
static uint32_t judge(struct call *c)
{
    struct dokphalun_judged said = dokphalun_judge(ANSWER, c->bytes, 4 * c->faces);
    return said.number + (said.good != 4 * c->faces);
}

static uint32_t labels(struct call *c)
{
    return dokphalun_labels(MESH, c->labels, c->faces, WORK).number;
}

static uint32_t islands(struct call *c)
{
    return dokphalun_frames_by_islands(
        MESH, -1.0f, ANSWER, WORK, c->labels, c->faces, c->order, DOKPHALUN_ORDER_WORDS * c->faces, c->own_sizes, c->faces,
        c->own_numbers, DOKPHALUN_OWN_NUMBERS * c->faces, c->own_frames, DOKPHALUN_OWN_FRAME_WORDS * c->faces).number;
}

static uint32_t links(struct call *c)
{
    return dokphalun_links(MESH, LINKS, c->ways, DOKPHALUN_ORIENTATION_WORDS * c->faces, WORK).number;
}

/* Of the lists that `links` leaves: two sound triangles a quad, so that all words count. */
static uint32_t examine(struct call *c)
{
    struct dokphalun_examined said = dokphalun_examine(MESH, LINKS, c->ways, DOKPHALUN_ORIENTATION_WORDS * c->faces, WORK);
    return said.refusal + said.objection;
}

static void *list(size_t count, size_t size)
{
    void *made = calloc(count, size);
    if (made == NULL)
        exit(1);
    return made;
}

/* A sheet of so many unit quads, SIDE in a row; the texture runs as the positions do. */
static struct call sheet(size_t faces)
{
    static const float across[4] = {0, 1, 1, 0}, up[4] = {0, 0, 1, 1};
    struct call c;
    c.faces = faces;
    c.sizes = list(faces, 1);
    c.own_sizes = list(faces, 1);
    c.bytes = list(4 * faces, 1);
    c.positions = list(12 * faces, sizeof(float));
    c.normals = list(12 * faces, sizeof(float));
    c.texture = list(8 * faces, sizeof(float));
    c.own_numbers = list(DOKPHALUN_OWN_NUMBERS * faces, sizeof(float));
    c.answer = list(4 * faces * DOKPHALUN_SLOT_WORDS, sizeof(uint32_t));
    c.work = list(faces * DOKPHALUN_WORK_WORDS, sizeof(uint32_t));
    c.labels = list(faces, sizeof(uint32_t));
    c.order = list(DOKPHALUN_ORDER_WORDS * faces, sizeof(uint32_t));
    c.own_frames = list(DOKPHALUN_OWN_FRAME_WORDS * faces, sizeof(uint32_t));
    c.links = list(DOKPHALUN_LINK_WORDS * faces, sizeof(uint32_t));
    c.groups = list(DOKPHALUN_LINK_WORDS * faces, sizeof(uint32_t));
    c.ways = list(DOKPHALUN_ORIENTATION_WORDS * faces, sizeof(uint32_t));
    for (size_t k = 0; k < 4 * faces; k++) {
        size_t face = k / 4;
        c.sizes[face] = 4;
        c.texture[2 * k] = c.positions[3 * k] = (float)(face % SIDE) + across[k % 4];
        c.texture[2 * k + 1] = c.positions[3 * k + 1] = (float)(face / SIDE) + up[k % 4];
        c.normals[3 * k + 2] = 1;
    }
    return c;
}

static void *thread(void *given)
{
    struct call *c = given;
    unsigned char here = 0;
    c->entry = &here;
    c->number = c->made(c);
    return NULL;
}

/* The bytes of stack that a call takes, below the place where it is made. */
static size_t used(struct call *c, uint32_t (*made)(struct call *))
{
    static unsigned char *stack;
    pthread_attr_t how;
    pthread_t running;
    if (stack == NULL && posix_memalign((void **)&stack, 4096, STACK) != 0)
        exit(1);
    memset(stack, PAINT, STACK);
    c->made = made;
    if (pthread_attr_init(&how) != 0 || pthread_attr_setstack(&how, stack, STACK) != 0)
        exit(1);
    if (pthread_create(&running, &how, thread, c) != 0 || pthread_join(running, NULL) != 0 || c->number != 0)
        exit(1);
    const unsigned char *lowest = stack;
    while (*lowest == PAINT)
        lowest++;
    return (size_t)(c->entry - lowest);
}

int main(void)
{
    struct call one = sheet(1), most = sheet(DOKPHALUN_MOST_FACES);
    uint32_t (*const calls[])(struct call *) = {frames, reasons, judge, labels, islands, links, examine};
    const char *const names[] = {"frames", "reasons", "judge", "labels", "islands", "links", "examine"};
    for (int i = 0; i < 7; i++)
        printf("%s %lu %lu\n", names[i], (unsigned long)used(&one, calls[i]), (unsigned long)used(&most, calls[i]));
    return 0;
}
