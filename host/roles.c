/* What each word of main memory is when a chain is followed. */
#include "roles.h"

#include "fields.h"
#include "numbers.h"
#include "shapes.h"

/* Following stops after so many words, for chains without an end. */
enum { MOST_FOLLOWED = 4 * 1048576 };

struct trail new_trail(const uint32_t *word, size_t given, size_t total, uint8_t *role)
{
    return (struct trail){.word = word, .given = given, .total = total, .role = role, .channel = 1, .left = MOST_FOLLOWED};
}

static uint32_t word_at(const struct trail *trail, size_t at)
{
    return at < trail->given ? trail->word[at] : 0;
}

/* Gives words a role, unless one of them has one already or is not given. */
static void set_role(struct trail *trail, size_t at, size_t count, unsigned role)
{
    if (at >= trail->given || trail->given - at < count)
        return;
    for (size_t i = 0; i < count; i++)
        if (trail->role[at + i] != ROLE_NONE)
            return;
    for (size_t i = 0; i < count; i++)
        trail->role[at + i] = i == 0 ? (uint8_t)role : ROLE_PART;
}

static uint64_t tag_data(const struct path_place *path, uint64_t nloop)
{
    if (path->format == 0)
        return nloop * path->nreg;
    return path->format == 1 ? (nloop * path->nreg + 1) / 2 : nloop;
}

/* A quadword to the GIF. */
static void follow_gif(struct trail *trail, struct path_place *path, size_t at)
{
    static const unsigned roles[4] = {ROLE_PACKED, ROLE_REGLIST, ROLE_IMAGE, ROLE_IMAGE};
    if (path->due > 0) {
        unsigned descriptor = path->descriptors >> 4 * (path->taken % path->nreg) & 15;
        set_role(trail, at, 4, roles[path->format] + (path->format == 0 ? descriptor : 0));
        path->due--;
        path->taken++;
        return;
    }
    set_role(trail, at, 4, ROLE_GIF_TAG);
    uint32_t high = word_at(trail, at + 1);
    path->format = high >> 26 & 3;
    path->nreg = high >> 28 != 0 ? high >> 28 : 16;
    path->descriptors = word_at(trail, at + 2) | (uint64_t)word_at(trail, at + 3) << 32;
    path->due = tag_data(path, word_at(trail, at) & 0x7FFF);
    path->taken = 0;
}

/* The vectors that writes take from the payload; where WL is above CL, the others fill. */
static uint64_t payload_vectors(const struct vif_place *vif, uint64_t writes)
{
    if (vif->wl <= vif->cl)
        return writes;
    uint64_t last = writes % vif->wl;
    return vif->cl * (writes / vif->wl) + (last < vif->cl ? last : vif->cl);
}

/* Payload words of UNPACK. */
static uint64_t unpack_words(const struct vif_place *vif, uint32_t code)
{
    unsigned vl = code >> 24 & 3, vn = code >> 26 & 3;
    uint64_t writes = (code >> 16 & 255) != 0 ? code >> 16 & 255 : 256;
    uint64_t bits = vl == 3 ? 16 : (32u >> vl) * (vn + 1);
    return (payload_vectors(vif, writes) * bits + 31) / 32;
}

/* Takes a code: what is due after it. */
static void follow_code(struct vif_place *vif, uint32_t code)
{
    uint32_t cmd = code >> 24 & 127, num = code >> 16 & 255, imm = code & 0xFFFF;
    vif->direct = cmd == 0x50 || cmd == 0x51;
    vif->due = 0;
    if (cmd == 0x01) {
        vif->cl = imm & 255;
        vif->wl = imm >> 8;
    }
    if (vif->direct)
        vif->due = imm != 0 ? imm : 65536;
    else if (cmd == 0x20)
        vif->due = 1;
    else if (cmd == 0x30 || cmd == 0x31)
        vif->due = 4;
    else if (cmd == 0x4A)
        vif->due = 2 * (num != 0 ? num : 256);
    else if (cmd >= 0x60)
        vif->due = unpack_words(vif, code);
}

/* Whether the VIF takes the word as a code: VIF0 lacks some, and TOPS. */
static bool takes_code(unsigned vif, uint32_t code)
{
    if (vif == 1)
        return code_shape(code) != NULL;
    return vif0_code_shape(code) != NULL && !((code & 0x60008000) == 0x60008000);
}

/* A word to the channel's VIF, or a quadword inside DIRECT; how many words were taken, 0 where the chain stops. */
static size_t follow_vif(struct trail *trail, size_t at)
{
    unsigned number = trail->channel == 0 ? 0 : 1;
    struct vif_place *vif = &trail->vif[number];
    if (vif->due == 0) {
        bool taken = takes_code(number, word_at(trail, at));
        set_role(trail, at, 1, number == 0 ? ROLE_VIF0_CODE : ROLE_CODE);
        if (taken)
            follow_code(vif, word_at(trail, at));
        return taken ? 1 : 0;
    }
    if (vif->direct && at % 4 != 0)
        return 0;
    vif->due--;
    if (vif->direct)
        follow_gif(trail, &trail->path[0], at);
    else
        set_role(trail, at, 1, ROLE_PAYLOAD);
    return vif->direct ? 4 : 1;
}

/* A quadword to path 3; how many words were taken, 0 where none begins here. */
static size_t follow_path3(struct trail *trail, size_t at)
{
    if (at % 4 != 0)
        return 0;
    follow_gif(trail, &trail->path[1], at);
    return 4;
}

/* Words to the device; whether all were taken. */
static bool follow_words(struct trail *trail, uint64_t at, uint64_t count)
{
    if (at > trail->total || trail->total - at < count || trail->left < count)
        return false;
    trail->left -= count;
    while (count > 0) {
        size_t taken = trail->channel == 2 ? follow_path3(trail, at) : follow_vif(trail, at);
        if (taken == 0 || taken > count)
            return false;
        at += taken;
        count -= taken;
    }
    return true;
}

/* The next TADR; whether the tag is one that goes on. */
static bool next_tag(struct trail *trail, unsigned id, uint64_t after_payload, uint64_t addr)
{
    uint64_t after_tag = trail->tadr + 16;
    switch (id) {
    case 1:
        trail->tadr = after_payload;
        return true;
    case 5:
        if (trail->depth == 2)
            return false;
        trail->stack[trail->depth++] = after_payload;
        trail->tadr = addr;
        return true;
    case 2:
        trail->tadr = addr;
        return true;
    case 6:
        trail->ended = trail->depth == 0;
        if (!trail->ended)
            trail->tadr = trail->stack[--trail->depth];
        return true;
    case 7:
        trail->ended = true;
        return true;
    default:
        trail->ended = id == 0;
        trail->tadr = after_tag;
        return true;
    }
}

/* Reads a tag and follows its payload; whether the chain goes on. */
static bool follow_tag(struct trail *trail)
{
    uint64_t at = trail->tadr / 4;
    if (trail->tadr % 16 != 0 || at > trail->total || trail->total - at < 4 || trail->left < 4)
        return false;
    trail->left -= 4;
    set_role(trail, at, 4, trail->channel == 0 ? ROLE_VIF0_TAG : ROLE_TAG);
    uint32_t low = word_at(trail, at), addr = word_at(trail, at + 1) & 0x7FFFFFFF;
    unsigned id = low >> 28 & 7;
    uint64_t words = (uint64_t)(low & 0xFFFF) * 4;
    bool elsewhere = id == 0 || id == 3 || id == 4;
    if (!next_tag(trail, id, trail->tadr + 16 + 4 * words, addr))
        return false;
    if (trail->tte != 0 && trail->channel != 2 && !follow_words(trail, at + 2, 2))
        return false;
    return follow_words(trail, elsewhere ? addr / 4 : at + 4, words);
}

void follow(struct trail *trail)
{
    while (!trail->ended && follow_tag(trail))
        continue;
    trail->ended = true;
}

void trail_start(struct trail *trail, uint32_t channel, uint32_t tadr, uint32_t tte)
{
    trail->channel = channel;
    trail->tadr = tadr;
    trail->tte = tte;
    trail->ended = false;
    trail->depth = 0;
}

static struct path_place path_in_state(const struct tejborun_path *held)
{
    struct path_place path = {.format = held->format & 3, .nreg = held->nreg >= 1 && held->nreg <= 16 ? held->nreg : 16};
    path.descriptors = join_words(held->descriptors);
    path.due = held->place == 1 ? held->due : 0;
    uint64_t all = tag_data(&path, held->nloop);
    path.taken = all > path.due ? all - path.due : 0;
    return path;
}

/* What a VIF waits for; on VIF0 DIRECT never does. */
static struct vif_place vif_in_state(const struct tejborun_unit *unit, unsigned number)
{
    bool direct = unit->waiting == TEJBORUN_WAITS_DIRECT || unit->waiting == TEJBORUN_WAITS_DIRECTHL;
    struct vif_place vif = {.direct = direct && number == 1, .cl = unit->cl, .wl = unit->wl};
    if (unit->waiting != TEJBORUN_WAITS_NONE && vif.direct == direct)
        vif.due = unit->due;
    return vif;
}

void trail_from_state(struct trail *trail, const struct tejborun_state *state)
{
    const struct tejborun_chain *chain = &state->chain;
    trail_start(trail, chain->channel, chain->tadr, chain->tte);
    trail->ended = chain->ended != 0;
    trail->depth = chain->depth <= 2 ? chain->depth : 0;
    trail->stack[0] = chain->stack[0];
    trail->stack[1] = chain->stack[1];
    trail->vif[0] = vif_in_state(&state->vif0, 0);
    trail->vif[1] = vif_in_state(&state->vif1, 1);
    trail->path[0] = path_in_state(&state->path2);
    trail->path[1] = path_in_state(&state->path3);
    bool tag_words = chain->tag_words == 0 || follow_words(trail, chain->tag_word_at / 4, 4 - chain->tag_word_at / 4 % 4);
    if (tag_words && chain->payload_words != 0)
        follow_words(trail, chain->payload_at / 4, chain->payload_words);
}
