/* The meanings of numbers in words. */
#include "words.h"

#include <inttypes.h>
#include <stdio.h>
#include <string.h>

struct named {
    int number;
    const char *name;
};

/* Registers of the GS, and the log's entries of program starts. */
static const struct named registers[] = {
    {0x00, "PRIM"},       {0x01, "RGBAQ"},      {0x02, "ST"},        {0x03, "UV"},         {0x04, "XYZF2"},     {0x05, "XYZ2"},
    {0x06, "TEX0_1"},     {0x07, "TEX0_2"},     {0x08, "CLAMP_1"},   {0x09, "CLAMP_2"},    {0x0A, "FOG"},       {0x0C, "XYZF3"},
    {0x0D, "XYZ3"},       {0x14, "TEX1_1"},     {0x15, "TEX1_2"},    {0x16, "TEX2_1"},     {0x17, "TEX2_2"},    {0x18, "XYOFFSET_1"},
    {0x19, "XYOFFSET_2"}, {0x1A, "PRMODECONT"}, {0x1B, "PRMODE"},    {0x1C, "TEXCLUT"},    {0x22, "SCANMSK"},   {0x34, "MIPTBP1_1"},
    {0x35, "MIPTBP1_2"},  {0x36, "MIPTBP2_1"},  {0x37, "MIPTBP2_2"}, {0x3B, "TEXA"},       {0x3D, "FOGCOL"},    {0x3F, "TEXFLUSH"},
    {0x40, "SCISSOR_1"},  {0x41, "SCISSOR_2"},  {0x42, "ALPHA_1"},   {0x43, "ALPHA_2"},    {0x44, "DIMX"},      {0x45, "DTHE"},
    {0x46, "COLCLAMP"},   {0x47, "TEST_1"},     {0x48, "TEST_2"},    {0x49, "PABE"},       {0x4A, "FBA_1"},     {0x4B, "FBA_2"},
    {0x4C, "FRAME_1"},    {0x4D, "FRAME_2"},    {0x4E, "ZBUF_1"},    {0x4F, "ZBUF_2"},     {0x50, "BITBLTBUF"}, {0x51, "TRXPOS"},
    {0x52, "TRXREG"},     {0x53, "TRXDIR"},     {0x54, "HWREG"},     {0x60, "SIGNAL"},     {0x61, "FINISH"},    {0x62, "LABEL"},
    {FIRST_START, "MSCAL"}, {257, "MSCALF"},    {LAST_START, "MSCNT"},
};

const char *register_name(uint64_t number)
{
    for (size_t i = 0; i < sizeof registers / sizeof registers[0]; i++)
        if ((uint64_t)registers[i].number == number)
            return registers[i].name;
    return NULL;
}

int register_named(const char *name)
{
    for (size_t i = 0; i < sizeof registers / sizeof registers[0]; i++)
        if (strcmp(registers[i].name, name) == 0)
            return registers[i].number;
    return -1;
}

const char *listed_register(size_t place)
{
    return place < sizeof registers / sizeof registers[0] ? registers[place].name : NULL;
}

const char *descriptor_name(unsigned descriptor)
{
    static const char *const names[16] = {
        "PRIM",    "RGBAQ",   "ST",  "UV", "XYZF2", "XYZ2", "TEX0_1", "TEX0_2",
        "CLAMP_1", "CLAMP_2", "FOG", "B",  "XYZF3", "XYZ3", "A+D",    "nothing",
    };
    return names[descriptor % 16];
}

bool is_program_start(uint64_t log_register)
{
    return log_register >= FIRST_START && log_register <= LAST_START;
}

void register_words(uint32_t unit, uint32_t number, char text[REGISTER_TEXT])
{
    static const char *const names[] = {"ROW 0", "ROW 1", "ROW 2", "ROW 3", "COL 0", "COL 1", "COL 2", "COL 3"};
    int length = snprintf(text, REGISTER_TEXT, "%s%" PRIu32 "'s ", unit <= 1 ? "VIF" : "unit ", unit);
    if (number < sizeof names / sizeof names[0])
        snprintf(text + length, REGISTER_TEXT - (size_t)length, "%s", names[number]);
    else
        snprintf(text + length, REGISTER_TEXT - (size_t)length, "register %" PRIu32, number);
}

const char *plural(uint64_t count, const char *one, const char *many)
{
    return count == 1 ? one : many;
}

void packets_words(uint64_t packets, char text[PACKETS_TEXT])
{
    if (packets == 0)
        snprintf(text, PACKETS_TEXT, "no packet closed");
    else
        snprintf(text, PACKETS_TEXT, "%" PRIu64 " %s closed", packets, plural(packets, "packet", "packets"));
}
