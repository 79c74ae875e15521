/* The first page: a row of a diary translated, refused where the room is too short, and asked for again with the room that the refusal
 * carries; then a row with a mistake in it. What is printed was checked first; at the first thing that is off the program says so and
 * ends with status 1. */
#include <inttypes.h>
#include <stdio.h>
#include <stdlib.h>
#include <string.h>

#include "nosgoludd.h"

/* A record: V, R, kind, name length, value length, name, value. An integer has its lowest byte first: 0x00100000 is 1048576. The farm
 * gives its name and the quantity; the house has a name for the farms that give none, and the unit. */
static const char farm[] = "VR\x00\x09\x09" "Farm$Name" "Lower Ash"
                           "VR\x01\x08\x04" "Quantity" "\x00\x00\x10\x00";
static const char house[] = "VR\x00\x09\x07" "Farm$Name" "Unnamed"
                            "VR\x00\x04\x02" "Unit" "kg";

static const struct nos_tables tables = {(const uint8_t *)farm, sizeof farm - 1, (const uint8_t *)house, sizeof house - 1, NULL, 0, 0};

static const char row[] = "<Farm$Name>: <Quantity> <Unit>", wrong[] = "96 kg to <Farm$Nmae>", whole[] = "Lower Ash: 1048576 kg";

enum { PAPER = 64, SHORT = 16 };

static uint8_t paper[PAPER], clean[PAPER];

static void check(int holds, const char *claim)
{
    if (holds) return;
    printf("OFF, this does not hold: %s\n", claim);
    exit(1);
}

/* Translates a row into the first `room` bytes of a clean paper, with no flags and up to 8 look-ups. */
static struct nos_answer translate(const char *text, size_t room)
{
    check(room <= PAPER, "no more is lent than there is");
    memset(paper, '.', PAPER);
    return nos_translate((const uint8_t *)text, strlen(text), NOS_INDEXED(tables), 0, 8, paper, room);
}

/* The whole row stands on the paper, and nothing was written behind it. */
static void check_whole(struct nos_answer answer)
{
    check(answer.number == NOS_ACCEPTED && answer.need == strlen(whole), "the row is accepted");
    check(memcmp(paper, whole, answer.need) == 0, "every byte of the row is there");
    check(memcmp(paper + answer.need, clean, PAPER - answer.need) == 0, "nothing was written behind it");
}

int main(void)
{
    memset(clean, '.', PAPER);
    printf("A row of the diary:     %s\n", row);
    printf("The farm's variables:   Farm$Name is Lower Ash, Quantity is 1048576\n");
    printf("The house's variables:  Farm$Name is Unnamed, Unit is kg\n\n");

    struct nos_answer answer = translate(row, PAPER);
    check_whole(answer);
    printf("1. Translated, with room for %d bytes\n", PAPER);
    printf("       %.*s\n", (int)answer.need, (const char *)paper);
    printf("   accepted, %zu bytes\n\n", answer.need);

    struct nos_answer refused = translate(row, SHORT);
    check(refused.number == NOS_NO_ROOM && refused.need == strlen(whole), "too little room is refused, with the need");
    check(memcmp(paper, clean, PAPER) == 0, "a refusal changes no byte");
    printf("2. The same row, with room for %d bytes\n", SHORT);
    printf("   refused %" PRIu32 ", %s, need %zu: room for %zu bytes would have been enough. No byte was written.\n",
           refused.number, nos_words(refused.number), refused.need, refused.need);
    printf("   A conversion that cuts would have left this, which looks like a whole row:\n");
    printf("       %.*s\n\n", SHORT, whole);

    struct nos_answer again = translate(row, refused.need);
    check_whole(again);
    printf("3. The second ask, with the room that the refusal carries, %zu bytes\n", refused.need);
    printf("       %.*s\n", (int)again.need, (const char *)paper);
    printf("   accepted, %zu bytes\n\n", again.need);

    struct nos_answer mistake = translate(wrong, PAPER);
    check(mistake.number == NOS_UNKNOWN_NAME && wrong[mistake.place] == '<', "the mistake is refused at its place");
    check(memcmp(paper, clean, PAPER) == 0, "a refusal changes no byte");
    struct nos_answer same = translate(wrong, SHORT);
    check(same.number == mistake.number && same.place == mistake.place, "the room makes no difference to it");
    printf("4. A row with a mistake in it, with room for %d bytes\n", PAPER);
    printf("       %s\n", wrong);
    printf("       %*s^\n", (int)mistake.place, "");
    printf("   refused %" PRIu32 " at %zu, %s: the row is wrong at byte %zu, counted from 0, and no room would help.\n",
           mistake.number, mistake.place, nos_words(mistake.number), mistake.place);
    printf("   No byte was written.\n");
    return 0;
}
