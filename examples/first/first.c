/* Card 3 among 4 cards, with one round of relay and the sender 0, hears words and answers. */
#include <omh.h>
#include <stdio.h>

int main(void)
{
    static int32_t words[OMH_SLOTS], votes[OMH_SLOTS], answer;
    /* slot and word: from the sender, by card 1, by card 2, and by card 3 itself, which is not live for it */
    static const int32_t heard[][2] = {{0, 30}, {2, 10}, {3, 10}, {4, 99}};
    if (omh_open(4, 1, 0, 3, words, OMH_SLOTS, votes, OMH_SLOTS) != 0)
        return 1;
    for (int i = 0; i < 4; i++) {
        size_t slot = (size_t)heard[i][0];
        uint8_t refused = omh_enter(4, 1, 0, 3, words, OMH_SLOTS, votes, OMH_SLOTS, slot, heard[i][1]);
        if (refused != 0)
            printf("slot %zu: refused %d\n", slot, refused);
    }
    if (omh_held_answer(words, OMH_SLOTS, votes, OMH_SLOTS, &answer) != 0 || answer == OMH_E)
        return 1;
    printf("answer %d\n", (int)answer);
    return 0;
}
