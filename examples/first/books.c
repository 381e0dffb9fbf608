/* Card 3 among 4 cards, with one round of relay, hears words of every sender and answers for each. */
#include <omh.h>
#include <stdio.h>

int main(void)
{
    static int32_t books[OMH_BOOKS], answer;
    /* sender, slot and word: from senders 0 and 1; sender 0's by cards 1 and 2; sender 1's by itself, which is not live */
    static const int32_t heard[][3] = {{0, 0, 30}, {1, 0, 45}, {0, 2, 10}, {0, 3, 10}, {1, 2, 99}};
    for (size_t t = 0; t < 4; t++)
        if (omh_books_open(4, 1, t, 3, books, OMH_BOOKS) != 0)
            return 1;
    for (int i = 0; i < 5; i++) {
        size_t t = (size_t)heard[i][0], slot = (size_t)heard[i][1];
        uint8_t refused = omh_books_enter(4, 1, t, 3, books, OMH_BOOKS, slot, heard[i][2]);
        if (refused != 0)
            printf("sender %zu, slot %zu: refused %d\n", t, slot, refused);
    }
    for (size_t t = 0; t < 4; t++) {
        const int32_t *words = books + OMH_BOOK * t, *votes = words + OMH_SLOTS;
        if (omh_held_answer(words, OMH_SLOTS, votes, OMH_SLOTS, &answer) == 0 && answer != OMH_E)
            printf("sender %zu: answer %d\n", t, (int)answer);
    }
    return 0;
}
