/* The least use: both entries, nothing lent. Valid C99 and valid C++. */
#include "vraduceni.h"

int main(void)
{
    uint32_t judged = vraduceni_judge(NULL, 0, NULL, 0, NULL, 0, NULL, 0, NULL, 0, 0);
    uint32_t house = vraduceni_house_policy(NULL, 0);
    return judged == VRADUCENI_REFUSAL_REPORT_ROOM
        && house == VRADUCENI_REFUSAL_HOUSE_ROOM ? 0 : 1;
}
