#include <stdio.h>
#include "chainplater.h"

int main(void) {
    const uint8_t capture[] = {0x00, 0x08, 0xA2, 0x08, 0x22, 0x28, 0xA2, 0x28};
    uint8_t out[CHAINPLATER_VERDICT];
    uint8_t refusal = chainplater_judge(2, 0, 0, 3, capture, sizeof capture, out);
    printf("refusal %d, verdict %d, at %d\n", refusal, out[0], out[1] * 256 + out[2]);
    return refusal;
}
