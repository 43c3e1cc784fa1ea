/* Prints the version and every text and name of adr.h, with a number behind the
   last that has none. rust/adr-tape has the same words. */
#include "adr.h"

#include <stdio.h>

int main(void)
{
    static const uint8_t commands[] = {
        0, ADR_READ, ADR_WRITE, ADR_LOCATE, ADR_READ_POSITION,
    };
    printf("version %s\n", ADR_VERSION);
    printf("in numbers %d.%d.%d\n", ADR_VERSION_MAJOR, ADR_VERSION_MINOR, ADR_VERSION_PATCH);
    for (uint8_t number = 0; number <= ADR_END_ELSEWHERE + 1; number++)
        printf("refusal %d: %s\n", number, adr_refusal_text(number));
    for (uint8_t answer = 0; answer <= ADR_LINE + 1; answer++)
        printf("answer %d: %s\n", answer, adr_answer_name(answer));
    for (size_t i = 0; i < sizeof commands; i++)
        printf("command %02X: %s\n", (unsigned)commands[i], adr_command_name(commands[i]));
    return 0;
}
