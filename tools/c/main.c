/* Links the static library by its header alone and holds every call to docs/SCOPE.md: the worked cases, each refusal with
 * the lent memory as it was, and the definitions computed bit by bit. The last line counts. */
#include "check.h"

int main(void)
{
    table_cases();
    refusal_cases();
    byte_cases();
    map_cases();
    sweep_cases();
    word_cases();
    field_cases();
    memory_cases();
    return report();
}
