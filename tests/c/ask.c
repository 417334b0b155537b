/* Behind an example: prints ANSWER, by the recipe in the file that is named first and the values in digits next. */
#include <inttypes.h>
#include <stdio.h>

uint8_t recipe[65536], lent[1024];
size_t length, given;

int main(int count, char **arguments)
{
    FILE *file = count > 1 ? fopen(arguments[1], "rb") : NULL;
    if (file != NULL) {
        length = fread(recipe, 1, sizeof recipe, file);
        fclose(file);
    }
    for (; count > 2 && given < sizeof lent && arguments[2][given] != 0; given++)
        lent[given] = (uint8_t)(arguments[2][given] - '0');
    printf("%" PRIu64 "\n", ANSWER);
}
