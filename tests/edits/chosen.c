/* Chooses one of the edits that a test program holds, and tells which ones it met. For `edits.py`.
   EDIT is the number of the chosen edit, SECONDS how long the processor may take, and MET the file that gets the numbers. */
#include <stdbool.h>
#include <stdio.h>
#include <stdlib.h>
#include <sys/resource.h>

enum { MOST = 10000 };

static unsigned chosen;
static bool met[MOST];

bool is_edit(unsigned number) __asm__("\"grid_core::is_edit\"");

bool is_edit(unsigned number)
{
    if (number < MOST)
        met[number] = true;
    return number == chosen;
}

/* Rattle's own tests ask where an assertion failed. Nobody does here. */
void __rattle_write_place(void)
{
}

void *__rattle_keep_place(void *place)
{
    return place;
}

static unsigned number_in(const char *name)
{
    const char *word = getenv(name);
    return word ? (unsigned)strtoul(word, NULL, 10) : 0;
}

__attribute__((constructor)) static void begin(void)
{
    unsigned seconds = number_in("SECONDS");
    struct rlimit none = {0, 0}, time = {seconds, seconds}, memory = {1 << 30, 1 << 30};
    setrlimit(RLIMIT_CORE, &none);
    setrlimit(RLIMIT_AS, &memory);
    if (seconds)
        setrlimit(RLIMIT_CPU, &time);
    chosen = number_in("EDIT");
}

__attribute__((destructor)) static void end(void)
{
    const char *name = getenv("MET");
    FILE *file = name ? fopen(name, "w") : NULL;
    if (!file)
        return;
    for (unsigned number = 0; number < MOST; number++)
        if (met[number])
            fprintf(file, "%u\n", number);
    fclose(file);
}
