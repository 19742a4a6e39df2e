/* The main of a program that has both objects. That for x86-64-v3 also tests the processor itself as it starts. */
#include "processor.h"

int main_v2(int count, char **words, char **environment);
int main_v3(int count, char **words, char **environment);

int main(int count, char **words, char **environment)
{
    return (takes_v3() ? main_v3 : main_v2)(count, words, environment);
}
